"""Why a copy was dropped, by its cause and what the entry shows."""
from journey import copies_carried
from same_run import NOT_FOLLOWING
from why_words import Cause, count_of


def copy_causes(state, entry):
    """For each copy that an entry drops: the entry and the cause, and what is behind that."""
    found = {}
    for end in entry.ends:
        if end[0] == 'copy' and end[2] != 'delivered':
            found[end[1]] = (entry.number, end[2]), cause_of(state, entry, end[1], end[2])
    return found


def cause_of(state, entry, copy, word):
    try:
        return CAUSES[word](state, entry, copy)
    except NOT_FOLLOWING:
        # The entry names what those before it do not show, so nothing is told of it.
        return None


def copy_key(state, entry, copy):
    """The node whose router takes a copy, and the key that it is for."""
    content = state.item(entry.takes[0])['content']
    return state.events[entry.number]['node'], content['to'][copy[1]], content


def unbound(state, entry, copy):
    event = state.events[entry.number]
    node = event.get('node', state.events[event['check']]['node'] if 'check' in event else None)
    return Cause('node %d has not started' % node)


def no_route(state, entry, copy):
    node, key, _ = copy_key(state, entry, copy)
    if (node, key) in state.unrouted:
        return Cause('the router of node %d took at entry %d that its connection to key %d ended'
                     % (node, state.unrouted[node, key], key))
    return Cause('the router of node %d has taken no connection to key %d' % (node, key))


def relay_full(state, entry, copy):
    node, key, content = copy_key(state, entry, copy)
    queue = '%s:%d:%d' % ('high' if content['priority'] else 'low', node, state.routes[node, key][0])
    size = state.configurations[node]['mailbox_size']
    return Cause('%s holds %s, as many as mailbox_size of node %d' % (queue, count_of(size, 'message'), node))


def ended(state, entry, copy):
    """With a connection that ends here, or has ended before; or with an end of a link that is dropped here."""
    event = state.events[entry.number]
    if event['do'] == 'router':
        node, key, _ = copy_key(state, entry, copy)
        conn = state.routes[node, key][0]
        one = state.connections[conn]
        return Cause('connection %d to key %d ended at entry %d: %s' % (conn, key, one.ended, one.reason), one.ended)
    if event['do'] in ('send_step', 'recv_step'):
        return Cause('connection %d ends here: %s' % (event['conn'], entry.reply['ended']), entry.number)
    kind = event['do']
    return Cause('%s %d ends here and drops its end of the link' % (kind, event[kind]), entry.number)


def cut(state, entry, copy):
    return Cause('it was in flight over link %d, which was cut' % state.events[entry.number]['link'])


def stopped(state, entry, copy):
    """It stood at a node that stops here, or was in flight towards it."""
    ended = [end[1] for end in entry.ends if end[0] == 'item']
    queue = next(state.queues.home[name] for name in ended if copy in copies_carried(state.item(name)))
    where = 'was in flight over link %s towards' % queue.split(':')[1] if queue.startswith('link:') else 'stood in %s at' % queue
    return Cause('it %s node %d, which stops here' % (where, state.events[entry.number]['node']))


def refused(state, entry, copy):
    return Cause('connection %d ends here: %s' % (state.events[entry.number]['conn'], entry.reply['ended']), entry.number)


def channel_at(state, entry, copy):
    event = state.events[entry.number]
    return event['node'], state.channel_of(copy)


def full_mailbox(state, entry, copy):
    node, channel = channel_at(state, entry, copy)
    size = state.channels[node, channel][2]
    return Cause('channel:%d:%d holds %s, as many as it may' % (node, channel, count_of(size, 'message')))


def closed(state, entry, copy):
    node, channel = channel_at(state, entry, copy)
    number = state.closed.get((node, channel), entry.number)
    return Cause('the reader of channel %d of node %d was dropped by event %d' % (channel, node, number))


CAUSES = {
    'unbound': unbound, 'no_connection': no_route, 'relay_full': relay_full, 'connection_ended': ended, 'link_cut': cut,
    'frame_refused': refused, 'channel_unregistered': refused, 'mailbox_full': full_mailbox, 'receiver_closed': closed,
    'node_stopped': stopped,
}
