"""Why a step of a router, a spawner or a half of a connection did nothing, or ended its connection."""
from limiter import quota_text
from why_words import Cause, began_none, not_up, stopped


def why_router(state, entry, event):
    node = event['node']
    if entry.reply == 'gone':
        return not_up(state, node)
    return Cause(state.queues.nothing_waits('router:%d' % node))


def why_spawner(state, entry, event):
    """A spawner without a message: behind it is an attempt or a handshake of its node that ended before one was put."""
    node, queue = event['node'], 'spawner:%d' % event['node']
    if entry.reply == 'gone':
        return not_up(state, node)
    ended = [one.ended for one in [*state.attempts.values(), *state.handshakes.values()]
             if one.node == node and one.ended is not None and one.ended > state.queues.put_last.get(queue, -1)]
    return Cause(state.queues.nothing_waits(queue), max(ended, default=None))


def no_connection(state, event):
    """Why there is no connection, or none any more."""
    conn, node = event['conn'], event['node']
    if not state.is_up(node):
        return not_up(state, node)
    if conn not in state.connections:
        return began_none(state, conn, 'made no connection')
    one = state.connections[conn]
    if one.ended is None:
        return None
    return Cause('connection %d ended at entry %d: %s' % (conn, one.ended, one.reason), one.ended)


def why_send_step(state, entry, event):
    if entry.reply == 'gone':
        return no_connection(state, event)
    one = state.connections[event['conn']]
    if isinstance(entry.reply, dict):
        return why_ended(state, entry, one)
    if one.running is None:
        return Cause('its router has not taken that the connection begins: that waits in router:%d since entry %d'
                     % (one.node, one.begun))
    queues = ['%s:%d:%d' % (kind, one.node, one.number) for kind in ('high', 'low')]
    due = one.counted + state.configurations[one.node]['ping_frequency']
    return Cause('nothing waits in %s or in %s, and its next ping is due at %d' % (*queues, due))


def why_recv_step(state, entry, event):
    if entry.reply == 'gone':
        return no_connection(state, event)
    one = state.connections[event['conn']]
    if isinstance(entry.reply, dict):
        return why_ended(state, entry, one)
    if one.running is None:
        return Cause('connection %d does not run yet: %s' % (one.number, how_far(one)))
    held = state.queues.line('held:%d:%d' % (one.node, one.number))
    if held:
        return held_back(state, one, *held[0])
    return Cause(state.queues.nothing_waits(one.frames()))


def how_far(one):
    if one.begun is None:
        return 'no step of its sending half was done'
    return 'its sending half, which began at entry %d, has not taken its router\'s answer' % one.begun


def held_back(state, one, name, item):
    """What is held, and until when its quota does not admit it."""
    what, quota = state.metered(one, item)
    limiter = state.limiter(quota, 'link', one.number, what)
    kind = 'pings' if what == 'ping' else 'channel %d' % what
    return Cause('held:%d:%d holds what entry %d put there until the quota of %s (%s) admits it, from %d on; it admitted one '
                 'last at entry %d' % (one.node, one.number, name[0], kind, quota_text(quota), limiter.retry(), limiter.last))


def why_ended(state, entry, one):
    """What is behind the end of a connection, by its reason."""
    reason = entry.reply.get('ended')
    if reason == 'killed':
        return why_killed(state, entry.takes[0][0])
    if reason in ('send_failed', 'receive_failed'):
        return why_broken(state, state.links[one.link], 'in' if one.side == 'out' else 'out')
    copy = state.item(entry.takes[0])['copy']
    if reason == 'invalid_channel':
        return Cause('copy [%d,%d] came on channel %d, which is not registered at node %d'
                     % (*copy, state.channel_of(copy), one.node))
    sent = state.events[copy[0]]['bytes'] if copy else ''
    most = state.configurations[one.node]['max_message_size']
    return Cause('the message of copy [%d,%d] has %d bytes, and max_message_size of node %d is %d'
                 % (*copy, len(sent) // 2, one.node, most)) if copy else None


def why_broken(state, link, other):
    """What broke a link first: the drop of its other end, which the stop of its node may have been, or a cut."""
    dropped = link.dropped.get(other)
    if dropped is not None and (link.cut is None or dropped < link.cut):
        if dropped in state.stopped.values():
            node = link.to if other == 'in' else link.node
            return Cause('the other end of link %d was dropped: %s' % (link.number, stopped(state, node).text))
        return Cause('the other end of link %d was dropped at entry %d' % (link.number, dropped), dropped)
    return None if link.cut is None else Cause('event %d cut link %d' % (link.cut, link.number))


def why_killed(state, number):
    """The message for which the tracker put a kill."""
    item = state.served.get(number, {})
    text = 'the tracker put the kill at entry %d' % number
    if 'call' in item:
        return Cause('%s, for the %s of event %d' % (text, state.events[item['call']]['do'], item['call']))
    return Cause('%s, where it took that the connection begins' % text if 'connect' in item else text)
