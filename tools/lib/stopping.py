"""What a node that stops leaves: what ends with it, in order, and what is told there afterwards."""
from journey import copies_carried
from why_words import reply_text

# The queues of its parts, before those of its attempts, its handshakes and its connections.
OF_NODE = ('router', 'tracker', 'spawner', 'arrivals', 'update', 'dialer')
OF_CONNECTION = ('high', 'low', 'held', 'control', 'ready')
# What is told at a stopped node alone, and what is told at no stopped node.
AFTER = ('network_closed', 'stream_ended', {'feedback': 'closed'}, {'outcome': 'closed'})
BEFORE = ('pending', 'idle', {'feedback': 'ok'}, {'feedback': 'backoff'}, {'outcome': 'ok'}, {'outcome': 'rejected'})


def stops_node(event):
    """Whether an event asks that its node stops: it does so too where it starts and does not bind."""
    return event.get('do') == 'stop' or event.get('do') == 'start' and event.get('bind') is False


def that_run(actors, node):
    """The actors of a node that have not ended, in order."""
    return [one for _, one in sorted(actors.items()) if one.node == node and one.ended is None]


def side_of(link, node):
    """The end of a link that a node had."""
    return 'out' if link.node == node else 'in'


def towards(number, side):
    """The queue of what is in flight towards an end of a link."""
    return 'link:%d:%s' % (number, 'in' if side == 'out' else 'out')


def brought(state, node, item):
    """The queue of what is in flight towards the end of a link that a message to the spawner, or an arrival, hands on."""
    said = item.get('spawn', item) if isinstance(item, dict) else {}
    link = state.links.get(said.get('link'))
    return [] if link is None else [towards(link.number, 'in' if said is item else side_of(link, node))]


def queues_of_actors(state, node):
    """The queues of its attempts, its handshakes and its connections, with what is in flight towards the ends of links that they have."""
    for one in that_run(state.attempts, node):
        yield 'attempt:%d:%d' % (node, one.number)
        if one.answered in state.links:
            yield towards(one.answered, 'out')
    for one in that_run(state.handshakes, node):
        yield 'handshake:%d:%d' % (node, one.number)
        yield towards(one.link, 'in')
    for one in that_run(state.connections, node):
        yield from ('%s:%d:%d' % (kind, node, one.number) for kind in OF_CONNECTION)
        yield one.frames()


def emptied(state, node):
    """The items that end with a node, in order."""
    for queue in [*('%s:%d' % (kind, node) for kind in OF_NODE), *queues_of_actors(state, node)]:
        for name, item in state.queues.line(queue):
            yield name
            for other in brought(state, node, item) if queue.split(':')[0] in ('spawner', 'arrivals') else ():
                yield from (one for one, _ in state.queues.line(other))


def stop_ends(state, node):
    """What a stop ends: each item, and then its copies."""
    found = []
    for name in dict.fromkeys(emptied(state, node)):
        found.append(('item', name))
        found += [('copy', copy, 'node_stopped') for copy in copies_carried(state.item(name))]
    return found


def ends_text(ends):
    return '[%s]' % ', '.join('%s [%d,%d]' % (kind, *name) for kind, name, *_ in ends)


def stop_misfit(state, entry, event):
    """Why it does not end what ends with its node, and nothing else."""
    due = stop_ends(state, event['node'])
    if entry.puts:
        return 'it puts something into %s, and what stops a node puts nothing' % entry.puts[0][0]
    if entry.ends == due:
        return None
    return 'it ends %s, and with node %d ends %s' % (ends_text(entry.ends), event['node'], ends_text(due))


def node_asked(state, event):
    """The node of an event, or of the question or the check that it names."""
    number = event.get('question', event.get('check'))
    return event.get('node') if number is None else state.events[number].get('node')


def after_misfit(state, entry, event):
    """Why its node has to have stopped, and did not; or has to run, and has stopped."""
    node, reply = node_asked(state, event), entry.reply
    is_stopped = node in state.stopped
    is_after = reply in AFTER or reply == {'peer_set': None} and not entry.takes
    if is_after and not is_stopped:
        return 'the reply is %s, and node %s was not stopped before' % (reply_text(reply), node)
    is_before = reply in BEFORE or isinstance(reply, dict) and bool(reply.get('sent'))
    if is_before and is_stopped:
        return 'the reply is %s, and event %d stopped node %d' % (reply_text(reply), state.stopped[node], node)
    return None
