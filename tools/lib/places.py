"""Where a report's nodes and links are: which nodes it shows, which keys they have, and between whom a link is."""
from journey import node_of
from report_form import is_number


def nodes_of(entry):
    """The nodes whose queues an entry put into."""
    return [node for node in (node_of(queue) for queue, _ in entry.puts) if node is not None]


def nodes_at(report, entry):
    """The nodes into whose queues an entry put, or out of whose queues it took."""
    taken = [node_of(report.item(name)[0]) for name in entry.takes]
    return sorted(set(nodes_of(entry) + [node for node in taken if node is not None]))


def all_nodes(report, journeys):
    found = {node for entry in report.entries for node in nodes_of(entry)}
    found.update(journey.sender for journey in journeys if journey.sender is not None)
    return sorted(found)


def links_of(report):
    """The links that were made: for each, by the number of its entry, the node that dialed, and the node at which it arrived."""
    found = {}
    for entry in report.entries:
        kinds = [queue.partition(':')[0] for queue, _ in entry.puts]
        if kinds == ['attempt', 'arrivals'] and entry.puts[0][1] == 'linked':
            found[entry.number] = tuple(nodes_of(entry))
    return found


def cuts_of(report, events):
    """The entries that cut a link, each with its link."""
    acts = zip(report.entries, events)
    return [(entry.number, event.get('link')) for entry, event in acts if event.get('do') == 'cut' and entry.reply == 'ok']


def named_at_link(put):
    """What a put says of the other end of a link: the queue's node, the link and the key; nothing, if it says none."""
    queue, item = put
    said = item.get('spawn', item) if isinstance(item, dict) else None
    if not isinstance(said, dict) or not is_number(said.get('link')) or not is_number(said.get('key')):
        return None
    return node_of(queue), said['link'], said['key']


def keys_of_nodes(report, journeys):
    """The keys of nodes, as far as the report tells them."""
    keys = {journey.sender: journey.sender_key for journey in journeys if journey.sender_key is not None}
    links = links_of(report)
    for entry in report.entries:
        for node, link, key in filter(None, map(named_at_link, entry.puts)):
            ends = links.get(link, ())
            if node in ends:
                keys[ends[1 - ends.index(node)]] = key
    return keys


def link_writers(report):
    """For each direction of a link the node that writes it."""
    writes = {}
    for link, (dialing, listening) in links_of(report).items():
        writes['link:%d:out' % link] = dialing
        writes['link:%d:in' % link] = listening
    return writes


def link_ends(report, journeys):
    """For each direction of a link the node that reads it, as far as the report tells."""
    reads = {}
    for link, (dialing, listening) in links_of(report).items():
        reads['link:%d:out' % link] = listening
        reads['link:%d:in' % link] = dialing
    for journey in journeys:
        for (_, queue), (_, following) in zip(journey.steps, journey.steps[1:]):
            if queue.startswith('link:') and node_of(following) is not None:
                reads[queue] = node_of(following)
    return reads
