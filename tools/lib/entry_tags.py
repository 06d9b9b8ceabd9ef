"""What each entry of a report is about: its nodes, its connections, its channels and its copies, by which a page chooses entries."""
from journey import copies_carried, node_of
from places import cuts_of, link_ends, link_writers, links_of, nodes_at
from report_form import is_number
from set_up import connections_made
from stopping import stops_node

OF_CONNECTION = ('ready', 'control', 'high', 'low', 'held')
OF_CHANNEL = ('channel', 'peers')


class Tags:
    """The nodes, connections, channels and copies of an entry."""

    def __init__(self):
        self.nodes, self.connections, self.channels, self.copies = set(), set(), set(), set()

    def add_item(self, queue, item):
        kind, *numbers = queue.split(':')
        if kind in OF_CONNECTION and node_of(queue) is not None:
            self.connections.add(int(numbers[-1]))
        if kind in OF_CHANNEL:
            self.channels.add(int(numbers[-1]))
        self.copies.update(copies_carried(item))
        for value in (item, *(item.values() if isinstance(item, dict) else ())):
            if isinstance(value, dict):
                self.add_named(value)

    def add_named(self, value):
        """What an object names at `conn`, `channel` and `subscribe`."""
        if is_number(value.get('conn')):
            self.connections.add(value['conn'])
        for name in ('channel', 'subscribe'):
            if is_number(value.get(name)):
                self.channels.add(value[name])

    def add_event(self, event):
        if 'node' in event:
            self.nodes.add(event['node'])
        self.add_named(event)


def touched(report, entry):
    """Each item that an entry put, took or ended, with its queue."""
    names = entry.takes + [end[1] for end in entry.ends if end[0] == 'item']
    return entry.puts + [report.item(name) for name in names]


class Tagger:
    """Tells the tags of the entries of a report, with those events of its script that are at hand."""

    def __init__(self, report, journeys, events):
        self.report = report
        self.events = events
        made = connections_made(report, report.entries)
        self.made = {number: node for number, node, *_ in made}
        self.connections = {(link, node): number for number, node, _, link in made if is_number(link)}
        self.writers, self.readers = link_writers(report), link_ends(report, journeys)
        self.links, self.cuts = links_of(report), dict(cuts_of(report, events))
        self.channels = {journey.name: journey.channel for journey in journeys if is_number(journey.channel)}
        self.sent = {}
        for journey in journeys:
            self.sent.setdefault(journey.name[0], []).append(journey.name)

    def connection_of(self, queue, nodes):
        """The connection of a node that writes a link, or reads it."""
        kind, number, *_ = queue.split(':')
        return self.connections.get((int(number), nodes.get(queue))) if kind == 'link' else None

    def add_cut(self, tags, link):
        """The nodes at the ends of a link that is cut, and their connections over it."""
        for node in self.links.get(link, ()):
            tags.nodes.add(node)
            tags.connections.add(self.connections.get((link, node)))

    def add_stop(self, tags, entry, event):
        """The connections of a node that stops, of which some may have ended before."""
        if stops_node(event) and entry.reply == 'ok':
            tags.connections.update(number for number, node in self.made.items() if node == event['node'] and number < entry.number)

    def tags_of(self, entry):
        tags = Tags()
        tags.nodes.update(nodes_at(self.report, entry))
        for queue, item in touched(self.report, entry):
            tags.add_item(queue, item)
        if entry.number < len(self.events):
            tags.add_event(self.events[entry.number])
            self.add_stop(tags, entry, self.events[entry.number])
        for queue, _ in entry.puts:
            tags.connections.add(self.connection_of(queue, self.writers))
        for name in entry.takes:
            tags.connections.add(self.connection_of(self.report.item(name)[0], self.readers))
        if entry.number in self.made:
            tags.connections.add(entry.number)
        self.add_cut(tags, self.cuts.get(entry.number))
        tags.copies.update(self.sent.get(entry.number, ()), (end[1] for end in entry.ends if end[0] == 'copy'))
        tags.channels.update(self.channels[name] for name in tags.copies if name in self.channels)
        tags.connections.discard(None)
        return tags
