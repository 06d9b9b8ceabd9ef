"""The sequence chart of a report: nodes as lines, time downward, copies as arrows through their connections."""
import svg
from journey import node_of
from moments import duration_text
from picture_row import Row
from picture_words import CONTROL, DROPPED, REFUSED, end_text, event_text, item_label, refuses, reply_text, short
from picture_ways import Ways
from places import all_nodes, cuts_of, keys_of_nodes, link_ends, link_writers, links_of, nodes_at
from set_up import connections_made
from sheet import Sheet

GAP = 300
LANE_ROOM = 22
BESIDE = 84
LAST_WIDTH = 420
WORDS = 280
MOST_OF_A_ROW = 40
QUIET = '#aab'
LINK = '#555'
MOST_CONNECTIONS = 3


class Chart:
    """A report, which of its entries are drawn, and where everything stands; what comes before them is one row, where it is folded."""

    gap = GAP

    def __init__(self, report, journeys, events, first, last, folded=False):
        self.report = report
        self.events = events
        self.first = first
        self.last = last
        self.beyond = len(report.entries)
        self.journeys = [one for one in journeys if one.name[0] <= last and (one.end_entry() is None or one.end_entry() >= first)]
        self.nodes = sorted({*all_nodes(report, journeys), *(event['node'] for event in events if 'node' in event)})
        self.places = {node: place for place, node in enumerate(self.nodes)}
        self.keys = keys_of_nodes(report, journeys)
        self.reads = link_ends(report, journeys)
        self.writes = link_writers(report)
        self.axis = self.axis_of_moments()
        self.left = self.axis + 10 + WORDS
        self.rows = {entry.number: self.row_of(entry) for entry in report.entries[first:last + 1]}
        self.fold = self.folded_row(first) if folded and first > 0 else None
        self.foot = Row(None, '')
        self.draw_links()
        self.ways = Ways(self)
        self.ways.draw()

    def axis_of_moments(self):
        """Where the line of time is; at the left edge, where there are no events, which alone have moments."""
        longest = max((len(duration_text(event['at'])) for event in self.events[self.first:self.last + 1]), default=-2)
        return 18 + 6.4 * longest

    def event_at(self, entry):
        return self.events[entry] if entry < len(self.events) else {}

    def x(self, node):
        return self.left + BESIDE + self.places[node] * GAP

    def node_near(self, x):
        return self.nodes[min(len(self.nodes) - 1, max(0, round((x - self.left - BESIDE) / GAP)))]

    def nodes_at(self, number):
        """The nodes where an entry acts: where it puts or takes, else the node of its event."""
        if number >= len(self.report.entries):
            return []
        event = self.event_at(number)
        return nodes_at(self.report, self.report.entries[number]) or ([event['node']] if 'node' in event else [])

    def column_at(self, x):
        """The column of labels that begins beside the node's line nearest to this place."""
        node = self.node_near(x)
        is_last = self.places[node] == len(self.nodes) - 1
        return self.x(node) + LANE_ROOM, LAST_WIDTH if is_last else GAP - LANE_ROOM - 24

    def row_at(self, entry):
        return self.foot if entry == self.beyond else self.rows.get(entry)

    def mark(self, entry, shape):
        row = self.row_at(entry)
        if row:
            row.add(shape)

    def label_at(self, entry, x, words, colour, kind='small'):
        row = self.row_at(entry)
        if row:
            row.label(self.column_at(x), words, colour, kind)

    def tell_at(self, entry, words, colour):
        """Words of which the report names no node, below those of an entry."""
        row = self.row_at(entry)
        if row:
            row.tell((self.axis + 10, WORDS), words, colour)

    def row_of(self, entry):
        """An entry by its words, a dot at each node where it acts, what it put, and a cross where a connection or a node ends."""
        event, refused = self.event_at(entry.number), refuses(entry.reply)
        row = Row(entry.number, entry.line, event.get('at'))
        words = '%d  %s%s' % (entry.number, event_text(event), reply_text(entry.reply))
        row.words = svg.text(self.axis + 10, 4, short(words, MOST_OF_A_ROW), 'row', colour=REFUSED if refused else None)
        ended = end_text(event, entry.reply)
        for node in self.nodes_at(entry.number):
            row.add(svg.cross(self.x(node), 0, 5, DROPPED) if ended else svg.dot(self.x(node), 0, 2.2, REFUSED if refused else QUIET))
            if ended:
                row.label(self.column_at(self.x(node)), ended, DROPPED)
        for queue, item in entry.puts:
            node, told = self.node_of_put(entry, queue), item_label(queue, item)
            if told and node in self.places:
                row.label(self.column_at(self.x(node)), *told, 'control')
        return row

    def node_of_put(self, entry, queue):
        """The node beside whose line a put is told: the queue's, the writer of a link, or the one where the entry acts."""
        node = self.writes.get(queue, node_of(queue))
        return next(iter(self.nodes_at(entry.number)), None) if node is None else node

    def draw_links(self):
        links = links_of(self.report)
        for link in links:
            self.draw_link(link, links[link], 'link %d' % link, LINK)
        for entry, link in cuts_of(self.report, self.events):
            if link in links:
                self.draw_link(entry, links[link], 'link %d is cut' % link, DROPPED)

    def draw_link(self, entry, ends, words, colour):
        """A link between the nodes that have its ends, at an entry that made or cut it."""
        if entry in self.rows:
            x1, x2 = sorted(map(self.x, ends))
            told = svg.text(x2 - 12, -4, words, anchor='end', colour=colour)
            self.rows[entry].below(svg.line(x1, 0, x2, 0, colour, 1.4, '5,4') + told)

    def folded_row(self, count):
        """The row that stands for so many entries, with the connections that they made."""
        row = Row(None, 'Entries 0 to %d come before the first message.' % (count - 1), self.event_at(count - 1).get('at'))
        row.words = svg.text(self.axis + 10, 4, '0 to %d  set-up, folded' % (count - 1), 'row', colour=CONTROL)
        found = connections_made(self.report, self.report.entries[:count])
        for node in self.nodes:
            made = [one for one in found if one[1] == node]
            for conn, _, key, link in made[:MOST_CONNECTIONS]:
                row.label(self.column_at(self.x(node)), 'connection %d with key %s, link %s' % (conn, key, link), CONTROL, 'control')
            if len(made) > MOST_CONNECTIONS:
                row.label(self.column_at(self.x(node)), 'and %d more' % (len(made) - MOST_CONNECTIONS), CONTROL, 'control')
        return row

    def heads(self):
        """The names of the nodes, each above its line."""
        for node in self.nodes:
            key = ', key %s' % self.keys[node] if node in self.keys else ''
            yield svg.text(self.x(node), 0, 'node %d%s' % (node, key), 'head', 'middle')

    def draw(self):
        """The text of the picture."""
        return Sheet(self).write()
