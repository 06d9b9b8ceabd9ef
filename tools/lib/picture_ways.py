"""The ways of copies in a picture: along a node's line while they stand there, across while they are on a link."""
import svg
from picture_words import DROPPED

LANES = (0, 7, -7, 14, -14)
COLOURS = ('#1f6fb4', '#d2691e', '#2e8b57', '#8a4fbf', '#b8860b', '#008b8b', '#c2528b', '#556b2f')
MOST_NAMED = 2


class Way:
    """The legs of a copy: each from a place at an entry to a place at a later one, as a line or an arrow, whole or dashed."""

    def __init__(self, journey, colour):
        self.name = journey.name
        self.colour = colour
        self.legs = []

    def shapes(self, height_of):
        """The shapes, where the heights of the entries are these."""
        for kind, x1, first, x2, last in self.legs:
            y1, y2 = height_of(first), height_of(last)
            if kind == 'stand':
                yield svg.line(x1, y1, x2, y2, self.colour, 2.6)
            else:
                yield svg.arrow(x1, y1, x2, y2, self.colour, '4,3' if kind == 'lost' else None)


def names_text(names):
    """Copies by their names, of many how many they are."""
    return ' '.join('[%d,%d]' % name for name in names) if len(names) <= MOST_NAMED else '%d copies' % len(names)


def lanes_of(journeys):
    """How far beside the nodes' lines each copy goes: on the first lane that no earlier copy is on, and in turn, where none is free."""
    free_from = [0] * len(LANES)
    for place, journey in enumerate(journeys):
        send, end = journey.name[0], journey.end_entry()
        lane = next((lane for lane, free in enumerate(free_from) if free <= send), place % len(LANES))
        free_from[lane] = float('inf') if end is None else max(free_from[lane], end + 1)
        yield LANES[lane]


class Ways:
    """Draws each copy: its way, and what it leaves at the rows of its entries."""

    def __init__(self, chart):
        self.chart = chart
        self.ways = []
        self.begun = {}
        self.ended = {}
        self.labelled = set()

    def draw(self):
        drawn = [journey for journey in self.chart.journeys if journey.sender in self.chart.places]
        for place, (journey, lane) in enumerate(zip(drawn, lanes_of(drawn))):
            self.draw_journey(journey, COLOURS[place % len(COLOURS)], lane)
        self.label_begun()
        self.label_ended()
        self.tell_placeless()

    def tell_placeless(self):
        """How the copies ended that entered no queue, as those of a node that has not started: the report names no node of theirs."""
        found = {}
        for journey in self.chart.journeys:
            if journey.sender not in self.chart.places and journey.fate[0] == 'dropped':
                found.setdefault((journey.end_entry(), journey.fate[1]), []).append(journey.name)
        for (entry, cause), names in found.items():
            self.chart.tell_at(entry, '%s dropped: %s' % (names_text(names), cause), DROPPED)

    def draw_journey(self, journey, colour, lane):
        send, end = journey.name[0], journey.end_entry()
        way = Way(journey, colour)
        x = self.chart.x(journey.sender) + lane
        self.begun.setdefault((send, journey.sender), []).append((journey, colour))
        self.chart.mark(send, svg.dot(x, 0, 4, colour))
        stops = [(send, '')] + journey.steps
        following = [entry for entry, _ in journey.steps] + [self.chart.beyond if end is None else end]
        before = x
        for (entry, queue), after in zip(stops, following):
            if entry != send:
                self.label_queue(queue, entry, (before, x), colour)
            before, x = x, self.add_leg(way, journey, queue, (x, entry, after), lane)
        self.ways.append(way)
        self.end(journey, x, following[-1], colour)

    def label_queue(self, queue, entry, moved, colour):
        """The name of a queue that a copy enters, once for all copies that enter it there, away from what crosses."""
        if (entry, queue) in self.labelled:
            return
        self.labelled.add((entry, queue))
        before, x = moved
        reader = self.chart.reads.get(queue)
        if before > x or (reader in self.chart.places and self.chart.x(reader) > x):
            self.chart.mark(entry, svg.text(self.chart.x(self.chart.node_near(x)) - 18, 4, queue, anchor='end', colour=colour))
        else:
            self.chart.label_at(entry, x, queue, colour)

    def add_leg(self, way, journey, queue, leg, lane):
        """A copy from one entry to the next; answers where it is then."""
        x, entry, after = leg
        if not queue.startswith('link:'):
            way.legs.append(('stand', x, entry, x, after))
            return x
        reader = self.chart.reads.get(queue)
        known = reader in self.chart.places
        if known and (journey.steps[-1][1] != queue or self.is_taken(journey, queue, after)):
            there = self.chart.x(reader) + lane
            way.legs.append(('cross', x, entry, there, after))
            return there
        middle = (x + self.chart.x(reader) + lane) / 2 if known else x + self.chart.gap / 2
        way.legs.append(('lost', x, entry, middle, after))
        return middle

    def is_taken(self, journey, queue, entry):
        """Whether this entry takes the copy's item off the link."""
        if journey.end_entry() is None:
            return False
        return any(self.chart.report.item(name)[0] == queue for name in self.chart.report.entries[entry].takes)

    def end(self, journey, x, entry, colour):
        """The mark of its end, and what is to be told there, of all that end alike together."""
        how = journey.fate[0]
        if how == 'dropped':
            self.chart.mark(entry, svg.cross(x, 0, 5, DROPPED))
            node = next(iter(self.chart.nodes_at(entry)), journey.sender)
            words, colour = 'dropped: %s' % journey.fate[1], DROPPED
        else:
            self.chart.mark(entry, svg.dot(x, 0, 4, colour, how == 'delivered'))
            node = self.chart.node_near(x)
            words = how if how == 'delivered' else journey.end_text()
        self.ended.setdefault((entry, node, words), []).append((journey, colour))

    def label_begun(self):
        for (send, node), found in self.begun.items():
            if len(found) <= MOST_NAMED:
                for journey, colour in found:
                    self.chart.label_at(send, self.chart.x(node), '[%d,%d] to key %s' % (*journey.name, journey.recipient), colour)
            else:
                keys = ', '.join(str(journey.recipient) for journey, _ in found[:6]) + (', …' if len(found) > 6 else '')
                self.chart.label_at(send, self.chart.x(node), '%d copies to keys %s' % (len(found), keys), found[0][1])

    def label_ended(self):
        for (entry, node, words), found in self.ended.items():
            told = '%s %s' % (names_text([journey.name for journey, _ in found]), words)
            if len(found) > MOST_NAMED:
                told = told.replace('waits', 'wait', 1)
            self.chart.label_at(entry, self.chart.x(node), told, found[0][1])
