"""The sheet on which a chart is drawn: its rows one below the other, with a gap where time jumps, and what goes across them."""
import svg
from legend import legend
from moments import duration_text, later_text
from picture_row import ROW

HEAD = 40
JUMP = 26
AXIS = '#8a93a0'
LINE = '#888'
GUIDE = '#f0f0f0'


def band_shape(axis, width):
    """The ground of a place where time jumps, which lies below all else."""
    return '<rect x="%s" y="4" width="%s" height="%s" fill="#f3f5f8"/>' % tuple(map(svg.number, (axis, width - axis, JUMP - 8)))


def gap_shapes(axis, words):
    """What stands where time jumps, from the top of the gap: a break of the line of time, and how much later it goes on."""
    middle = JUMP / 2
    marks = [svg.line(axis - 5, middle + shift + 3, axis + 5, middle + shift - 3, AXIS, 1.2) for shift in (-2, 3)]
    return [*marks, svg.text(axis + 10, middle + 4, words, 'moment')]


def moment_shapes(axis, at, is_first):
    """An entry's tick on the line of time, and the moment at the first entry that has it."""
    shapes = [svg.line(axis - 3, 0, axis + 3, 0, AXIS)]
    return shapes + [svg.text(axis - 8, 4, duration_text(at), 'moment', 'end')] if is_first else shapes


class Sheet:
    """Where each row of a chart is, and the text of the whole."""

    def __init__(self, chart):
        self.chart = chart
        self.width = self.width_of()
        self.legend, self.top = legend(self.width)
        self.heights = {}
        self.ground = []
        self.shapes = []
        self.bottom = self.top + HEAD
        self.last_moment = None

    def width_of(self):
        chart = self.chart
        rows = [chart.foot, *chart.rows.values(), *([chart.fold] if chart.fold else [])]
        needed = [row.right for row in rows] + [chart.x(node) + 100 for node in chart.nodes]
        return int(max([chart.left + 300, *needed])) + 16

    def place(self, row):
        """Puts a row below the others, behind a gap where its moment is later than that of the one before."""
        axis, before = self.chart.axis, self.last_moment
        if row.at is not None and before is not None and row.at > before:
            self.ground.append(svg.group([band_shape(axis, self.width)], move=self.bottom))
            self.shapes.append(svg.group(gap_shapes(axis, later_text(before, row.at)), move=self.bottom))
            self.bottom += JUMP
        y = self.bottom + ROW / 2
        timed = []
        if row.at is not None:
            self.ground.append(svg.line(axis, self.bottom, axis, self.bottom + row.height, AXIS, 1.2))
            timed = moment_shapes(axis, row.at, before != row.at)
            self.last_moment = row.at
        self.shapes.append(svg.group([*timed, row.words, *row.shapes], row.title, y))
        self.bottom += row.height
        return y

    def height_of(self, entry):
        """The height of an entry; those that are not drawn are all just above or just below."""
        if entry in self.heights:
            return self.heights[entry]
        return self.bottom - ROW / 2 if entry > self.chart.last else self.top + HEAD - ROW / 4

    def guides(self):
        chart = self.chart
        for y in self.heights.values():
            yield svg.line(chart.left, y, self.width - 10, y, GUIDE)
        for node in chart.nodes:
            yield svg.line(chart.x(node), self.top + HEAD - 12, chart.x(node), self.bottom - 4, LINE, 1.2)

    def write(self):
        chart = self.chart
        if chart.fold:
            self.place(chart.fold)
        for number, row in chart.rows.items():
            self.heights[number] = self.place(row)
        if chart.foot.shapes:
            self.place(chart.foot)
        copies = [svg.group(way.shapes(self.height_of), chart.report.line_of_copy(way.name)) for way in chart.ways.ways]
        heads = svg.group(chart.heads(), move=self.top + HEAD - 20)
        shapes = [*self.legend, *self.ground, *self.guides(), *copies, heads, *self.shapes]
        return svg.whole(self.width, self.bottom + 10, shapes)
