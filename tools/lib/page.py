"""A page of a report: the picture, to be looked at with a browser, in one file that asks nothing of any network."""
import json
import os
import re
from html import escape

import svg
from chart import Chart
from entry_tags import Tagger
from legend import legend
from picture_row import ROW
from picture_words import short
from sheet import HEAD, JUMP, Sheet, band_shape, gap_shapes

FOLDER = os.path.join(os.path.dirname(os.path.realpath(__file__)), 'page')
SCRIPTS = ('layout.js', 'draw.js', 'filter.js', 'detail.js', 'main.js')
PLACE = re.compile(r'\{\{(NAME|STYLE|SCRIPT|DATA)\}\}')
MARK = '@'
LEGEND_WIDTH = 1000


def part(name):
    with open(os.path.join(FOLDER, name), encoding='utf-8') as source:
        return source.read()


def row_data(row):
    """A row for the page: its shapes, its height, its moment in digits, since it may be beyond what a browser counts, and its words."""
    return [''.join(row.shapes), row.height, None if row.at is None else str(row.at), row.words]


def tag_data(tags):
    copies = ['%d,%d' % name for name in sorted(tags.copies)]
    return [*(sorted(map(str, found), key=int) for found in (tags.nodes, tags.connections, tags.channels)), copies]


def page_data(chart, set_up):
    """What the page knows, as values of JSON."""
    tagger = Tagger(chart.report, chart.journeys, chart.events)
    shapes, height = legend(LEGEND_WIDTH)
    width = Sheet(chart).width
    return {
        'width': width, 'axis': chart.axis, 'left': chart.left, 'nodes': {node: chart.x(node) for node in chart.nodes},
        'head': [''.join(chart.heads()), HEAD], 'legend': [''.join(shapes), LEGEND_WIDTH, height], 'row': ROW,
        'jump': [JUMP, band_shape(chart.axis, width), ''.join(gap_shapes(chart.axis, MARK))], 'mark': MARK,
        'setUp': set_up, 'fold': row_data(chart.folded_row(set_up)) if set_up else None, 'foot': row_data(chart.foot),
        'rows': [row_data(row) for row in chart.rows.values()],
        'lines': [entry.line for entry in chart.report.entries],
        'tags': [tag_data(tagger.tags_of(entry)) for entry in chart.report.entries],
        'ways': [['%d,%d' % way.name, way.colour, way.legs, chart.report.line_of_copy(way.name)] for way in chart.ways.ways],
        'copies': {'%d,%d' % name: chart.report.line_of_copy(name) for name in chart.report.copies},
    }


def in_a_script(value):
    """JSON that no browser takes for the end of the script in which it stands."""
    return json.dumps(value, separators=(',', ':'), ensure_ascii=False).replace('<', '\\u003c').replace('\u2028', '\\u2028')


def page(report, found, events, set_up, name):
    """The text of the page."""
    chart = Chart(report, found, events, 0, len(report.entries) - 1)
    given = {'NAME': escape(svg.printable(short(name, 80))), 'STYLE': svg.STYLE + part('page.css'),
             'DATA': in_a_script(page_data(chart, set_up)), 'SCRIPT': '\n'.join(map(part, SCRIPTS))}
    return PLACE.sub(lambda found: given[found.group(1)], part('page.html'))
