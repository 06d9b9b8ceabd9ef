"""The picture of tools/show: what is folded, when its entries are, what they say when pointed at, and what is in another colour."""
import json
import os
import re
import tempfile
import unittest
import xml.dom.minidom

from chart import Chart
from files import TOP, beside, read_text, run_tool
from journey import journeys
from moments import duration_text, later_text
from picture_row import WIDE, Row
from picture_ways import lanes_of
from picture_words import CONTROL, DROPPED, REFUSED, item_label
from report_form import read_report
from set_up import connections_made, length_of_set_up

LABEL = re.compile(r'<text x="([^"]*)" y="(\d+)" class="(small|control)"(?: style="[^"]*")?>([^<]*)<')
ITEMS = {
    ('router:0', '{"subscribe":7}'): ('subscribe 7 → router', CONTROL),
    ('tracker:0', '{"dial":3}'): ('dial 3 → tracker', CONTROL),
    ('dialer:0', '{"dial":{"ingress":{"ip":[10,0,0,3],"port":3000},"key":3}}'): ('dial 3 → dialer', CONTROL),
    ('dialer:0', '{"dial":null}'): ('dial null → dialer', REFUSED),
    ('dialer:0', '{"dialable":{"next":null,"peers":[2,3]}}'): ('dialable [2, 3] → dialer', CONTROL),
    ('update:0', '[[10,0,0,2]]'): ('10.0.0.2 → update', CONTROL),
    ('update:0', '[[10,0,0,2],[10,0,0,3],[10,0,0,4]]'): ('3 addresses → update', CONTROL),
    ('control:0:24', '"kill"'): ('kill → control 24', DROPPED),
    ('handshake:1:16', '{"acceptable":false}'): ('acceptable false → handshake 16', REFUSED),
    ('handshake:1:16', '{"acceptable":true}'): ('acceptable true → handshake 16', CONTROL),
    ('arrivals:1', '{"from":{"ip":[10,0,0,1],"port":40000},"key":1,"link":13}'): ('arrival of key 1 → arrivals', CONTROL),
    ('answer:3', 'null'): ('null → answer 3', REFUSED),
}


def example(name):
    """The report of an example and its events."""
    path = os.path.join(TOP, 'examples', name + '.report')
    return read_report(read_text(path)), json.loads(read_text(beside(path, '.json')))['script']


def chart_of(name, folded):
    report, events = example(name)
    first = length_of_set_up(report, events) if folded else 0
    return Chart(report, journeys(report, events), events, first, len(report.entries) - 1, folded)


class Picture(unittest.TestCase):

    def test_the_set_up_is_all_before_the_first_message(self):
        for name, due in (('hello', 36), ('quotas', 2), ('checked', 1), ('blocked', 0), ('dialing', 0)):
            report, events = example(name)
            self.assertEqual((name, length_of_set_up(report, events), length_of_set_up(report, [])), (name, due, due))

    def test_the_set_up_is_one_row_until_all_is_asked_for(self):
        report = os.path.join(TOP, 'examples', 'hello.report')
        with tempfile.TemporaryDirectory() as folder:
            picture = os.path.join(folder, 'picture.svg')
            for words, is_folded in (([], True), (['--all'], False), (['--from', '30'], False)):
                self.assertEqual(run_tool('show', report, '--svg', picture, *words).returncode, 0)
                drawn = read_text(picture)
                self.assertEqual(('0 to 35  set-up, folded' in drawn, '"n":35,' in drawn), (is_folded, not is_folded))

    def test_the_row_of_the_set_up_has_the_connections_that_it_made(self):
        report, _ = example('hello')
        self.assertEqual(connections_made(report, report.entries), [(24, 0, 2, 13), (25, 1, 1, 13)])
        drawn = chart_of('hello', True).draw()
        self.assertIn('connection 24 with key 2, link 13', drawn)
        self.assertIn('connection 25 with key 1, link 13', drawn)

    def test_a_moment_is_told_once_and_a_jump_by_how_long_it_is(self):
        drawn = chart_of('pings', True).draw()
        self.assertEqual(re.findall(r'class="moment"[^>]*>([^<]*)<', drawn), [
            '0 s', '0.999999999 s later', '0.999999999 s', '1 ns later', '1 s', '1 s later', '2 s', '0.999999999 s later',
            '2.999999999 s', '1 ns later', '3 s'])

    def test_without_a_script_there_are_no_moments(self):
        report, _ = example('pings')
        drawn = Chart(report, journeys(report, []), [], 0, len(report.entries) - 1).draw()
        self.assertNotIn('class="moment"', drawn)

    def test_durations_are_in_seconds_and_short_ones_in_nanoseconds(self):
        for due, given in (('0 s', 0), ('1 ns', 1), ('1,000 ns', 1000), ('0.001 s', 1000000), ('62.5 s', 62500000000),
                           ('18446744073.709551615 s', (1 << 64) - 1)):
            self.assertEqual(duration_text(given), due)
        self.assertEqual(later_text(999999999, 3000000000), '2.000000001 s later')

    def test_each_row_has_the_line_of_its_entry_and_each_copy_its_own(self):
        chart = chart_of('ended', False)
        tree = xml.dom.minidom.parseString(chart.draw())
        titles = [one.firstChild.data for one in tree.getElementsByTagName('title')]
        lines = read_text(os.path.join(TOP, 'examples', 'ended.report')).splitlines()[:-1]
        self.assertEqual(sorted(titles), sorted(lines))

    def test_an_item_is_told_with_its_queue_and_in_its_colour(self):
        for (queue, item), due in ITEMS.items():
            self.assertEqual(item_label(queue, json.loads(item)), due)
        self.assertIsNone(item_label('low:0:24', {'copy': [36, 0], 'frame': '00'}))

    def test_what_is_gone_pending_idle_or_empty_is_in_another_colour(self):
        drawn = chart_of('quotas', False).draw() + chart_of('answers', False).draw()
        rows = re.findall(r'class="row"( style="[^"]*")?>\d+  ([^<]*)<', drawn)
        refused = {words for style, words in rows if REFUSED in style}
        self.assertEqual({words.rsplit(': ')[-1] for words in refused},
                         {'sent []', 'message_too_large [6, 5]', 'gone', 'pending', 'idle'})
        self.assertIn('node 0 send: sent [2]', {words for style, words in rows if not style})

    def test_many_ends_are_one_label_and_few_are_named(self):
        drawn = chart_of('ended', False).draw()
        self.assertIn('>4 copies dropped: connection_ended<', drawn)
        self.assertIn('>[52,0] dropped: connection_ended<', drawn)
        self.assertIn('>5 copies wait in router:0<', chart_of('quotas', True).draw())

    def test_a_copy_that_entered_no_queue_is_told_below_the_words_of_its_entry(self):
        # The script would tell the node, and the report alone does not.
        report, _ = example('unbound')
        row = Chart(report, journeys(report, []), [], 0, len(report.entries) - 1).rows[1]
        self.assertIn('[1,0] dropped: unbound', ''.join(row.shapes))
        self.assertEqual(row.lines, 2)

    def test_labels_of_one_row_do_not_lie_on_each_other(self):
        self.assertEqual(chart_of('ended', False).rows[64].height, 24 + 2 * 13)
        for name in ('ended', 'three-nodes', 'recipients'):
            rows = chart_of(name, False).rows.values()
            for row in rows:
                labels = sorted((int(y), float(x), kind, words) for x, y, kind, words in LABEL.findall(''.join(row.shapes)))
                for (y, x, kind, words), (below, right, _, _) in zip(labels, labels[1:]):
                    self.assertTrue(y < below or x + WIDE[kind] * len(words) < right, (name, row.number, words))
                self.assertLess(max([y for y, *_ in labels], default=0), row.height - 6)

    def test_a_label_that_is_wider_than_its_column_is_cut(self):
        row = Row(0, '')
        row.label((100, 64), 'ten marks.', CONTROL)
        row.label((200, 64), 'eleven mark', CONTROL)
        self.assertEqual(re.findall('>([^<]*)</text>', ''.join(row.shapes)), ['ten marks.', 'eleven ma…'])

    def test_copies_that_follow_each_other_are_on_the_line_and_others_beside_it(self):
        for name, due in (('pings', [0, 0]), ('quotas', [0, 7, -7, 14, -14]), ('ended', [0, 7, -7, 14, -14, 0, 7, 0, 0, 0])):
            report, events = example(name)
            self.assertEqual((name, list(lanes_of(journeys(report, events)))), (name, due))
