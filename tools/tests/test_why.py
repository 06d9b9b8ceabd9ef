"""tools/show --why: what is told of each example, and what is read off it before each entry."""
import json
import os
import unittest

from agreement import disagreements
from files import TOP, beside, read_text, reports, run_tool
from report_form import Entry, read_report
from why import FALSE, REFUSALS, REFUSING, is_refusal, why_lines

ANSWERS = os.path.join(TOP, 'examples', 'answers.report')


def due_of(path):
    """The lines that are told of an example."""
    return read_text(os.path.join(TOP, 'tools', 'tests', 'tables', os.path.basename(beside(path, '.why')))).splitlines()


def read_example(path):
    script = json.loads(read_text(beside(path, '.json')))
    return read_report(read_text(path)), script['configs'], script['script']


class Why(unittest.TestCase):

    def test_each_example_has_its_causes(self):
        for path in reports():
            with self.subTest(os.path.basename(path)):
                self.assertEqual(why_lines(*read_example(path)), due_of(path))

    def test_each_refusal_of_the_examples_is_told_once_with_a_cause(self):
        refused = 0
        for path in reports():
            report, configurations, events = read_example(path)
            told = why_lines(report, configurations, events)
            for entry in report.entries:
                lines = [line for line in told if line.startswith('event %d, ' % entry.number)]
                if is_refusal(entry.reply):
                    refused += 1
                    self.assertEqual(len(lines), 1, (path, entry.number))
                for line in lines:
                    self.assertNotIn('no cause is told', line)
        self.assertGreater(refused, 60)

    def test_each_copy_that_was_not_delivered_is_told(self):
        for path in reports():
            report, configurations, events = read_example(path)
            told = [line.split(':')[0] for line in why_lines(report, configurations, events) if line.startswith('copy ')]
            self.assertEqual(told, ['copy [%d,%d]' % name for name, fate in report.copies.items() if fate[0] != 'delivered'])

    def test_each_example_does_what_is_read_off_it(self):
        compared = 0
        for path in reports():
            found, count = disagreements(*read_example(path))
            with self.subTest(os.path.basename(path)):
                self.assertEqual(found, [])
            compared += count
        self.assertGreater(compared, 300)

    def test_a_cut_of_a_link_whose_ends_were_dropped_tells_of_the_last_drop(self):
        report, configurations, events = read_example(os.path.join(TOP, 'examples', 'ended.report'))
        count = len(events)
        report.entries.append(Entry('', count, 'gone', [], [], []))
        told = why_lines(report, configurations, [*events, {'at': events[-1]['at'], 'do': 'cut', 'link': 14}])
        line = next(line for line in told if line.startswith('event %d, cut: ' % count))
        self.assertTrue(line.startswith(
            'event %d, cut: "gone": both ends of link 14 were dropped, the last one at entry 64; first of all, event ' % count), line)

    def test_what_refuses_is_told_from_what_does_not(self):
        for reply in [*REFUSALS, *({word: 1} for word in REFUSING), *FALSE]:
            self.assertTrue(is_refusal(reply), reply)
        for reply in ('ok', 'admitted', {'sent': [2]}, {'outcome': 'ok'}, {'feedback': 'ok'}, {'peer_set': {}}, {'blocked': []}):
            self.assertFalse(is_refusal(reply), reply)


class Tool(unittest.TestCase):

    def test_it_needs_the_script(self):
        ran = run_tool('show', ANSWERS, '--why')
        self.assertEqual((ran.returncode, ran.stdout), (2, b''))
        self.assertIn(b'--why needs --script SCRIPT', ran.stderr)

    def test_either_file_may_be_standard_input_and_not_both(self):
        script = beside(ANSWERS, '.json')
        due = due_of(ANSWERS)
        for report, said, given in (('-', script, ANSWERS), (ANSWERS, '-', script), (ANSWERS, script, script)):
            ran = run_tool('show', report, '--script', said, '--why', given=read_text(given).encode())
            self.assertEqual((ran.returncode, ran.stdout.decode().splitlines(), ran.stderr), (0, due, b''))
        self.assertEqual(run_tool('show', '-', '--script', '-', '--why', given=b'').returncode, 2)
