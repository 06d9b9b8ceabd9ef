"""tools/show --copy: the way of one copy, with what stood before it, and its end with the cause."""
import os
import unittest

from copy_way import way_lines
from files import TOP, beside, read_text, reports, run_tool
from journey import journeys
from report_form import read_report

WAYS = {
    ('waiting', '36,0'): '''\
copy [36,0], from node 0, key 1, to key 2, on channel 7
    entry 36 put it into router:0, nothing before it
    entry 37 put it into low:0:24, nothing before it
    entry 38 put it into link:13:out, nothing before it
    it waits in link:13:out, nothing before it
''',
    ('recipients', '36,0'): '''\
copy [36,0], from node 0, key 1, to key 2, on channel 7
    entry 36 put it into router:0, nothing before it
    entry 39 put it into low:0:24, nothing before it
    entry 42 put it into link:13:out, before it [42,0] (copy [37,0]), [42,1] (copy [37,2])
    entry 45 put it into channel:1:7, before it [43,0] (copy [37,0]), [44,0] (copy [37,2])
    entry 48 delivered it
''',
    ('full-relay', '31,0'): '''\
copy [31,0], from node 0, key 1, to key 2, on channel 7
    entry 31 put it into router:0, before it [30,0] (copy [30,0])
    entry 33 dropped it: relay_full: low:0:24 holds 1 message, as many as mailbox_size of node 0
''',
    ('ended', '39,0'): '''\
copy [39,0], from node 0, key 1, to key 2, on channel 7
    entry 39 put it into router:0, before it [38,0] (copy [38,0])
    entry 42 put it into low:0:25, before it [41,0] (copy [38,0])
    entry 44 put it into link:14:out, before it [44,0] (copy [38,0])
    entry 46 put it into held:1:26, nothing before it
    entry 57 dropped it: connection_ended: connection 26 ends here: killed; first of all, event 57: the tracker put the kill at entry 56, for the block of event 55
''',
}


ENDS = {'waiting': 'it waits in', 'delivered': 'delivered it', 'dropped': 'dropped it'}


def example(name):
    return os.path.join(TOP, 'examples', name + '.report')


class CopyWay(unittest.TestCase):

    def test_each_way_is_told_with_what_stood_before_it(self):
        for (name, copy), due in WAYS.items():
            ran = run_tool('show', example(name), '--script', beside(example(name), '.json'), '--copy', copy)
            with self.subTest(name):
                self.assertEqual((ran.returncode, ran.stdout.decode(), ran.stderr), (0, due, b''))

    def test_without_the_script_the_cause_is_a_word(self):
        ran = run_tool('show', example('full-relay'), '--copy', '[31,0]')
        self.assertEqual(ran.stdout.decode().splitlines()[-1], '    entry 33 dropped it: relay_full')
        ran = run_tool('show', '-', '--copy', '31,0', given=read_text(example('full-relay')).encode())
        self.assertEqual(ran.stdout.decode().splitlines()[-1], '    entry 33 dropped it: relay_full')

    def test_a_copy_that_is_not_there_is_told_with_those_that_are(self):
        for copy, reason in (('37,5', 'the report has no copy [37,5]: its places are 0, 1, 2'),
                             ('1,0', 'the report has no copy [1,0]: entry 1 has no copies')):
            ran = run_tool('show', example('recipients'), '--copy', copy)
            self.assertEqual((ran.returncode, ran.stdout, ran.stderr.decode()), (1, b'', reason + '\n'))
        for copy in ('37', 'x,0', '37,-1', ''):
            self.assertEqual(run_tool('show', example('recipients'), '--copy', copy).returncode, 2)

    def test_each_copy_of_the_examples_ends_as_its_fate_says(self):
        for path in reports():
            report = read_report(read_text(path))
            for journey in journeys(report, []):
                lines = way_lines(report, journey, {})
                self.assertEqual(len(lines), len(journey.steps) + 2)
                self.assertIn(ENDS[journey.fate[0]], lines[-1])
