"""What the tools tell of a node that stops: of the reports of stops/, which the rules give."""
import glob
import json
import os
import unittest

from entry_tags import Tagger
from files import TOP, beside, read_bytes, read_text, run_tool
from journey import journeys
from judge import judge
from report_form import read_report
from same_run import OtherRun, check_same_run
from why import why_lines

STOPS = os.path.join(TOP, 'tools', 'tests', 'stops')
IN_FLIGHT, WITHOUT = (os.path.join(STOPS, name + '.report') for name in ('in-flight', 'without-a-start'))
# Other entries in a report: its number, what it has then, and a part of the reason.
OTHERS = [
    (IN_FLIGHT, 42, {'end': []}, 'it ends [], and with node 1 ends [item [40,0], copy [36,0]]'),
    (IN_FLIGHT, 42, {'end': [['item', 41, 0], ['copy', 37, 0, 'node_stopped']]}, 'and with node 1 ends [item [40,0], copy [36,0]]'),
    (IN_FLIGHT, 42, {'end': [['item', 40, 0], ['copy', 36, 0, 'connection_ended']]}, 'and with node 1 ends'),
    (IN_FLIGHT, 42, {'end': [['copy', 36, 0, 'node_stopped'], ['item', 40, 0]]}, 'and with node 1 ends'),
    (IN_FLIGHT, 42, {'reply': 'gone'}, 'the reply is "gone", and another is due'),
    (IN_FLIGHT, 46, {'reply': 'pending'}, 'the reply is "pending", and event 42 stopped node 1'),
    (IN_FLIGHT, 44, {'reply': 'network_closed', 'take': [], 'end': []}, 'the reply is "network_closed", and node 0 was not stopped before'),
    (WITHOUT, 4, {'reply': 'ok'}, 'the reply is "ok", and "gone" is due'),
    (WITHOUT, 3, {'end': [['item', 2, 0], ['item', 1, 0]]}, 'and with node 0 ends [item [1,0], item [2,0]]'),
    (WITHOUT, 7, {'reply': 'pending'}, 'the reply is "pending", and event 3 stopped node 0'),
    (WITHOUT, 8, {'reply': {'feedback': 'ok'}}, 'the reply is {"feedback":"ok"}, and event 3 stopped node 0'),
    (WITHOUT, 9, {'reply': {'sent': [2]}}, 'the reply is {"sent":[2]}, and event 3 stopped node 0'),
    (WITHOUT, 11, {'reply': {'outcome': 'ok'}}, 'the reply is {"outcome":"ok"}, and event 3 stopped node 0'),
    (WITHOUT, 17, {'reply': {'capacity': 8}}, 'the reply is {"capacity":8}, and "gone" is due'),
    (WITHOUT, 20, {'reply': 'idle'}, 'the reply is "idle", and "gone" is due'),
]


def read_stop(path):
    script = json.loads(read_text(beside(path, '.json')))
    return read_report(read_text(path)), script['configs'], script['script']


class Stops(unittest.TestCase):

    def test_each_is_told_with_its_causes(self):
        paths = sorted(glob.glob(os.path.join(STOPS, '*.report')))
        self.assertEqual(paths, [IN_FLIGHT, WITHOUT])
        for path in paths:
            with self.subTest(os.path.basename(path)):
                self.assertEqual(judge(read_bytes(beside(path, '.json')))[1].status, 0)
                check_same_run(*read_stop(path))
                self.assertEqual(why_lines(*read_stop(path)), read_text(beside(path, '.why')).splitlines())

    def test_a_report_with_another_entry_is_refused_there(self):
        for path, number, change, reason in OTHERS:
            lines = read_text(path).splitlines()
            lines[number] = json.dumps({**json.loads(lines[number]), **change})
            _, configurations, events = read_stop(path)
            with self.subTest((os.path.basename(path), number, change)), self.assertRaises(OtherRun) as raised:
                check_same_run(read_report('\n'.join(lines) + '\n'), configurations, events)
            self.assertEqual(raised.exception.number, number, raised.exception.reason)
            self.assertIn(reason, raised.exception.reason)

    def test_a_stop_is_about_the_connections_of_its_node(self):
        report, _, events = read_stop(IN_FLIGHT)
        tags = Tagger(report, journeys(report, events), events).tags_of(report.entries[42])
        self.assertEqual((tags.nodes, tags.connections, tags.copies), ({1}, {25}, {(36, 0)}))

    def test_the_picture_has_it(self):
        ran = run_tool('show', IN_FLIGHT, '--script', beside(IN_FLIGHT, '.json'), '--svg', '/dev/stdout')
        self.assertEqual((ran.returncode, ran.stderr), (0, b''))
        self.assertIn(b'node 1 stop: ok', ran.stdout)
        self.assertIn(b'node stopped', ran.stdout)
        self.assertIn(b'dropped at 42: node_stopped', ran.stdout)
