"""tools/show --script: a script that did not give the report is refused, with the place and the reason."""
import json
import os
import tempfile
import unittest
from itertools import permutations

import hello
from edits import edited, line_by_line
from files import TOP, beside, examples, read_text, reports, run_tool
from judge import judge, status_now
from report_form import read_report
from same_run import OtherRun, check_same_run

HELLO = beside(hello.PATH, '.report')
# Valid scripts that did not give the report of the first example: the event at which that shows, and a part of the reason.
OTHERS = [
    ('script 0 channel = 9', 2, 'it subscribes to the channels [7], and those of node 0 are [9]'),
    ('script 0 quota burst = 2', 0, 'the capacity is 16, not 8'),
    ('configs 0 max_peers_per_set = 3', 0, 'the capacity is 12, not 8'),
    ('configs 1 tracked_peer_sets = 1', 1, 'the capacity is 2, not 8'),
    ('script 2 = {"at":0,"do":"spawner","node":0}', 2, 'a spawner puts nothing into router:0'),
    ('script 30 = {"at":0,"do":"router","node":0}', 30, 'a router of node 0 puts nothing into peers:1:7'),
    ('script 34 = {"at":0,"do":"attempt","attempt":12,"node":0}', 34, 'the reply is "ok", and "gone" is due'),
    ('script 4 = {"at":0,"do":"tracker","node":0}', 4, 'a tracker has no reply {"feedback":"ok"}'),
    ('script 8 = {"at":0,"do":"dialer","node":1}', 8, 'a dialer of node 1 puts nothing into tracker:0'),
    ('script 13 to = 0', 13, 'puts nothing into arrivals:1'),
    ('script 19 = {"at":0,"do":"refuse","attempt":12,"node":0}', 19, 'a refuse puts nothing into handshake:1:16'),
    ('script 19 = {"at":0,"do":"cut","link":13}', 19, 'a cut puts nothing into attempt:0:12'),
    ('script 26 = {"at":0,"do":"router","node":0}', 26, 'a router puts nothing into tracker:0'),
    ('script 36 bytes = "00"', 36, 'its message has other bytes: 00070568656c6c6f'),
    ('script 36 priority = true', 36, 'its message has another channel or priority'),
    ('script 36 channel = 8', 36, 'its message has another channel or priority'),
    ('script 36 to one = 3', 36, 'the message is not to the keys [2]'),
    ('script 38 = {"at":0,"do":"send_step","node":1,"conn":25}', 38, 'a send_step of node 1 takes nothing of low:0:24'),
    ('script 40 = {"at":0,"do":"recv_step","node":1,"conn":25}', 40, 'a recv_step has no reply {"message":'),
    ('script 41 = {"at":0,"do":"router","node":0}', 41, 'the script has 42 events, and the report has 41 entries'),
    ('script 40 out', 40, 'the script has 40 events, and the report has 41 entries'),
    ('script 2 bind = false', 2, 'it puts something into router:0, and what stops a node puts nothing'),
    ('script 3 = {"at":0,"do":"stop","node":1}', 3, 'a stop puts nothing into router:1'),
    ('script 34 = {"at":0,"do":"stop","node":0}', 34, 'it ends [], and with node 0 ends [item [26,0], item [6,0]]'),
    ('script 32 = {"at":0,"do":"stop","node":0}', 32, 'it ends [], and with node 0 ends [item [26,0], item [6,0], item [29,0]]'),
    ('script 40 = {"at":0,"do":"stop","node":1}', 40, 'a stop has no reply {"message":'),
    ('script 0 = {"at":0,"do":"spawner","node":0}', 0, 'a spawner has no reply {"capacity":8}'),
]


def other_run(report, script):
    """Where and why a script is not that of a report; nothing, where it may be."""
    try:
        check_same_run(report, script['configs'], script['script'])
    except OtherRun as other:
        return other.number, other.reason
    return None


class SameRun(unittest.TestCase):

    def test_each_example_gave_its_report(self):
        for path in reports():
            with self.subTest(os.path.basename(path)):
                self.assertIsNone(other_run(read_report(read_text(path)), json.loads(read_text(beside(path, '.json')))))

    def test_no_example_gave_the_report_of_another(self):
        scripts = [(path, json.loads(read_text(path)), read_report(read_text(beside(path, '.report')))) for path in examples()]
        for (_, script, _), (path, _, report) in permutations(scripts, 2):
            self.assertIsNotNone(other_run(report, script), path)

    def test_a_script_with_another_event_is_refused_where_that_shows(self):
        report = read_report(read_text(HELLO))
        for edit, number, reason in OTHERS:
            script = edited(edit)
            with self.subTest(edit):
                self.assertEqual(status_now(judge(json.dumps(script).encode())[1]), 0)
                told = other_run(report, script)
                self.assertIsNotNone(told)
                self.assertEqual(told[0], number, told[1])
                self.assertIn(reason, told[1])

    def test_a_connection_that_no_entry_made_is_refused(self):
        lines = [{'end': [], 'n': number, 'put': [], 'reply': reply, 'take': []} for number, reply in enumerate(('gone', 'idle'))]
        report = read_report(''.join(json.dumps(line) + '\n' for line in lines) + '{"copies":0,"entries":2}\n')
        events = [{'at': 0, 'do': 'spawner', 'node': 0}, {'at': 0, 'do': 'send_step', 'node': 0, 'conn': 0}]
        self.assertEqual(other_run(report, {'configs': hello.configurations(), 'script': events}),
                         (1, 'entry 0 made no connection, so the reply is not "idle"'))

    def test_another_moment_is_refused_where_a_quota_or_a_deadline_shows_it(self):
        for name, number, at, reason in (
                ('quotas', 10, 999_999_999, 'the reply is {"sent":[2]}, and the quota admits the keys []'),
                ('attempts', 22, 15_500_000_000, 'the reply is "idle", and its deadline had come'),
                ('handshakes', 24, 1_000_000_000, 'the reply is "idle", and its deadline had come')):
            path = os.path.join(TOP, 'examples', name + '.json')
            script, report = json.loads(read_text(path)), read_report(read_text(beside(path, '.report')))
            script['script'][number]['at'] = at
            with self.subTest(name):
                self.assertEqual(other_run(report, script), (number, reason))

    def test_a_cut_that_ends_other_frames_is_refused(self):
        path = os.path.join(TOP, 'examples', 'cut.json')
        lines, script = read_text(beside(path, '.report')).splitlines(), json.loads(read_text(path))
        ends = json.loads(lines[48])['end']
        for told, items in ((ends[:2], [[42, 2]]), (ends[2:] + ends[:2], [[47, 0], [42, 2]]), ([], [])):
            front = [*lines[:48], json.dumps({**json.loads(lines[48]), 'end': told}), '{"copies":0,"entries":49}']
            self.assertEqual(other_run(read_report('\n'.join(front) + '\n'), dict(script, script=script['script'][:49])),
                             (48, 'it ends the items %s, and in flight over link 13 are [[42, 2], [47, 0]]' % items))

    def test_a_cut_that_cannot_be_told_so_is_refused(self):
        lines, script = read_text(HELLO).splitlines()[:41], edited('script 41 = {"at":0,"do":"cut","link":13}')
        for first, again, due in (('ok', 'gone', None), ('ok', 'ok', (42, 'the reply is "ok", and "gone" is due')),
                                  ('gone', 'gone', (41, 'the reply is "gone", and another is due'))):
            cuts = [{'end': [], 'n': number, 'put': [], 'reply': reply, 'take': []} for number, reply in ((41, first), (42, again))]
            report = read_report('\n'.join([*lines, *map(json.dumps, cuts), '{"copies":0,"entries":43}']) + '\n')
            told = other_run(report, dict(script, script=[*script['script'], script['script'][-1]]))
            self.assertEqual(told, due)

    def test_a_reply_that_is_not_due_is_refused(self):
        lines = [json.loads(line) for line in read_text(HELLO).splitlines()]
        for number, reply, reason in ((29, 'idle', 'the reply is "idle", and something waits in router:0'),
                                      (40, 'pending', 'the reply is "pending", and something waits in channel:1:7'),
                                      (36, 'gone', 'the reply is "gone", and another is due')):
            front = [dict(line) for line in lines[:number + 1]]
            front[number].update(reply=reply, put=[], take=[], end=[])
            report = read_report(''.join(json.dumps(line) + '\n' for line in front)
                                 + '{"copies":0,"entries":%d}\n' % len(front))
            script = {'configs': hello.configurations(), 'script': hello.events()[:len(front)]}
            self.assertEqual(other_run(report, script), (number, reason))


class Tool(unittest.TestCase):

    def shown(self, text, *words):
        with tempfile.NamedTemporaryFile('w', suffix='.json') as script:
            script.write(text)
            script.flush()
            ran = run_tool('show', HELLO, '--script', script.name, *words)
            return ran.returncode, ran.stdout.decode(), ran.stderr.decode().replace(script.name, 'SCRIPT')

    def test_the_place_is_that_of_the_event(self):
        for words in ((), ('--why',), ('--copy', '36,0')):
            told = self.shown(line_by_line(edited('script 36 bytes = "00"')), *words)
            self.assertEqual(told, (1, '', 'SCRIPT:41:1: the report is none of this script: at event 36 its message has other '
                                           'bytes: 00070568656c6c6f\n'))

    def test_a_script_that_the_program_refuses_is_refused(self):
        status, _, told = self.shown(line_by_line(edited('script 36 node = 2')))
        self.assertEqual(status, 1)
        self.assertIn('the program runs no such script, so it gave no report; tools/check SCRIPT tells why', told)

    def test_a_script_in_place_of_a_report_is_told(self):
        ran = run_tool('show', hello.PATH)
        self.assertEqual((ran.returncode, ran.stdout), (1, b''))
        self.assertIn(b'this is a script, not a report; ./p2p run < ', ran.stderr)
        self.assertIn(b'then tools/show REPORT --script ', ran.stderr)
        for text in (b'', b'[]\n', b'{"copies":1,"entries":0}\n'):
            self.assertNotIn(b'this is a script', run_tool('show', '-', given=text).stderr)
