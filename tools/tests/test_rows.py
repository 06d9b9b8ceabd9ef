"""tools/rows: what is malformed is told with its line, and a row fails where another thing comes than is due."""
import json
import os
import tempfile
import unittest

import hello
from files import TOP, beside, read_bytes, read_text, run_tool
from rows_compare import compare, tell
from rows_form import BadRows, Preludes, read_rows
from rows_run import all_rows, run_rows
from shown import word_of

CONFIGS = 'configs:\n    [{"key":1},{"key":2}]\n'
REGISTER = '{"do":"register","node":%d,"channel":7,"quota":{"burst":1,"period":5}}'
PRELUDES = {
    'begun': '# Begun\n\nTwo nodes.\n\n' + CONFIGS + 'at 3\n' + REGISTER % 0 + '\n    "reply":{"capacity":8}\nlast: '
             + REGISTER % 1 + '\n    "reply":{"capacity":8}\n',
    'further': '# Further\n\nafter: begun\n\nstart: {"do":"start","node":0}\n    "reply":"ok"\n',
    'unfinished': '# Unfinished\n\nconfigs:\n    []\n\n{"do":"start","node":0}\n',
    'endless': '# Endless\n\nafter: endless\n',
}
HEAD = '# A topic\n\nSome prose.\n\n## A rule\n'
STEP = '{"do":"router","node":0}\n    "reply":"ok"\n'
# What stands after the head, whose last line is the fifth; at which line that is malformed, and why.
MALFORMED = [
    ('{"do":"router","node":0}\n', 6, 'has no expected line'),
    (STEP + '{"do":"router","node":0}\n\n# A comment.\nat 5\n', 8, 'has no expected line'),
    ('{"do":"recv","conn":$here}\n    "reply":"ok"\n', 6, 'no event has the label `here`'),
    (STEP + '{"do":"router","node":0}\n    "reply":"ok","take":[[$here,0]]\n', 9, 'no event has the label `here`'),
    (STEP + 'fate [$here,0]: "waiting","router:0"\n', 8, 'no event has the label `here`'),
    ('after: nothing at all\n\n' + STEP, 6, 'there is no prelude nothing-at-all.rows'),
    ('after: unfinished\n' + STEP, 6, 'its prelude, line 6: the event has no expected line'),
    ('after: endless\n' + STEP, 6, 'begins with itself'),
    ('after: begun\n' + CONFIGS + STEP, 7, 'a beginning already'),
    ('first: ' + STEP + 'first: ' + STEP, 8, 'the label `first` is that of event 0 already'),
    ('after: begun\nlast: ' + STEP, 7, 'the label `last` is that of event 1 already'),
    ('{"do":"router","node":0}\n    "reply":"ok","n":0\n', 7, 'a line of a report has no `n`'),
    ('{"do":"router","node":0}\n    "reply":"ok","puts":[]\n', 7, 'a line of a report has no `puts`'),
    ('{"do":"router","node":0}\n    "put":[]\n', 7, 'each line of a report has a `reply`'),
    ('{"do":"router","node":0}\n    "reply":"ok","reply":"idle"\n', 7, 'a name stands twice'),
    ('{"do":"router","node":0}\n    "reply":ok\n', 7, 'this is not JSON'),
    ('{"do":"router","node":0\n    "reply":"ok"\n', 6, 'this is not JSON'),
    ('{"at":0,"do":"router","node":0}\n    "reply":"ok"\n', 6, 'the moment of an event stands before it'),
    ('router 0\n    "reply":"ok"\n', 6, 'neither an event nor another line'),
    ('First: ' + STEP, 6, 'neither an event nor another line'),
    ('at 5\n    "reply":"ok"\n', 7, 'nothing may be indented here'),
    (STEP + 'after: begun\n', 8, 'before the first event'),
    ('after: begun\nnode 2: "key":3\n' + STEP, 7, 'there is no node 2'),
    ('after: begun\nchannel 8: "burst":3\n' + STEP, 7, 'does not register this channel'),
    ('{"do":"router","node":0}\n    ...\n', 5, 'nothing of this row is compared'),
    ('after: begun\n', 5, 'nothing of this row is compared'),
    (STEP + 'status 8\n    {"error":"event","event":0}\n', 7, 'a script that is refused has no report'),
    ('status 8\n    {"error":"event","event":0}\n' + STEP, 8, 'an event stands before'),
    ('status 8\n', 7, 'this is not JSON'),
]
# What rows show together: each reply, where its word has several meanings with its meaning, and how a copy ends.
REPLIES = {
    'ok', 'gone', 'idle', 'pending', 'capacity', 'sent', 'checked', 'retry', 'outcome: ok', 'outcome: rejected',
    'message_too_large', 'message', 'feedback: ok', 'feedback: backoff', 'peer_set_too_large', 'peer_set', 'peer_set: null',
    'update', 'blocked', 'ended: killed', 'ended: send_failed', 'ended: receive_failed', 'ended: decode_failed',
    'ended: invalid_channel', 'private', 'unregistered', 'limited', 'too_many', 'admitted', 'feedback: closed', 'outcome: closed',
    'network_closed', 'stream_ended',
}
HOWS = {
    'delivered', 'unbound', 'no_connection', 'relay_full', 'connection_ended', 'frame_refused', 'channel_unregistered',
    'mailbox_full', 'receiver_closed', 'link_cut', 'node_stopped',
}


class Directory(unittest.TestCase):
    """Tests in a directory of their own, with the preludes above."""

    def setUp(self):
        holder = tempfile.TemporaryDirectory()
        self.addCleanup(holder.cleanup)
        self.path = holder.name
        os.mkdir(os.path.join(self.path, 'preludes'))
        for name, text in PRELUDES.items():
            self.write(os.path.join('preludes', name), text)

    def write(self, name, text):
        path = os.path.join(self.path, name + '.rows')
        with open(path, 'wb') as out:
            out.write(text if isinstance(text, bytes) else text.encode())
        return path

    def rows(self, text):
        return read_rows(self.write('topic', text), Preludes(os.path.join(self.path, 'preludes')))

    def row(self, body):
        """The one row of this body."""
        row, = self.rows(HEAD + body)
        self.assertFalse(isinstance(row, BadRows), getattr(row, 'reason', ''))
        return row

    def is_told(self, text, line, reason):
        row, = self.rows(text)
        with self.subTest(text):
            self.assertTrue(isinstance(row, BadRows))
            self.assertEqual((row.line, reason in row.reason), (line, True), row.reason)


class Form(Directory):

    def test_what_is_malformed_is_told_with_its_line(self):
        for body, line, reason in MALFORMED:
            self.is_told(HEAD + body, line, reason)

    def test_a_file_without_rows_is_malformed(self):
        self.is_told('# A topic\n\nSome prose.\n', 1, 'no rows')
        self.is_told('', 1, 'the first line is the topic')
        self.is_told('## A rule\n' + STEP, 1, 'the first line is the topic')
        self.is_told(b'# A topic\n\xff', 1, 'byte 10 of this file is not UTF-8')

    def test_a_malformed_row_leaves_the_others(self):
        bad, good, again = self.rows('# A topic\n## A rule\nrouter\n## Another\n%s## Another\n%s' % (STEP, STEP))
        self.assertEqual((bad.line, good.title, again.line), (3, 'Another', 7))
        self.assertTrue(isinstance(again, BadRows))

    def test_a_row_begins_as_its_preludes_do(self):
        row = self.row('after: further\neach node: "mailbox_size":4\nnode 1: "key":9,"preset":"local"\nchannel 7: "burst":4\n'
                       'channel 7 of node 1: "period":6\nthen: {"do":"recv","node":$start}\n    "reply":"ok"\n')
        self.assertEqual(row.configs, [{'key': 1, 'mailbox_size': 4}, {'key': 9, 'mailbox_size': 4, 'preset': 'local'}])
        self.assertEqual([event.get('quota') for event in row.events],
                         [{'burst': 4, 'period': 5}, {'burst': 4, 'period': 6}, None, None])
        self.assertEqual(row.events[3], {'at': 3, 'do': 'recv', 'node': 2})
        self.assertEqual(row.due[:3], [None] * 3)

    def test_a_label_is_the_number_of_its_event(self):
        row = self.row('after: begun\n' + STEP + 'at 8\n\nnext-one: {"do":"send_step","conn":$last,"of":$next-one}\n'
                       '    "reply":"ok",\n    "put":[["link:$next-one:out",$last]]\n')
        self.assertEqual(row.events[2:], [{'at': 3, 'do': 'router', 'node': 0},
                                          {'at': 8, 'do': 'send_step', 'conn': 1, 'of': 3}])
        self.assertEqual(row.due[2:], [{'end': [], 'put': [], 'reply': 'ok', 'take': []},
                                       {'end': [], 'put': [['link:3:out', 1]], 'reply': 'ok', 'take': []}])



class Repository(unittest.TestCase):
    """The rows of tests/, as they are written."""

    def test_each_is_well_formed(self):
        rows = all_rows(os.path.join(TOP, 'tests'), [])
        self.assertTrue(rows)
        for path, row in rows:
            self.assertEqual(getattr(row, 'reason', ''), '', '%s:%d' % (path, row.line))
            self.assertLessEqual(read_text(path).count('\n'), 500, path)

    def test_each_reply_each_reason_and_each_cause_is_due_in_one(self):
        replies, hows = set(), set()
        for _, row in all_rows(os.path.join(TOP, 'tests'), []):
            for due in row.due:
                if due:
                    replies.add(word_of(due['reply']))
                    hows.update(end[3] for end in due['end'] if end[0] == 'copy')
        self.assertEqual(replies, REPLIES)
        self.assertEqual(hows, HOWS)


def hello_row(change=lambda number, due: None, fates='fate [36,0]: "delivered","channel:1:7",40\n'):
    """The first example as a row."""
    parts = ['configs:\n    %s\n' % json.dumps(hello.configurations())]
    lines = read_text(beside(hello.PATH, '.report')).splitlines()
    for number, event in enumerate(hello.events()):
        due = json.loads(lines[number])
        del due['n'], event['at']
        change(number, due)
        parts.append('%s\n    %s\n' % (json.dumps(event), json.dumps({name: due[name] for name in due if due[name] != []})))
    return ''.join(parts) + fates


class Compared(Directory):

    def differences(self, body, status=0, written=None):
        row = self.row(body)
        return row, compare(row, status, read_bytes(beside(hello.PATH, '.report')) if written is None else written)

    def test_what_is_due_passes(self):
        for fates in ('', 'fate [36,0]: "delivered","channel:1:7",40\n'):
            self.assertEqual(self.differences(hello_row(fates=fates))[1], [])

    def test_each_wrong_line_fails(self):
        for name, wrong in (('reply', 'gone'), ('put', [['router:0', True]]), ('take', [[1, 0]]), ('end', [['item', 0, 0]])):
            for which in (0, 29, 40):
                _, found = self.differences(hello_row(lambda number, due: due.update({name: wrong} if number == which else {})))
                self.assertEqual([(one.line, json.loads(one.due)[name]) for one in found], [(8 + 2 * which, wrong)])
                self.assertEqual(json.loads(found[0].came)['n'], which)

    def test_a_number_is_no_flag(self):
        body = hello_row(lambda number, due: due.update({'reply': {'sent': [True]}} if number == 36 else {}))
        written = read_bytes(beside(hello.PATH, '.report')).replace(b'"sent":[2]', b'"sent":[1]')
        self.assertEqual(len(self.differences(body, written=written)[1]), 1)

    def test_a_line_that_is_not_compared_may_be_any(self):
        body = hello_row(lambda number, due: due.update(reply='gone' if number == 36 else due['reply']))
        lines = body.split('\n')
        at = next(number for number, line in enumerate(lines) if '"do": "send"' in line)
        lines[at + 1] = '    ...'
        self.assertEqual(self.differences('\n'.join(lines))[1], [])

    def test_a_fate_that_is_missing_wrong_or_too_many_fails(self):
        right = 'fate [36,0]: "delivered","channel:1:7",40\n'
        for fates in (right + right, right.replace('40', '39'), right.replace('[36', '[35')):
            _, found = self.differences(hello_row(fates=fates))
            self.assertEqual([one.what for one in found], ['the fates'])
        lines = read_text(beside(hello.PATH, '.report')).splitlines()
        without = '\n'.join(lines[:-2] + ['{"copies":0,"entries":41}', '']).encode()
        self.assertEqual([one.what for one in self.differences(hello_row(), written=without)[1]], ['the fates'])

    def test_a_report_that_is_cut_short_or_goes_on_fails(self):
        lines = read_text(beside(hello.PATH, '.report')).splitlines(True)
        for written in (lines[:-1], lines[:-2], lines[:-3], lines[:1], [], lines + lines[-1:], lines[:41] + lines[40:]):
            self.assertTrue(self.differences(hello_row(fates=''), written=''.join(written).encode())[1])

    def test_the_status_and_the_line_of_a_refusal_are_compared(self):
        body = 'at 5\n{"do":"start","node":0}\nlast: {"do":"start","node":0}\nstatus 8\n    {"error":"event","event":$last}\n'
        right = b'{"error":"event","event":1}\n'
        self.assertEqual(self.differences(body, 8, right)[1], [])
        for status, written in ((7, right), (0, right), (8, right.replace(b'1', b'0')), (8, b''), (8, right + right)):
            self.assertEqual(len(self.differences(body, status, written)[1]), 1)
        self.assertEqual(len(self.differences(hello_row(), 8, right)[1]), 1)

    def test_what_is_told_has_the_file_the_line_the_event_and_both_lines(self):
        row, found = self.differences(hello_row(lambda number, due: due.update(reply='gone' if number > 38 else due['reply'])))
        told = list(tell(row, found))
        self.assertEqual(told[0], '%s:86: A rule' % row.path)
        self.assertIn('"do":"recv_step"', told[1])
        self.assertIn('due  {"end":[],"n":39', told[2])
        self.assertIn('"reply":"ok"', told[3])
        self.assertEqual(told[4], '    and 1 more lines are others')


# A part of the report of the first example, and the same values in another spelling.
SPELLINGS = [
    (b'{"end":[],"n":2,', b'{"end": [],"n":2,'),
    (b'{"end":[],"n":2,', b'{"n":2,"end":[],'),
    (b'{"end":[],"n":2,', b'{"n":3,"end":[],"n":2,'),
    (b'{"subscribe":7}', b'{"subscr\\u0069be":7}'),
    (b'\n{"end":[],"n":39', b'\r\n{"end":[],"n":39'),
    (b'\n{"end":[],"n":2,', b' \n{"end":[],"n":2,'),
    (b'{"copy":[36,0],"fate"', b'{"copy":[36, 0],"fate"'),
    (b'"delivered","channel:1:7",40]}', b'"delivered","channel:1:7",40]} '),
    (b'{"copies":1,"entries":41}\n', b'{"copies":1, "entries":41}\n'),
    (b'{"copies":1,"entries":41}\n', b'{"entries":41,"copies":1}\n'),
    (b'{"copies":1,"entries":41}\n', b'{"copies":1,"entries":41}'),
]


class Spelled(Directory):
    """A report has each of its values in one spelling alone."""

    def test_the_values_that_are_due_in_another_spelling_fail(self):
        right = read_bytes(beside(hello.PATH, '.report'))
        for old, new in SPELLINGS:
            written = right.replace(old, new, 1)
            self.assertTrue(written != right, old)
            for fates in ('', 'fate [36,0]: "delivered","channel:1:7",40\n'):
                with self.subTest(new):
                    self.assertEqual(len(compare(self.row(hello_row(fates=fates)), 0, written)), 1)

    def test_so_do_they_where_no_line_is_told(self):
        lines = hello_row(fates='').split('\n')
        body = '\n'.join('    ...' if line.startswith('    {') and '"sent"' not in line else line for line in lines)
        row, right = self.row(body), read_bytes(beside(hello.PATH, '.report'))
        self.assertEqual((len([due for due in row.due if due]), compare(row, 0, right)), (1, []))
        for old, new in [*SPELLINGS, (b'"n":2,', b'"n":3,'), (b'"n":1,', b'"n":true,'), (b',"take":[[2,0]]', b''),
                         (b'"reply":"ok"', b'"reply":1.5'), (b'"reply":"ok"', b'"reply":"\xff"')]:
            with self.subTest(new):
                self.assertEqual(len(compare(row, 0, right.replace(old, new, 1))), 1)

    def test_a_refusal_in_another_spelling_fails(self):
        row = self.row('{"do":"start","node":0}\nstatus 8\n    {"event":0,"error":"event"}\n')
        self.assertEqual(compare(row, 8, b'{"error":"event","event":0}\n'), [])
        for written in (b'{"event":0,"error":"event"}\n', b'{"error":"event","event":0}', b'{"error":"event", "event":0}\n'):
            found, = compare(row, 8, written)
            self.assertTrue(found.is_spelling, written)

    def test_what_is_told_shows_the_spelling(self):
        right = read_bytes(beside(hello.PATH, '.report'))
        row = self.row(hello_row())
        told = list(tell(row, compare(row, 0, right.replace(b'\n', b'\r\n'))))
        self.assertEqual(told[2][:30].replace('due ', 'came'), told[3][:30])
        self.assertTrue(told[3].endswith('}\\r'), told[3])
        self.assertEqual(told[4:], ['    which is the same value in another spelling', '    and 41 more lines are others'])
        told = list(tell(row, compare(row, 0, right[:-1])))
        self.assertEqual(told[3], '    came {"copies":1,"entries":41}   without a line end')


class Run(Directory):

    def program(self, said):
        """A program of the shell that does this."""
        path = os.path.join(self.path, 'program')
        with open(path, 'w') as out:
            out.write('#!/bin/sh\n' + said)
        os.chmod(path, 0o755)
        return path

    def test_a_program_that_writes_one_space_more_fails(self):
        report = os.path.join(self.path, 'report')
        program = self.program('cat > /dev/null\ncat %s\n' % report)
        self.write('topic', HEAD + hello_row())
        right = read_bytes(beside(hello.PATH, '.report'))
        for written in (right, right.replace(b'"reply":"ok"', b'"reply": "ok"', 1)):
            with open(report, 'wb') as out:
                out.write(written)
            told, = run_rows(all_rows(self.path, ['topic']), program)
            self.assertEqual(told == [], written == right, told)

    def test_a_program_that_writes_to_standard_error_fails(self):
        report = beside(hello.PATH, '.report')
        self.write('topic', HEAD + hello_row())
        for said, passes in (('cat %s', True), ('cat %s; echo done >&2', False), ('echo >&2; cat %s', False)):
            program = self.program('cat > /dev/null\n%s\n' % (said % report))
            told, = run_rows(all_rows(self.path, ['topic']), program)
            self.assertEqual(told == [], passes, told)

    def test_each_row_is_run_with_its_own_script(self):
        program = self.program('read script\ncase "$1 $script" in\nrun*start*) echo 1;;\nrun*) echo 2;;\nesac\nexit 6\n')
        self.write('topic', '# A topic\n## One\n{"do":"start"}\nstatus 6\n    1\n## Other\n{"do":"x"}\nstatus 6\n    1\n')
        first, second = run_rows(all_rows(self.path, ['topic']), program)
        self.assertEqual((first, second[-2:]), ([], ['    due  status 6: 1', '    came status 6: 2']))

    def test_a_prelude_that_a_topic_uses_is_a_row_of_its_own(self):
        self.write('topic', HEAD + 'after: further\n' + STEP)
        names = [row.title for _, row in all_rows(self.path, ['topic'])]
        self.assertEqual((sorted(names[:-1]), names[-1]), (['begun', 'further'], 'A rule'))

    def test_the_tool_fails_where_a_row_does_or_no_program_is_there(self):
        ran = run_tool('rows', '--program', os.path.join(self.path, 'absent'))
        self.assertEqual((ran.returncode, ran.stdout), (1, b''))
        self.assertIn(b'is not built: ./p2p build', ran.stderr)
        ran = run_tool('rows', '--program', '/bin/false', 'refusing')
        self.assertEqual(ran.returncode, 1)
        self.assertRegex(ran.stdout.decode().splitlines()[-1], '^0 passed, [1-9][0-9]* failed$')
        ran = run_tool('rows', '--program', '/bin/false', 'no-such-topic')
        self.assertEqual((ran.returncode, ran.stdout.decode().splitlines()[-1]), (1, '0 passed, 1 failed'))
