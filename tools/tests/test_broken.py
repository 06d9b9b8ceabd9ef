"""tools/check: what is told of each script of tables/broken.table, with the place and the way to mend it."""
import json
import os
import unittest

import hello
from edits import edited, line_by_line, read_edits
from files import TOP, examples, read_text, run_tool
from json_text import Places
from judge import SHOWN, judge, lines_of, status_now
from script_form import ACT_FORMS

ACTS = ', '.join('"%s"' % act for act in ACT_FORMS)


def told_of(text):
    """What is told of a script: the line, what begins at the place, the part and the reason."""
    verdict = judge(text.encode())[1]
    places = Places(text)
    return status_now(verdict), [('%d %s' % (places.of(one.at)[0], text[one.at:]), '%s: %s' % (one.what, one.reason))
                                 for one in verdict.faults]


class Broken(unittest.TestCase):

    def test_each_is_told_with_its_place_and_the_way_to_mend_it(self):
        table = read_edits('broken')
        self.assertGreaterEqual(len(table), 50)
        for edit, due in table:
            with self.subTest(edit):
                status, told = told_of(line_by_line(edited(edit)))
                self.assertIn(status, (6, 7, 8))
                self.assertEqual([reason for _, reason in told], [line.partition(' | ')[2].replace('ACTS', ACTS) for line in due])
                for (place, _), line in zip(told, due):
                    self.assertEqual(place[:len(line.partition(' | ')[0])], line.partition(' | ')[0])

    def test_every_event_that_is_not_valid_is_told(self):
        events = [{'at': at, 'do': 'start', 'node': node} for at, node in ((5, 0), (4, 1), (4, 1), (4, 7), (3, 0))]
        script = {'configs': hello.configurations(), 'script': events}
        status, told = told_of(line_by_line(script))
        self.assertEqual((status, [reason.split(':')[0] for _, reason in told]),
                         (8, ['event 1 (start), `at`', 'event 2 (start), `node`', 'event 3 (start), `node`',
                              'event 4 (start), `at`']))

    def test_every_configuration_that_is_not_valid_is_told_and_before_each_event(self):
        configurations = [dict(hello.configurations()[0], key=key) for key in (1, 1, 2, 1)]
        status, told = told_of(line_by_line({'configs': configurations, 'script': [{'at': 0, 'do': 'start', 'node': 4}]}))
        self.assertEqual((status, [reason.split(',')[0] for _, reason in told]),
                         (7, ['configuration 1', 'configuration 3', 'event 0 (start)']))

    def test_a_name_that_stands_twice_is_a_warning_and_the_last_counts(self):
        text = '{"configs":[],"script":[],\n"script":[{"at":0,\n"at":0,"do":"start","node":0}]}'
        verdict = judge(text.encode())[1]
        self.assertEqual((status_now(verdict), len(verdict.faults)), (8, 1))
        self.assertEqual([text[one.at:one.at + 4] for one in verdict.warnings], ['"scr', '"at"'])
        self.assertEqual([Places(text).of(one.at)[0] for one in verdict.warnings], [2, 3])
        for one in verdict.warnings:
            self.assertIn('stands in this object before; the last one counts', one.reason)

    def test_no_example_has_a_warning(self):
        for path in examples():
            self.assertEqual(judge(read_text(path).encode())[1].warnings, [])


    def test_of_many_faults_the_first_hundred_are_told_and_how_many_more_there_are(self):
        for count, more in ((SHOWN, []), (SHOWN + 50, [': and 50 more'])):
            events = [{'at': 0, 'do': 'start', 'node': 9}] * count
            text, verdict = judge(json.dumps({'configs': [], 'script': events}).encode())
            lines = lines_of('', text, verdict)
            self.assertEqual((len(verdict.faults), len(lines), lines[SHOWN:-1]), (count, SHOWN + 1 + len(more), more))


class Tool(unittest.TestCase):

    def test_several_files_are_told_and_standard_input_is_one(self):
        good, bad = examples()[0], os.path.join(TOP, 'tools', 'tests', 'scripts', 'form-misspelled-act.json')
        ran = run_tool('check', good, '-', bad, given=b'{}')
        self.assertEqual(ran.returncode, 1)
        told = ran.stdout.decode().splitlines()
        self.assertEqual(told[0], '%s: status 0: the program runs this script' % good)
        self.assertEqual(told[1], '-:1:1: the script: `configs` is missing, as in "configs":[{"key":1,"preset":"local",'
                                  '"max_peers_per_set":2,"max_message_size":1024,"mailbox_size":4}]')
        self.assertEqual(told[-1], '%s: status 6: this is not a script' % bad)
        self.assertEqual(run_tool('check', good, good).returncode, 0)
        self.assertEqual(run_tool('check', '--all', good).returncode, 2)
