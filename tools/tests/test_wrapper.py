"""The wrapper ./p2p, in a small tree with a `rt` and a program that only note how they are called."""
import os
import re
import subprocess
import tempfile
import unittest

from skeleton import ENDED, Skeleton

# Words that are not taken, and a part of what is said of them.
WRONG = [
    (['bogus'], 'bogus is no command'),
    ([''], 'is no command'),
    (['Run'], 'Run is no command'),
    (['run', 'extra'], './p2p run < SCRIPT'),
    (['build', 'low'], './p2p build'),
    (['help', 'me'], './p2p help'),
    (['gen'], './p2p gen N SEED'),
    (['gen', '1'], './p2p gen N SEED'),
    (['gen', '1', '7', '1'], './p2p gen N SEED'),
    (['gen', '0', '7'], 'N is 0; right is a whole number from 1 to 100,000'),
    (['gen', '100001', '7'], 'N is 100001; right is a whole number from 1 to 100,000'),
    (['gen', '01', '7'], 'N is 01; right is a whole number from 1 to 100,000'),
    (['gen', '1', '18446744073709551616'], 'SEED is 18446744073709551616; right is a whole number from 0 to'),
    (['gen', '1', '100000000000000000000'], 'SEED is 100000000000000000000; right is a whole number from 0 to'),
    (['gen', '1', '00'], 'SEED is 00; right is a whole number from 0 to'),
    (['gen', '1', '-1'], 'SEED is -1; right is a whole number from 0 to'),
    (['gen', '1', ''], 'right is a whole number from 0 to'),
    (['gen', '1', '7\n'], 'right is a whole number from 0 to'),
    (['threads'], './p2p threads N M'),
    (['threads', '1'], './p2p threads N M'),
    (['threads', '1', '1', '1'], './p2p threads N M'),
    (['threads', '0', '5'], 'N is 0; right is a whole number from 1 to 64'),
    (['threads', '65', '5'], 'N is 65; right is a whole number from 1 to 64'),
    (['threads', '01', '1'], 'N is 01; right is a whole number from 1 to 64'),
    (['threads', '+1', '1'], 'N is +1; right is a whole number from 1 to 64'),
    (['threads', '', '1'], 'right is a whole number from 1 to 64'),
    (['threads', '18446744073709551617', '1'], 'right is a whole number from 1 to 64'),
    (['threads', '1', '0'], 'M is 0; right is a whole number from 1 to 10,000'),
    (['threads', '1', '10001'], 'M is 10001; right is a whole number from 1 to 10,000'),
    (['threads', '1', '1 '], 'right is a whole number from 1 to 10,000'),
    (['threads', '1', '1\n'], 'right is a whole number from 1 to 10,000'),
    (['threads', '1', '0x10'], 'right is a whole number from 1 to 10,000'),
    (['threads', '64', '10000'], 'N * M is 640000; right is at most 65,536'),
    (['threads', '7', '9363'], 'N * M is 65541; right is at most 65,536'),
    (['--unproved'], './p2p --unproved run < SCRIPT'),
    (['--unproved', 'bogus'], './p2p --unproved run < SCRIPT'),
    (['--unproved', 'run', 'extra'], './p2p --unproved run < SCRIPT'),
]
TOOL_NAMED = 'p2p: tools/check SCRIPT says what is wrong with a script, and where\n'


class Wrapper(unittest.TestCase):

    def setUp(self):
        folder = tempfile.TemporaryDirectory()
        self.addCleanup(folder.cleanup)
        self.tree = Skeleton(folder.name)

    def build(self):
        status, _, said = self.tree.run('build')
        self.assertEqual(status, 0, said)
        self.tree.forget()

    def test_wrong_words_are_told_before_anything_is_run(self):
        for words, part in WRONG:
            with self.subTest(' '.join(words)):
                status, written, said = self.tree.run(*words)
                self.assertEqual((status, written), (2, ''))
                self.assertRegex(said, r'\Ap2p: [^\n]*\n\Z')
                self.assertIn(part, said)
        self.assertEqual(self.tree.noted('rt.calls'), [])

    def test_wrong_words_do_not_reach_the_built_program(self):
        self.build()
        for words, _ in WRONG:
            self.assertEqual(self.tree.run(*words)[0], 2, words)
        self.assertEqual(self.tree.noted('program.calls') + self.tree.noted('rt.calls'), [])

    def test_a_terminal_is_no_script(self):
        for words in (['run'], ['--unproved', 'run']):
            status, written, said = self.tree.run_on_terminal(*words)
            self.assertEqual((status, written), (2, ''))
            self.assertIn('standard input is a terminal', said)
            self.assertIn('./p2p %s < SCRIPT' % ' '.join(words), said)
        self.assertEqual(self.tree.noted('rt.calls'), [])

    def test_a_folder_is_no_script(self):
        folder = os.open(self.tree.folder, os.O_RDONLY)
        self.addCleanup(os.close, folder)
        ran = subprocess.run([os.path.join(self.tree.top, 'p2p'), 'run'], stdin=folder, capture_output=True, check=False, timeout=60)
        self.assertEqual((ran.returncode, ran.stdout), (3, b''))
        self.assertIn(b'standard input is a folder', ran.stderr)

    def test_the_usage_is_printed(self):
        status, usage, said = self.tree.run('help')
        self.assertEqual((status, said), (0, ''))
        self.assertEqual(self.tree.run('--help'), (0, usage, ''))
        self.assertEqual(self.tree.run('-h'), (0, usage, ''))
        self.assertEqual(self.tree.run(), (2, '', usage))
        self.assertEqual(re.findall(r'^\d+', usage, re.MULTILINE), [str(number) for number in range(11)])
        for command in ('run < SCRIPT', 'gen N SEED', 'threads N M', 'build', 'help', '--unproved run < SCRIPT'):
            self.assertIn('./p2p %s ' % command, usage)

    def test_what_is_not_built_runs_as_it_is(self):
        self.tree.set_trial('a report\n', ENDED % (0, 0), 0)
        for words, called in ((['run'], 'run'), (['--unproved', 'run'], 'run'), (['gen', '9', '0'], 'gen 9 0'),
                              (['threads', '2', '3'], 'threads 2 3')):
            self.tree.forget()
            status, written, said = self.tree.run(*words, given=b'script')
            self.assertEqual((status, written), (0, 'a report\n'))
            self.assertRegex(said, r'\Ap2p: nothing is proved of this run[^\n]*\./p2p build[^\n]*\n\Z')
            self.assertEqual(self.tree.noted('rt.calls'), ['p2p try --seconds 20 -- ' + called])

    def test_what_is_built_runs_without_rt(self):
        self.build()
        self.assertEqual(self.tree.run('run', given=b'script'), (0, 'ran script\n', ''))
        calls = ['gen 1 0', 'gen 100000 18446744073709551615', 'gen 7 9999999999999999999',
                 'threads 1 1', 'threads 64 1024', 'threads 6 10000']
        for call in calls:
            self.assertEqual(self.tree.run(*call.split()), (0, '', ''))
        self.assertEqual(self.tree.noted('program.calls'), ['run'] + calls)
        self.assertEqual(self.tree.noted('rt.calls'), [])

    def test_unproved_takes_the_sources_where_the_program_is_built_too(self):
        self.build()
        self.tree.set_trial('tried\n', ENDED % (0, 0), 0)
        self.assertEqual(self.tree.run('--unproved', 'run')[:2], (0, 'tried\n'))
        self.assertEqual(self.tree.noted('program.calls'), [])

    def test_the_tool_is_named_where_the_script_is_wrong(self):
        self.build()
        for number in range(11):
            due = TOOL_NAMED if number in (5, 6, 7, 8) else ''
            self.assertEqual(self.tree.run('run', given=b'%d' % number), (number, 'ran %d\n' % number, due))
            self.tree.set_trial('refused\n', ENDED % (number, number), number)
            status, written, said = self.tree.run('--unproved', 'run')
            self.assertEqual((status, written, said.split('\n', 1)[1]), (number, 'refused\n', due))

    def test_no_built_program_is_silently_an_old_one(self):
        self.build()
        for path in ('crates/low/src/lib.rt', 'crates/low/src', 'crates/p2p/src/main.rt', 'crates.txt'):
            self.tree.set_age(path, 60)
            status, written, said = self.tree.run('run', given=b'script')
            self.assertEqual((status, written), (0, 'ran script\n'))
            self.assertRegex(said, r'\Ap2p: sources have changed since the program was built; this runs the built program of '
                                   r'\d{4}-\d\d-\d\d \d\d:\d\d; \./p2p build proves the new ones\n\Z')
            self.tree.set_age(path, -60)
            self.assertEqual(self.tree.run('run', given=b'script')[2], '')
        self.assertEqual(self.tree.noted('rt.calls'), [])

    def test_a_source_that_is_gone_has_changed(self):
        self.build()
        self.tree.set_age('crates/low/src/lib.rt', -60)
        self.tree.write('tree/build/p2p.sources', 'crates/low/src\ncrates/gone/src\n')
        self.assertIn('sources have changed', self.tree.run('run')[2])

    def test_of_a_program_that_another_rt_built_its_own_date_counts(self):
        self.build()
        for path in ('crates/low/src/lib.rt', 'crates/low/src', 'crates/p2p/src/main.rt', 'crates/p2p/src', 'crates.txt'):
            self.tree.set_age(path, -60)
        self.tree.set_age('build/p2p.sources', -30)
        self.tree.set_age('build/p2p.started', -90)
        self.assertEqual(self.tree.run('run')[2], '')
        self.tree.set_age('crates/low/src/lib.rt', 60)
        self.assertIn('sources have changed', self.tree.run('run')[2])

    def test_build_proves_what_has_changed_and_nothing_else(self):
        status, written, said = self.tree.run('build')
        self.assertEqual((status, written), (0, ''))
        self.assertRegex(said, r'GB of disk; \d+ GB are free')
        self.assertIn('proved already: 0 of 2 crates', said)
        self.assertEqual([call.split()[:2] for call in self.tree.noted('rt.calls')], [['low', 'lib'], ['p2p', 'run']])
        self.tree.forget()
        self.assertEqual(self.tree.run('build'), (0, '', 'p2p: the program is built, and no source has changed since\n'))
        self.assertEqual(self.tree.noted('rt.calls'), [])
        self.tree.set_age('crates/p2p/src/main.rt', 60)
        self.assertIn('proved already: 1 of 2 crates', self.tree.run('build')[2])
        self.tree.set_age('crates/low/src/lib.rt', 60)
        self.assertIn('proved already: 0 of 2 crates', self.tree.run('build')[2])
        self.assertEqual(len(self.tree.noted('rt.calls')), 4)

    def test_what_is_not_proved_has_status_1_and_is_not_built(self):
        self.tree.write('tree/crates/low/src/broken', '')
        status, written, said = self.tree.run('build')
        self.assertEqual((status, written), (1, ''))
        self.assertIn('low is not proved', said)
        self.assertNotIn('the program is proved and built', said)
        self.assertIn('nothing is proved of this run', self.tree.run('run')[2])
