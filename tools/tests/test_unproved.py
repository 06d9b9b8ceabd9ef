"""What comes of a trial of the sources: the program's own status, or 1 and the reason."""
import os
import tempfile
import unittest

from files import read_bytes
from judge import LIMIT
from skeleton import ENDED, Skeleton

TOO_MUCH = '''the end of the program's standard output:
| {"end":[],"n":8093}
checked: no-answer: the program wrote more than 1048576 bytes to standard output or to standard error, the limit on each
races: not looked for
run=no-answer proved=no
'''
REFUSED = '''src/main.rt:1:1: error: it cannot be read
run=none proved=no
'''


class Unproved(unittest.TestCase):

    def setUp(self):
        folder = tempfile.TemporaryDirectory()
        self.addCleanup(folder.cleanup)
        self.tree = Skeleton(folder.name)

    def test_the_trial_gets_the_script_as_a_file(self):
        self.assertEqual(self.tree.run('run', given=b'{"a\xff": 1}\n')[0], 0)
        self.assertEqual(read_bytes(os.path.join(self.tree.folder, 'try.given')), b'{"a\xff": 1}\n')
        self.assertEqual(self.tree.noted('try.kind'), ['file'])

    def test_no_more_is_read_than_the_program_reads(self):
        self.tree.run('run', given=b' ' * (LIMIT + 5))
        self.assertEqual(os.path.getsize(os.path.join(self.tree.folder, 'try.given')), LIMIT + 1)

    def test_a_limit_of_the_trial_is_told_and_the_build_is_named(self):
        self.tree.set_trial('{"end":[],"n":8093}\n', TOO_MUCH, 6)
        status, written, said = self.tree.run('run')
        self.assertEqual((status, written), (1, ''))
        self.assertRegex(said, r'more than 1048576 bytes[^\n]* ./p2p build\n\Z')
        self.assertNotIn('run=', said)

    def test_what_rt_cannot_try_is_told_in_its_words(self):
        for number in (1, 2, 3, 4, 5, 6):
            self.tree.set_trial('part', REFUSED, number)
            status, written, said = self.tree.run('run')
            self.assertEqual((status, written), (1, ''))
            self.assertIn('it cannot be read', said)
            self.assertIn('(status %d of rt try)' % number, said)

    def test_a_status_that_rt_does_not_end_with_is_not_the_programs(self):
        self.tree.set_trial('part', ENDED % (0, 0), 5)
        self.assertEqual(self.tree.run('run')[:2], (1, ''))

    def test_without_rt_the_lack_is_told(self):
        for words in (['run'], ['build']):
            status, written, said = self.tree.run(*words, with_rt=False)
            self.assertEqual((status, written), (1, ''))
            self.assertIn('there is no `rt` on the PATH', said)
