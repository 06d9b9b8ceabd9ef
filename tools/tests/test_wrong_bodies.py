"""Wrong bodies: each can be applied to the sources as they stand, and tools/wrong-bodies tells what rt says of each."""
import glob
import os
import tempfile
import unittest

from crate_graph import read_graph
from edit_form import BadEdit, apply_edit
from files import TOP
from skeleton import Skeleton

EDIT = 'file: src/lib.rt\nold: fn one() {}\nnew: fn one() { two() }\n'
FIRST = 'rt: must-fail low/first.edit: refused, as it must be: src/lib.rt:1:1: error: it is not so\n'
SECOND = 'rt: must-fail low/second.edit: '


def folders():
    """Each folder of edits: of wrong bodies, and of a crate's must-fail edits."""
    return sorted(glob.glob(os.path.join(TOP, 'wrong-bodies', '*')) + glob.glob(os.path.join(TOP, 'crates', '*', 'must-fail')))


def crate_of(folder):
    parts = folder.split(os.sep)
    return parts[-2] if parts[-1] == 'must-fail' else parts[-1]


class Form(unittest.TestCase):

    def test_each_folder_is_of_a_crate_and_has_an_edit(self):
        graph = read_graph(TOP)
        self.assertGreater(len(folders()), 20)
        for folder in folders():
            self.assertIn(crate_of(folder), graph)
            self.assertTrue(os.listdir(folder), folder)

    def test_each_edit_can_be_applied(self):
        for folder in folders():
            crate = os.path.join(TOP, 'crates', crate_of(folder))
            for name in sorted(os.listdir(folder)):
                with self.subTest('%s/%s' % (crate_of(folder), name)):
                    apply_edit(os.path.join(folder, name), crate)

    def test_no_two_wrong_bodies_of_a_crate_are_the_same(self):
        for folder in glob.glob(os.path.join(TOP, 'wrong-bodies', '*')):
            crate = os.path.join(TOP, 'crates', crate_of(folder))
            found = [apply_edit(path, crate)[1] for path in glob.glob(os.path.join(folder, '*.edit'))]
            for after in found:
                self.assertEqual(found.count(after), 1, folder)

    def test_a_bad_edit_is_told(self):
        with tempfile.TemporaryDirectory() as folder:
            tree = Skeleton(folder)
            crate = os.path.join(tree.top, 'crates', 'low')
            self.assertEqual(apply_edit(tree.write('good.edit', EDIT), crate)[1],
                             {'src/lib.rt': 'fn one() { two() }\nfn two() {}\n'})
            for text in ('', 'file: src/lib.rt\n', EDIT.replace('fn one', 'fn three'), EDIT.replace('fn one() {}', 'fn'),
                         EDIT.replace('src', '../low/src'), EDIT.replace('lib', 'bib'), EDIT.replace('new: ', 'now: '),
                         'file: src/lib.rt\nnew: x\n', 'file: src/lib.rt\nold: fn one() {}\nnew: fn one() {}\n', EDIT + 'old: x\n'):
                with self.subTest(text):
                    with self.assertRaises(BadEdit):
                        apply_edit(tree.write('bad.edit', text), crate)


class Tool(unittest.TestCase):

    def setUp(self):
        folder = tempfile.TemporaryDirectory()
        self.addCleanup(folder.cleanup)
        self.tree = Skeleton(folder.name)
        for name in ('first', 'second'):
            self.tree.write('tree/wrong-bodies/low/%s.edit' % name, EDIT)
        self.tree.write('tree/crates/low/must-fail/kept.edit', EDIT)

    def run_tool(self, said, status, *words):
        self.tree.write('must-fail.said', said)
        self.tree.write('must-fail.status', '%d\n' % status)
        return self.tree.run(*words, tool='tools/wrong-bodies')

    def test_each_is_told_with_its_place(self):
        status, written, _ = self.run_tool(FIRST + SECOND + 'refused, as it must be\n', 0)
        self.assertEqual(status, 0)
        self.assertEqual(written, 'refused      low/first: src/lib.rt:1:1: error: it is not so\nrefused      low/second\n'
                                  '2 refused, 0 NOT REFUSED, 0 BAD EDIT, 0 NOT TRIED\n')
        self.assertEqual([call.split(' ', 1)[1] for call in self.tree.noted('rt.calls')], ['must-fail low'])

    def test_one_that_is_not_refused_fails(self):
        for said, counts in (('NOT REFUSED: the crate is still proved', '1 NOT REFUSED, 0 BAD EDIT, 0 NOT TRIED'),
                             ('BAD EDIT: it changes nothing', '0 NOT REFUSED, 1 BAD EDIT, 0 NOT TRIED'),
                             ('NOT TRIED: its check was killed', '0 NOT REFUSED, 0 BAD EDIT, 1 NOT TRIED')):
            status, written, _ = self.run_tool(FIRST + SECOND + said + '\n', 1)
            self.assertEqual(status, 1)
            self.assertIn('low/second: ' + said.split(': ')[1], written)
            self.assertIn('1 refused, ' + counts, written)

    def test_one_of_which_rt_says_nothing_is_not_tried(self):
        for said, status in ((FIRST, 0), (FIRST, 1), ('', 0), ('rt: something else\n', 2)):
            ended, written, _ = self.run_tool(said, status)
            self.assertEqual(ended, 1)
            self.assertIn('NOT TRIED    low/second', written)

    def test_where_rt_ends_otherwise_than_it_says_it_fails(self):
        status, _, said = self.run_tool(FIRST + SECOND + 'refused, as it must be\n', 1)
        self.assertEqual(status, 1)
        self.assertIn('rt ends with status 1 for low', said)

    def test_the_copy_has_the_wrong_bodies_alone_and_is_gone_then(self):
        self.run_tool(FIRST, 1, 'low')
        self.assertEqual(self.tree.noted('must-fail.listed'), ['first.edit', 'second.edit'])
        self.assertEqual(os.listdir(os.path.join(self.tree.top, 'build')), [])
        self.assertEqual(os.listdir(os.path.join(self.tree.top, 'crates', 'low', 'must-fail')), ['kept.edit'])

    def test_other_words_are_told(self):
        status, _, said = self.run_tool('', 0, 'p2p')
        self.assertEqual(status, 2)
        self.assertIn('p2p has no wrong bodies', said)
        self.tree.write('tree/wrong-bodies/gone/first.edit', EDIT)
        self.assertEqual(self.run_tool(FIRST, 0)[0], 1)
        self.assertEqual(self.tree.noted('rt.calls'), [])
