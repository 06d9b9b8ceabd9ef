"""The graph of the crates: what the program stands on, in an order in which it can be built."""
import unittest

from crate_graph import closure, read_graph, remaining_work
from files import TOP

SMALL = {'low': [], 'left': ['low'], 'right': ['low'], 'high': ['left', 'right'], 'other': ['low']}


class CrateGraph(unittest.TestCase):

    def test_each_crate_comes_after_what_it_uses(self):
        self.assertEqual(closure(SMALL, 'high'), ['low', 'left', 'right', 'high'])

    def test_the_heaviest_chain_upwards_counts(self):
        sizes = {'low': 1, 'left': 10, 'right': 2, 'high': 5}
        self.assertEqual(remaining_work(SMALL, closure(SMALL, 'high'), sizes), {'high': 5, 'left': 15, 'right': 7, 'low': 16})

    def test_the_program_stands_on_crates_of_the_repository_alone(self):
        graph = read_graph(TOP)
        crates = closure(graph, 'p2p')
        self.assertEqual(crates[-1], 'p2p')
        self.assertTrue(set(crates) <= set(graph))
        self.assertFalse([crate for crate in crates if crate.endswith('_tests')])
