"""The program on each row of tests/: what comes is what is due, is what is read off it, and each refusal has a cause."""
import os
import unittest

from agreement import differing
from files import TOP
from report_form import read_report
from rows_compare import compare, tell
from rows_form import BadRows
from rows_run import all_rows, run
from several import of_each, program


class AllRows(unittest.TestCase):

    @classmethod
    def setUpClass(cls):
        rows = all_rows(os.path.join(TOP, 'tests'), [])
        bad = ['%s:%d: %s' % (path, row.line, row.reason) for path, row in rows if isinstance(row, BadRows)]
        if bad:
            raise AssertionError('\n'.join(bad))
        scripts = [row for _, row in rows]
        cls.ran = list(zip(scripts, of_each(lambda row: run(row, program()), scripts)))

    def test_each_row_comes_as_it_is_due(self):
        self.assertTrue(self.ran)
        for row, (status, written) in self.ran:
            with self.subTest('%s:%d' % (row.path, row.line)):
                differences = compare(row, status, written)
                self.assertEqual(differences, [], '\n'.join(tell(row, differences)) if differences else '')

    def test_each_row_is_as_it_is_read_and_each_refusal_has_a_cause(self):
        compared = 0
        for row, (status, written) in self.ran:
            if status == 0:
                with self.subTest('%s:%d' % (row.path, row.line)):
                    found, count = differing(read_report(written.decode()), row.configs, row.events)
                    self.assertEqual(found, [])
                    compared += count
        self.assertGreater(compared, 1000)
