"""tools/check and the program: the same status and the same line of a refusal for each example and each script of the tests, and
for spoiled ones; and of a script that is run a report of its events."""
import json
import os
import unittest

from files import broken_scripts, examples, read_bytes, read_text
from judge import judge, refusal_now, status_now
from rows_compare import compare, tell
from rows_form import Script
from several import run_each
from spoil import spoil_bytes, spoil_value

EACH = 3


def with_no_line_told(data):
    """A script that is run, as a row that tells no line: of its report the form and the spelling are due."""
    script = Script('', 0, '')
    script.events = json.loads(data)['script']
    script.due = script.where = [None] * len(script.events)
    return script


def spoiled():
    """Spoiled examples, no two with one seed: of their bytes, and of their values."""
    for number, path in enumerate(examples()):
        tree = json.loads(read_text(path))
        for seed in range(number * EACH, (number + 1) * EACH):
            yield '%s, bytes, %d' % (os.path.basename(path), seed), spoil_bytes(read_bytes(path), seed)
            yield '%s, values, %d' % (os.path.basename(path), seed), json.dumps(spoil_value(tree, seed)).encode()


class Program(unittest.TestCase):

    def compare(self, data, ran):
        """How the program ends on a script is how that is judged; the status."""
        verdict = judge(data)[1]
        status = status_now(verdict)
        self.assertEqual((ran.returncode, ran.stderr), (status, b''), data[:2000])
        if status != 0:
            self.assertEqual(ran.stdout, refusal_now(verdict), data[:2000])
            return status
        script = with_no_line_told(data)
        differences = compare(script, 0, ran.stdout)
        self.assertEqual(differences, [], '\n'.join(tell(script, differences)) if differences else '')
        return status

    def compare_each(self, named):
        """The statuses of scripts with their names."""
        names, found = [name for name, _ in named], set()
        for name, (data, ran) in zip(names, run_each([data for _, data in named])):
            with self.subTest(name):
                found.add(self.compare(data, ran))
        return found

    def test_each_script_has_the_status_and_the_line_that_are_told(self):
        named = [(os.path.basename(path), read_bytes(path)) for path in examples() + broken_scripts()]
        self.assertEqual(self.compare_each(named), {0, 5, 6, 7, 8})

    def test_spoiled_scripts_have_the_status_and_the_line_that_are_told(self):
        self.assertLessEqual({0, 5, 6, 8}, self.compare_each(list(spoiled())))
