"""tools/show --why and the program: what is told where something is refused in silence, and of examples in another order."""
import json
import os
import random
import unittest

from agreement import differing
from edits import edited, read_edits
from files import examples, read_text
from judge import judge, status_now
from report_form import read_report
from several import run_each
from why import why_lines

EACH = 5


def disordered(script, seed):
    """A script with one event moved to another place, in which no moment goes back."""
    draws = random.Random(seed)
    events = script['script']
    events.insert(draws.randrange(len(events)), events.pop(draws.randrange(len(events))))
    at = 0
    for event in events:
        event['at'] = at = max(at, event['at'])
    return script


def disordered_examples():
    """Examples with an event in another place, no two with one seed, as far as they are run."""
    for number, path in enumerate(examples()):
        for seed in range(number * EACH, (number + 1) * EACH):
            script = disordered(json.loads(read_text(path)), seed)
            if status_now(judge(json.dumps(script).encode())[1]) == 0:
                yield '%s, %d' % (os.path.basename(path), seed), script


def with_reports(scripts):
    """Each script with the status and the text of its report."""
    for script, (_, ran) in zip(scripts, run_each([json.dumps(script).encode() for script in scripts])):
        yield script, ran.returncode, ran.stdout.decode()


class Silent(unittest.TestCase):

    def test_what_is_refused_in_silence_is_told_with_its_cause(self):
        table = read_edits('silent')
        for (edit, due), (script, status, text) in zip(table, with_reports([edited(edit) for edit, _ in table])):
            with self.subTest(edit):
                self.assertEqual(status, 0)
                told = why_lines(read_report(text), script['configs'], script['script'])
                self.assertEqual([line for line in due if line not in told], [], '\n'.join(told))

    def test_an_example_with_an_event_in_another_place_is_as_it_is_read_and_each_refusal_has_a_cause(self):
        named, compared = list(disordered_examples()), 0
        self.assertGreater(len(named), 50)
        for (name, _), (script, status, text) in zip(named, with_reports([script for _, script in named])):
            with self.subTest(name):
                self.assertEqual(status, 0)
                found, count = differing(read_report(text), script['configs'], script['script'])
                self.assertEqual(found, [])
                compared += count
        self.assertGreater(compared, 300)
