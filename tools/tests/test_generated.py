"""tools/generated and the program: what `run` tells of the script that the tool writes is what `gen` sums up."""
import json
import os
import subprocess
import unittest

from files import TOP

PROGRAM = os.environ['P2P_PROGRAM']
TOOL = os.path.join(TOP, 'tools', 'generated')
KINDS = ('delivered', 'dropped', 'waiting')


def written(*words, given=b''):
    return subprocess.run(list(map(str, words)), input=given, capture_output=True, check=True, timeout=60).stdout


def summed_up(report):
    """The summary of a report."""
    lines = [json.loads(line) for line in report.splitlines()]
    fates = [line['fate'][0] for line in lines if 'fate' in line]
    return {**lines[-1], **{kind: fates.count(kind) for kind in KINDS}}


class Generated(unittest.TestCase):

    def compare(self, count, seed):
        script = written(TOOL, count, seed)
        self.assertEqual(summed_up(written(PROGRAM, 'run', given=script)), json.loads(written(PROGRAM, 'gen', count, seed)))

    def test_run_tells_of_the_text_what_gen_sums_up(self):
        for count, seed in ((1, 7), (96, 0), (97, 1), (3000, 7), (3000, 18446744073709551615)):
            with self.subTest(count=count, seed=seed):
                self.compare(count, seed)

    def test_other_words_are_refused(self):
        for words in (['0', '7'], ['100001', '7'], ['1', '18446744073709551616'], ['01', '7'], ['1'], []):
            with self.subTest(words=words):
                ran = subprocess.run([TOOL, *words], capture_output=True, check=False, timeout=60)
                self.assertEqual((ran.returncode, ran.stdout), (2, b''))
