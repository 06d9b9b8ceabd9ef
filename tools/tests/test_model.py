"""docs/MODEL.md: each row file that it names for a reply, a reason or a cause shows that, and each of them has one."""
import os
import re
import unittest

from files import TOP, read_text
from pages import pages
from shown import Shown

ROWS = re.compile(r'`(?:tests/)?([\w-]+\.rows)`')
WORDS = re.compile(r'`([^`]*)`')


def table_under(title, head):
    """The rows of the table under this title that begins with this head, each as its cells."""
    part = read_text(os.path.join(TOP, 'docs', 'MODEL.md')).split('\n## %s\n' % title)[1].split('\n## ')[0]
    lines = part.split('\n%s' % head)[1].split('\n\n')[0].splitlines()[2:]
    return [[cell.strip() for cell in line.strip('|').split(' | ')] for line in lines]


class Model(unittest.TestCase):

    @classmethod
    def setUpClass(cls):
        cls.shown = Shown()

    def test_each_file_of_rows_that_a_page_names_is_there(self):
        named = {(os.path.relpath(path, TOP), name) for path in pages() for name in ROWS.findall(read_text(path))}
        self.assertGreater(len(named), 20)
        self.assertEqual([one for one in sorted(named) if not os.path.exists(os.path.join(TOP, 'tests', one[1]))], [])

    def test_each_reply_has_rows_that_show_it_to_each_act_that_is_told_it(self):
        named = set()
        for words, parts in table_under('Replies', '| reply |'):
            for word in WORDS.findall(words):
                for part in parts.split('; '):
                    acts, files = part.split(': ')
                    of_acts = {(word, act): self.shown.replies.get((word, act), set()) for act in WORDS.findall(acts)}
                    named.update(of_acts)
                    with self.subTest('%s, %s' % (word, part)):
                        for found in of_acts.values():
                            self.assertTrue(found & set(ROWS.findall(files)))
                        self.assertEqual(set(ROWS.findall(files)) - set().union(*of_acts.values()), set())
        self.assertEqual(named, {one for one in self.shown.replies if not one[0].startswith('ended: ')})

    def test_each_reason_of_an_end_has_rows_that_show_it(self):
        reasons = set()
        for cells in table_under('The end of a connection', '| reason |'):
            word, files = 'ended: ' + WORDS.findall(cells[0])[0], ROWS.findall(cells[-1])
            shown = [found for (reply, _), found in self.shown.replies.items() if reply == word]
            with self.subTest(word):
                self.assertTrue(files)
                self.assertEqual(set(files) - set().union(*shown), set())
            reasons.add(word)
        self.assertEqual(reasons, {reply for reply, _ in self.shown.replies if reply.startswith('ended: ')})

    def test_each_cause_has_rows_that_show_it(self):
        causes = set()
        for cells in table_under('Copies', '| cause | defined |'):
            cause, files = WORDS.findall(cells[0])[0], ROWS.findall(cells[-1])
            with self.subTest(cause):
                self.assertTrue(files)
                self.assertEqual(set(files) - self.shown.ends[cause], set())
            causes.add(cause)
        self.assertEqual(causes, set(self.shown.ends) - {'delivered'})
