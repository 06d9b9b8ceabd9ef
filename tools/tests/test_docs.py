"""The documents: what they quote stands in an example, and what they name is there."""
import glob
import os
import re
import unittest

from calls import calls_of, names_of
from crate_graph import closure, crate_of_line, read_graph
from files import TOP, examples, read_text, reports
from pages import anchor_of, anchors_of, fault_of, links_of, pages, reached_from

README = os.path.join(TOP, 'README.md')
LIBRARY = os.path.join(TOP, 'docs', 'LIBRARY.md')
ENDINGS = ('rt', 'antt', 'md', 'json', 'report', 'edit', 'svg', 'py', 'rows')
NAMED_FILE = re.compile(r'`((?:p2p\w*|examples|docs|tools|crates|tests)/[\w./-]+\.(?:%s))`' % '|'.join(ENDINGS))


def example_lines():
    """Each line of the examples, without its indent and comma."""
    return {line.strip().rstrip(',') for path in [*examples(), *reports()]
            for line in read_text(path).splitlines()}


def part_of_the_promises(title):
    """What stands under this title."""
    text = read_text(os.path.join(TOP, 'docs', 'PROMISES.md'))
    return re.split(r'^## ', text.split('## %s\n' % title)[1], flags=re.MULTILINE)[0]


def rows_of_the_library(title):
    """The rows of the tables under this title of LIBRARY.md, each as its cells, without those of the head."""
    part = re.split(r'^## ', read_text(LIBRARY).split('## %s\n' % title)[1], flags=re.MULTILINE)[0]
    rows = [line.strip('|').split(' | ') for line in part.splitlines() if line.startswith('| ') and '`' in line]
    return [[cell.strip() for cell in row] for row in rows]


def words_in_code(text):
    return re.findall(r'`([^`]*)`', text)


class Docs(unittest.TestCase):

    def test_what_is_quoted_stands_in_an_example(self):
        lines = example_lines()
        of_format = glob.glob(os.path.join(TOP, 'docs', 'FORMAT-*.md'))
        self.assertEqual(len(of_format), 4)
        for name, least in [(README, 6), *((path, 1) for path in of_format)]:
            with self.subTest(name):
                quoted = [line.strip() for line in read_text(name).splitlines() if line.startswith('    {')]
                self.assertGreaterEqual(len(quoted), least)
                self.assertEqual([line for line in quoted if line not in lines], [])

    def test_a_page_has_at_most_500_lines(self):
        self.assertEqual([path for path in pages() if len(read_text(path).splitlines()) > 500], [])

    def test_the_readme_is_short(self):
        self.assertLess(len(read_text(README).split()), 900)

    def test_each_link_leads_to_a_file_and_a_title(self):
        found = [(path, link) for path in pages() for link in links_of(path)]
        self.assertGreater(len(found), 50)
        for path, link in found:
            with self.subTest(os.path.relpath(path, TOP)):
                self.assertIsNone(fault_of(path, link), link)

    def test_a_link_that_leads_nowhere_is_found(self):
        self.assertIsNone(fault_of(README, 'docs/MODEL.md#copies'))
        self.assertEqual(fault_of(README, 'docs/NONE.md'), 'there is no docs/NONE.md')
        self.assertEqual(fault_of(README, 'docs/MODEL.md#none'), 'there is no title for #none')
        self.assertEqual(fault_of(README, 'examples/hello.json#copies'), 'there is no title for #copies')

    def test_a_title_makes_its_anchor(self):
        self.assertEqual(anchor_of("The tracker's `Mailbox`, and [what](x.md) waits"), 'the-trackers-mailbox-and-what-waits')
        self.assertIn('what-it-promises', anchors_of(README))

    def test_each_page_is_reached_from_the_readme(self):
        reached = reached_from(README)
        self.assertEqual([os.path.relpath(path, TOP) for path in pages() if path not in reached], [])

    def test_each_file_that_is_named_is_there(self):
        for path in pages():
            for name in NAMED_FILE.findall(read_text(path)):
                with self.subTest(os.path.basename(path)):
                    found = [place for place in ('', 'crates') if os.path.exists(os.path.join(TOP, place, name))]
                    self.assertTrue(found, name)

    def test_a_page_has_each_crate(self):
        crates = [line.split(':')[0].split()[0] for line in read_text(os.path.join(TOP, 'crates.txt')).splitlines() if ':' in line]
        listed = re.findall(r'^\| `(p2p\w*)` \|', read_text(os.path.join(TOP, 'docs', 'CRATES.md')), re.MULTILINE)
        self.assertEqual(sorted(listed), sorted(crates))

    def test_a_page_has_each_example(self):
        names = [os.path.splitext(os.path.basename(path))[0] for path in examples()]
        listed = re.findall(r'^\| \[`([\w-]+)`\]\(\1\.json\) \|', read_text(os.path.join(TOP, 'examples', 'README.md')), re.MULTILINE)
        self.assertEqual(sorted(listed), sorted(names))

    def test_the_promises_have_each_edit(self):
        found = {'/'.join(path[:-len('.edit')].split(os.sep)[-3::2])
                 for path in glob.glob(os.path.join(TOP, 'crates', '*', 'must-fail', '*.edit'))}
        listed = re.findall(r'`(p2p\w*/\w+)`', part_of_the_promises('The must-fail edits'))
        self.assertEqual(sorted(listed), sorted(found))

    def test_the_promises_have_each_wrong_body(self):
        found = {'/'.join(path[:-len('.edit')].split(os.sep)[-2:])
                 for path in glob.glob(os.path.join(TOP, 'wrong-bodies', '*', '*.edit'))}
        rows = re.findall(r'^\| `(p2p\w*)` \| (`[^|]*`) \| \d+ \w+ 2026[^|]* \|$', part_of_the_promises('The must-fail edits'), re.MULTILINE)
        listed = {crate + '/' + name for crate, names in rows for name in re.findall(r'`(\w+)`', names)}
        self.assertEqual(sorted(listed), sorted(found))

    def test_the_library_has_what_each_crate_stands_on(self):
        graph, rows = read_graph(TOP), [row for row in rows_of_the_library('Into another repository') if len(row) == 3]
        uses = dict(crate_of_line(line) for line in read_text(os.path.join(TOP, 'crates.txt')).splitlines())
        self.assertGreater(len(rows), 15)
        for crate, below, kit in rows:
            with self.subTest(crate):
                name = crate.strip('`')
                of_kit = {used for one in closure(graph, name) for used in uses[one]} - set(graph)
                self.assertEqual(sorted(words_in_code(below)), sorted(set(closure(graph, name)) - {name}))
                self.assertEqual(sorted(words_in_code(kit)), sorted(of_kit))

    def test_the_commands_of_the_library_copy_all_that_two_crates_stand_on(self):
        listed = re.search(r'for crate in ([\w\s\\]+); do', read_text(LIBRARY)).group(1).replace('\\', '').split()
        graph = read_graph(TOP)
        self.assertEqual(sorted(listed), sorted({*closure(graph, 'p2p_mux'), *closure(graph, 'p2p_tracker_directory')}))

    def test_the_library_has_each_call_that_asks_something(self):
        listed = {}
        for crate, calls, _, _ in rows_of_the_library('What a call asks of its caller'):
            listed.setdefault(crate.strip('`'), set()).update('::'.join(call.split('::')[-2:]) for call in words_in_code(calls))
        crates = [row[0].strip('`') for row in rows_of_the_library('Into another repository')]
        asking = {crate: {name for name, asks in calls_of(crate) if asks} for crate in crates}
        self.assertGreater(sum(map(len, asking.values())), 50)
        self.assertEqual(listed, {crate: names for crate, names in asking.items() if names})

    def test_each_call_that_the_library_names_is_there(self):
        graph = read_graph(TOP)
        for task, crates, calls in rows_of_the_library('By task'):
            words = words_in_code(crates + calls)
            named = {word.split('::')[0] for word in words} & set(graph)
            names = set().union(*(names_of(crate) for one in named for crate in closure(graph, one)))
            for word in words:
                with self.subTest(task):
                    tail = '::'.join(word.split('::')[-2:])
                    self.assertTrue(word in graph or tail in names or word.split('::')[-1] in names and word.split('::')[0] in graph, word)
