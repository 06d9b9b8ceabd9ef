"""The tables of the promises: each file, call, definition and clause that a row names is there."""
import os
import re
import unittest

from crate_graph import read_graph
from files import TOP, read_text
from promises import Part, tables

PROMISES = os.path.join(TOP, 'docs', 'PROMISES.md')
WORD = re.compile(r'`([^`]*)`')
LIST = r'((?:`\w+`(?:, | and | or ))*`\w+`)'
OF_TYPE = re.compile(LIST + r' of `([A-Z]\w+)`')
OF_CALL = re.compile(LIST + r' of `\w+::\w+`')
EITHER = re.compile(r'`(\w+)` or `(\w+)`')
IN_FILE = re.compile(r'`([\w:]+)`,? in `([\w./]+\.(?:rt|antt))`')


def kind_of(word):
    """What a name in backquotes is by its form."""
    if '/' in word or word.endswith(('.rt', '.antt')):
        return 'path'
    if '::' in word:
        return 'call'
    return 'capital' if word[:1].isupper() else 'small'


def calls_in(part, text, owner):
    """The calls that a text names, each word with those that it may mean, and the type of the last one. A name alone is of the type
    that was named before it, where that has such a call."""
    found = {}
    for word in WORD.findall(text):
        if kind_of(word) == 'call':
            owner, found[word] = word.rpartition('::')[0], part.calls_named(word)
        elif kind_of(word) == 'small':
            found[word] = owner and part.calls_named('%s::%s' % (owner, word)) or part.calls_named(word)
    return {word: calls for word, calls in found.items() if calls}, owner


class Row:
    """What is read of a row's last cell: names that stand nowhere, and the calls of which its clauses are."""

    def __init__(self, part, of_part, last):
        self.part, self.of_part, self.last, self.owner, self.lacking = part, of_part, last, None, []

    def lacks(self, words, is_there):
        self.lacking += [word for word in words if not is_there(word)]

    def read(self, cell):
        for head, _, tail in [piece.partition(' over ') for piece in cell.split(';')]:
            self.lacks(WORD.findall(tail), self.is_defined)
            self.lacks([word for word in WORD.findall(head) if kind_of(word) != 'small'], self.is_defined)
            for words, name in OF_TYPE.findall(head):
                self.lacks([word for word in WORD.findall(words) if kind_of(word) == 'small'],
                           lambda word, name=name: word in self.part.clauses_of_type(name) or self.part.calls_named(name + '::' + word))
            self.read_clauses(OF_TYPE.sub('', head))
            self.lacking += [' in '.join(pair) for pair in IN_FILE.findall(head) if not self.part.stands_in(*pair)]

    def is_defined(self, word):
        """Whether a word that is no clause names a file, a call, or what is defined."""
        if kind_of(word) == 'path':
            return self.part.has_path(word)
        return word in self.part.defined or word in self.part.types or bool(self.part.calls_named(word)) or word in self.part.crates

    def read_clauses(self, head):
        """The clauses, which stand after a colon or before `of`, or are no call, have to be of each call that is named."""
        before, colon, after = head.partition('`:')
        clauses = WORD.findall(after) + [word for words in OF_CALL.findall(head) for word in WORD.findall(words)]
        clauses += [word for word in WORD.findall(head) if any(word in self.part.clauses_of_call(call) for call in self.of_part)]
        named, self.owner = calls_in(self.part, before + colon, self.owner)
        calls = [call for word, found in named.items() if colon or word not in clauses for call in found]
        self.last = calls or self.last
        if colon:
            self.lacks([word for word in WORD.findall(before + colon) if kind_of(word) == 'small'], self.is_defined)
        words = [word for word in WORD.findall(after if colon else head) if kind_of(word) == 'small' and word not in self.part.crates]
        words = [word for word in words if word in clauses or word not in named]
        has_file = any(kind_of(word) == 'path' for word in WORD.findall(head))
        either = dict(pair for one in EITHER.findall(head) for pair in (one, one[::-1]))
        types = [word for word in WORD.findall(head) if kind_of(word) == 'capital' and word in self.part.types]
        self.lacks(words, lambda word: self.is_clause(word, either.get(word), calls, types)
                   or not colon and has_file and word in self.part.defined)

    def is_clause(self, word, other, calls, types):
        """Whether the word is a clause of each of these calls, or the other one is; where there is no call, of one of the types that are
        named, or of the calls of the part, or of those of the row before."""
        if not calls and types:
            return any(word in self.part.clauses_of_type(name) for name in types)
        calls = calls or self.of_part or self.last
        return bool(calls) and all({word, other} & self.part.clauses_of_call(call) for call in calls)


def read_tables(text):
    """For each row of each table its cell, and the names in it that stand nowhere."""
    graph, found = read_graph(TOP), []
    for part_text, before, cells in tables(text):
        part, last = Part(part_text, graph), []
        of_part = [call for calls in calls_in(part, before, None)[0].values() for call in calls]
        for cell in cells:
            row = Row(part, of_part, last)
            row.read(cell)
            last = row.last
            found.append((cell, row.lacking))
    return found


PAGE = """## The world

`p2p_net/src/world.rt`, over `p2p_net_router` and `p2p_flow_senders`.

| promise | clause |
|---|---|
%s
"""


def lacking_in(cells):
    """For each of these cells the names in it that stand nowhere, on a page of the world."""
    return read_tables(PAGE % '\n'.join('| something | %s |' % cell for cell in cells))


class Promises(unittest.TestCase):

    def test_all_that_the_rows_name_is_there(self):
        rows = read_tables(read_text(PROMISES))
        self.assertGreater(len(rows), 150)
        for cell, lacking in rows:
            with self.subTest(cell):
                self.assertEqual(lacking, [])

    def test_what_is_there_is_found(self):
        cells = ['`World::run`: `lawful`, `accounted`', '`World::new`, `World::run`: `stands`', '`stands` of `World::new` and `apply`',
                 '`fits` in `p2p_net_node/src/configs.rt`', '`Router::take_all`: `over`; `release`: `peers`, `over`',
                 '`Sender::send`: `left` of `IsSendOf`, and `unsent`', '`IsCheckOf` in `p2p_flow_senders/specs/Senders.antt`']
        self.assertEqual(lacking_in(cells), [(cell, []) for cell in cells])

    def test_what_is_not_there_is_told(self):
        due = [('`World::run`: `lawful`, `counted`', ['counted']), ('`World::run`, `counted`', ['counted']),
               ('`World::runs`: `lawful`', ['World::runs']), ('`World::new`, `World::run`: `lawful`', ['lawful']),
               ('`lawful` of `World::new` and `run`', ['lawful']), ('`Router::take_all`: `peers`; `release`: `over`', ['peers']),
               ('`Sender::send`: `over` of `IsSendOf`, and `unsent`', ['over']), ('`World::run`, over `IsNowhere`', ['IsNowhere']),
               ('`p2p_net/src/worlds.rt`', ['p2p_net/src/worlds.rt']),
               ('`fits` in `p2p_net/src/world.rt`', ['fits in p2p_net/src/world.rt'])]
        self.assertEqual(lacking_in([cell for cell, _ in due]), due)

    def test_a_clause_that_goes_is_told(self):
        run = Part('`p2p_net`', ['p2p_net']).calls_named('World::run')[0]
        run.clauses.remove('accounted')
        self.addCleanup(run.clauses.add, 'accounted')
        told = [lacking for _, lacking in read_tables(read_text(PROMISES)) if lacking]
        self.assertEqual(told, [['accounted']])
