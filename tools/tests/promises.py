"""The tables of docs/PROMISES.md, and what the crates have of which their rows speak: calls with their clauses, and definitions."""
import functools
import glob
import os
import re

from calls import HEAD, owner_of, sources
from files import TOP, read_text

CALL = re.compile(r'^( *)(pub )?(?:pub\(\w+\) )?(?:final )?fn (\w+)')
CLAUSE = re.compile(r'^ *ensures\*? (\w+) \{')
GHOST = re.compile(r'^ +ghost (\w+)(?::| =)')
GIVEN = re.compile(r'^impl\b.*?(\w+)(?:<[^{}]*>)? for (\w+)')
TYPE = re.compile(r'^pub (?:struct|enum|trait) (\w+)', re.MULTILINE)
DEFINED = re.compile(r'^ *(?:(?:pub|unfoldable|abbrev|record|data) )+(\w+)', re.MULTILINE)
RECORD = re.compile(r'^ *pub record (\w+)')
FIELD = re.compile(r'^ +pub (\w+) :')
HEADS = ('| promise | clause |', '| law | clause |', '| promise | where |')


def tables(text):
    """Each table of clauses: the text of its part, the text right before it, and the last cell of each of its rows."""
    found = []
    for part in re.split(r'^## ', text, flags=re.MULTILINE)[1:]:
        before, rows = [], None
        for line in [*part.splitlines(), '']:
            if rows is None and line not in HEADS:
                before.append(line)
            elif rows is None:
                rows = []
            elif line.startswith('| '):
                rows.append(line.rstrip(' |').split(' | ')[-1])
            elif not line.startswith('|'):
                found.append((part, '\n'.join(before), rows))
                before, rows = [], None
    return found


class Call:
    """A call of a source: its file, its type or trait, the trait by which the type has it, its name, and its clauses' names."""

    def __init__(self, path, owner, trait, name, is_public):
        self.path, self.owner, self.trait = os.path.relpath(path, TOP), owner, trait
        self.name, self.is_public, self.clauses = name, is_public, set()


@functools.lru_cache(maxsize=None)
def read_source(path):
    """The calls of a source, and the ghost members of its types and traits."""
    calls, ghosts, owner, trait, is_trait = [], {}, None, None, False
    for line in read_text(path).splitlines():
        given, call, clause, ghost = GIVEN.match(line), CALL.match(line), CLAUSE.match(line), GHOST.match(line)
        if given:
            (trait, owner), is_trait = given.groups(), False
        elif HEAD.match(line):
            (owner, is_trait), trait = owner_of(line), None
        elif call and call.group(1):
            calls.append(Call(path, owner, trait, call.group(3), bool(call.group(2)) or is_trait))
        elif call:
            calls.append(Call(path, None, None, call.group(3), bool(call.group(2))))
        elif clause and calls:
            calls[-1].clauses.add(clause.group(1))
        elif ghost and owner:
            ghosts.setdefault(owner, set()).add(ghost.group(1))
    return calls, ghosts


def definitions(crate):
    return sorted(glob.glob(os.path.join(TOP, 'crates', crate, 'specs', '**', '*.antt'), recursive=True))


@functools.lru_cache(maxsize=None)
def read_definitions(path):
    """The records of a file of definitions with their fields, and the names of all that it defines."""
    records, name, text = {}, None, read_text(path)
    for line in text.splitlines():
        record, field = RECORD.match(line), FIELD.match(line)
        if record:
            name = record.group(1)
            records[name] = set()
        elif field and name:
            records[name].add(field.group(1))
    return records, {*DEFINED.findall(text), os.path.splitext(os.path.basename(path))[0]}


def names_in(path):
    """The calls and types of a source, or what a file of definitions defines."""
    if path.endswith('.antt'):
        return read_definitions(path)[1]
    return {*TYPE.findall(read_text(path)), *(call.name for call in read_source(path)[0])}


class Part:
    """What stands in the crates that a part of the page names."""

    def __init__(self, text, crates):
        self.crates = [crate for crate in crates if re.search(r'`%s(?:/[^`]*)?`' % crate, text)]
        self.paths = [path for crate in self.crates for path in [*sources(crate), *definitions(crate)]]
        self.calls = [call for path in self.paths if path.endswith('.rt') for call in read_source(path)[0]]
        self.members = {}
        for path in self.paths:
            for name, members in (read_source(path)[1] if path.endswith('.rt') else read_definitions(path)[0]).items():
                self.members[name] = self.members.get(name, set()) | members
        self.defined = set().union(*self.members.values(), *map(names_in, self.paths))
        self.types = {call.owner for call in self.calls if call.owner} | set(self.members)

    def has_path(self, name):
        """Whether a file or folder is there, from the crates' folder or in one of the crates."""
        places = [''] + [os.path.join(crate, part) for crate in self.crates for part in ('', 'src', 'specs', 'proofs')]
        return any(os.path.exists(os.path.join(TOP, 'crates', place, name)) for place in places)

    def stands_in(self, word, name):
        """Whether what a word names stands in a file of this name."""
        return any(word.split('::')[-1] in names_in(path) for path in self.paths if path.endswith('/' + name))

    def calls_named(self, word):
        """The calls that a word names, also those that a type has of a trait; without a type those that others can call."""
        *module, owner, name = [None, *word.split('::')]
        if not owner:
            return [call for call in self.calls if call.name == name and call.is_public]
        traits = {call.trait for call in self.calls if call.owner == owner and call.trait}
        return [call for call in self.calls if call.name == name and (call.owner in traits or call.owner == owner)
                and all(one in call.path for one in module if one)]

    def clauses_of_call(self, call):
        of_trait = [other.clauses for other in self.calls if call.trait and (other.owner, other.name) == (call.trait, call.name)]
        return call.clauses.union(*of_trait)

    def clauses_of_type(self, name):
        """The clauses of all calls of a type or a trait and its members, or the fields of a record."""
        return self.members.get(name, set()).union(*(self.clauses_of_call(call) for call in self.calls if call.owner == name))
