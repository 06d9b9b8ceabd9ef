"""The public calls of the crates, read off their sources: which there are, and which ask something of their caller."""
import glob
import os
import re

from files import TOP, read_text

CALL = re.compile(r'^( *)(pub )?(?:final )?fn (\w+)')
HEAD = re.compile(r'^(?:pub )?(impl|trait)\b(.*)')
END_OF_CALL = re.compile(r'^(?:\{|\}|///.*|//.*|)$')


def sources(crate):
    return sorted(glob.glob(os.path.join(TOP, 'crates', crate, 'src', '**', '*.rt'), recursive=True))


def without_brackets(text):
    """The text without what stands between angle brackets."""
    kept, depth = [], 0
    for letter in text.replace('->', '  '):
        depth += letter == '<'
        if not depth:
            kept.append(letter)
        depth -= letter == '>'
    return ''.join(kept)


def owner_of(line):
    """The type or trait whose calls follow this head, and whether it is a trait; None for a trait of a type, whose calls are the trait's."""
    kind, rest = HEAD.match(line).groups()
    plain = without_brackets(rest)
    if kind == 'impl' and re.search(r'\bfor\b', plain):
        return None, False
    found = re.search(r'\w+', plain)
    return (found.group() if found else None), kind == 'trait'


def asks(lines, start):
    """Whether the contract of the call at this line has a `requires`."""
    for line in lines[start + 1:]:
        text = line.strip()
        if text.startswith('requires'):
            return True
        if END_OF_CALL.match(text):
            return False
    return False


def calls_of_file(path):
    """Each public call of a file as its name, with its type or trait before it, and whether it asks something."""
    lines, owner, is_trait, found = read_text(path).splitlines(), None, False, []
    for number, line in enumerate(lines):
        if HEAD.match(line):
            owner, is_trait = owner_of(line)
        elif line == '}':
            owner, is_trait = None, False
        call = CALL.match(line)
        if not call:
            continue
        indent, is_public, name = call.groups()
        if (indent and owner and (is_public or is_trait)) or (not indent and is_public):
            found.append((owner + '::' + name if indent else name, asks(lines, number)))
    return found


def calls_of(crate):
    return [call for path in sources(crate) for call in calls_of_file(path)]


def names_of(crate):
    """The names of the public calls, types and traits of a crate."""
    types = {name for path in sources(crate)
             for name in re.findall(r'^pub (?:struct|enum|trait|type) (\w+)', read_text(path), re.MULTILINE)}
    return types | {name.split('::')[-1] for name, _ in calls_of(crate)} | {name for name, _ in calls_of(crate)}
