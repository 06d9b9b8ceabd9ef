"""What a source imports of the specs and proofs of this repository's crates is declared where it is imported from: a name that was
changed in one place alone is found in seconds, and not by the proof of the crate that imports it."""
import functools
import glob
import os
import re
import unittest

from files import TOP, read_text

CRATES = os.path.join(TOP, 'crates')
IMPORT = re.compile(r'^\s*(?:ghost )?(?:unfoldable )?(?:pub )?use Rattle\.(\w+)\.(specs|proofs)\.([\w.+\-]+)\.\{([^}]*)\}', re.MULTILINE)
SIGNED = re.compile(r'(?<![\w.\-])([A-Za-z_][\w\-]*)\s*:')
TYPE = re.compile(r'\b(?:record|data)\s+([A-Za-z_]\w*)')
HANDED_ON = re.compile(r'pub use [\w.+\-]+\.\{([^}]*)\}')
NAME = re.compile(r'[A-Za-z_][\w\-]*')


def names_in(text):
    """The names between the brackets of an import, as they are where they come from."""
    return [word for word in (part.strip().split(' as ')[0] for part in text.split(',')) if NAME.fullmatch(word)]


def declared_in(text):
    """What a module declares, or hands on of another."""
    handed_on = [part.strip().split(' as ')[-1] for names in HANDED_ON.findall(text) for part in names.split(',')]
    return set(SIGNED.findall(text)) | set(TYPE.findall(text)) | set(handed_on)


@functools.lru_cache(maxsize=None)
def declared_at(path):
    """The same of a file, and None where there is none: the kit makes modules of sources, which have no file."""
    return declared_in(read_text(path)) if os.path.exists(path) else None


def lacking(text):
    """Each module and name that a source imports of a file of this repository which doesn't declare it, and how many it imports."""
    found, count = [], 0
    for crate, library, module, names in IMPORT.findall(text):
        declared = declared_at(os.path.join(CRATES, crate, library, *module.split('.')) + '.antt')
        if declared is not None:
            count += len(names_in(names))
            found += ['%s.%s' % (module, name) for name in names_in(names) if name not in declared]
    return found, count


class Imports(unittest.TestCase):

    def test_each_name_is_declared_where_it_is_imported_from(self):
        sources = [path for ending in ('antt', 'rt') for path in glob.glob(os.path.join(CRATES, '*', '**', '*.' + ending), recursive=True)
                   if os.path.relpath(path, CRATES).split(os.sep)[1] != 'out']
        found = {os.path.relpath(path, CRATES): lacking(read_text(path)) for path in sources}
        self.assertGreater(sum(count for _, count in found.values()), 10000)
        self.assertEqual({path: names for path, (names, _) in found.items() if names}, {})

    def test_a_name_that_is_not_there_is_found(self):
        text = 'use Rattle.p2p_log_rules.specs.Rows.{only, taken_row, takes_nothing}\n'
        self.assertEqual(lacking(text), (['Rows.takes_nothing'], 3))

    def test_what_a_module_hands_on_is_declared_there(self):
        self.assertEqual(declared_in('pub use Rattle.p2p_base.specs.Queue.{Queue, with_items as put}\nabbrev pub one : ℕ\n'), {'Queue', 'put', 'one'})
