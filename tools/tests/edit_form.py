"""The form of an edit, as rt reads it: a file of the crate, and then texts of it with what stands in their place."""
import os
import re

from files import read_text

NAME = re.compile(r'[A-Za-z0-9_-][A-Za-z0-9_.-]*\.edit')
FOLDERS = ('src/', 'specs/', 'proofs/')


class BadEdit(Exception):
    """Why an edit cannot be applied."""


class Edit:
    """The texts of a crate's files, as an edit changes them, one pair of lines after another."""

    def __init__(self, crate):
        self.crate = crate
        self.before = {}
        self.after = {}
        self.path = None
        self.old = None

    def open(self, path):
        if not path.startswith(FOLDERS) or os.path.normpath(path) != path:
            raise BadEdit('%s is no file of src/, specs/ or proofs/' % path)
        if not os.path.isfile(os.path.join(self.crate, path)):
            raise BadEdit('there is no %s' % path)
        self.path = path
        self.after.setdefault(path, self.before.setdefault(path, read_text(os.path.join(self.crate, path))))

    def replace(self, new):
        if not self.path or not self.old:
            raise BadEdit('a new text has no file or no old text before it')
        count = self.after[self.path].count(self.old)
        if count != 1:
            raise BadEdit('%s has %d times, and not once: %s' % (self.path, count, self.old))
        self.after[self.path] = self.after[self.path].replace(self.old, new)
        self.old = None

    def read(self, line):
        if line.startswith('file: '):
            self.open(line[len('file: '):].strip())
        elif line.startswith('old: '):
            if self.old is not None:
                raise BadEdit('an old text has no new one after it: %s' % self.old)
            self.old = line[len('old: '):]
        elif line.startswith('new:'):
            self.replace(re.sub(r'\A ', '', line[len('new:'):]))
        elif line.strip() and not line.startswith(('#', '--', '//')):
            raise BadEdit('a line is none of an edit: %s' % line)


def apply_edit(path, crate):
    """The texts that an edit changes in a crate's folder, before and after."""
    if not NAME.fullmatch(os.path.basename(path)):
        raise BadEdit('its name is none of an edit')
    edit = Edit(crate)
    for line in read_text(path).split('\n'):
        edit.read(line)
    if edit.old is not None:
        raise BadEdit('an old text has no new one after it: %s' % edit.old)
    if edit.before == edit.after:
        raise BadEdit('it changes nothing')
    return edit.before, edit.after
