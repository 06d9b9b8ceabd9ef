"""What the rows of tests/ show: which act is told which reply in which file, and in which file a copy ends in which way."""
import os

from files import TOP
from rows_run import all_rows


def word_of(reply):
    """The word of a reply, with its meaning where that is a word too."""
    if isinstance(reply, str):
        return reply
    (word, meaning), = reply.items()
    if meaning is None or isinstance(meaning, str) and word != 'retry':
        return '%s: %s' % (word, 'null' if meaning is None else meaning)
    return word


class Shown:
    """The files of rows by reply and act, and by the way in which a copy ends; those of preludes are not among them."""

    def __init__(self):
        self.replies = {}
        self.ends = {}
        for path, row in all_rows(os.path.join(TOP, 'tests'), []):
            if os.path.basename(os.path.dirname(path)) == 'tests':
                self.read(os.path.basename(path), row)

    def read(self, name, row):
        for event, due in zip(row.events, row.due):
            if due:
                self.replies.setdefault((word_of(due['reply']), event['do']), set()).add(name)
                for end in due['end']:
                    if end[0] == 'copy':
                        self.ends.setdefault(end[3], set()).add(name)
