"""What rt says of the edits of a crate, as a verdict on each."""
import re

REFUSED, NOT_REFUSED, BAD_EDIT, NOT_TRIED = 'refused', 'NOT REFUSED', 'BAD EDIT', 'NOT TRIED'
VERDICT = re.compile(r'^rt: must-fail (\S+)/(\S+)\.edit: (refused, as it must be|NOT REFUSED|BAD EDIT|NOT TRIED)(?:: | )?(.*)$')
KINDS = {'refused, as it must be': REFUSED}


class Told:
    """The verdict on a wrong body, and what is said of it."""

    def __init__(self, kind, text):
        self.kind = kind
        self.text = text


def read_told(crate, names, said):
    """The verdict on each of a crate's wrong bodies, by its name. One of which nothing is said was not tried."""
    told = {name: Told(NOT_TRIED, 'rt says nothing of it') for name in names}
    for line in said.splitlines():
        found = VERDICT.match(line)
        if found and found[1] == crate and found[2] in told:
            told[found[2]] = Told(KINDS.get(found[3], found[3]), found[4])
    return told
