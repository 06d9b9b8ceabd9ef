"""What is wrong with a script, and where."""
import difflib


class Fault(Exception):
    """One thing that is wrong: at which character of the text, of what, and why."""

    def __init__(self, at, what, reason):
        super().__init__(reason)
        self.at = at
        self.what = what
        self.reason = reason


class Verdict:
    """What is wrong with a script, in order, the status, and what may be meant otherwise. Status None: nothing is wrong, but it
    is not built."""

    def __init__(self, faults, status, warnings=()):
        self.faults = faults
        self.status = status
        self.warnings = list(warnings)


def perhaps(word, known):
    """A hint at the known word that this one is nearest to."""
    near = difflib.get_close_matches(word, list(known), 1)
    return '; perhaps "%s" is meant' % near[0] if near else ''


def listed(names):
    """Names as they are told, each in quotes."""
    return ', '.join('"%s"' % name for name in names)
