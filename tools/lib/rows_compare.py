"""Compares what came of a script with what is due of it, byte for byte, and tells the first difference."""
from report_text import line_of, lines_of, value_of

NAMES = ['end', 'n', 'put', 'reply', 'take']


class Difference:
    """What is due, what came instead, and of what: an event's line of the file and its text, or a word for another part."""

    def __init__(self, line, what, due, came, is_spelling=False):
        self.line = line
        self.what = what
        self.due = due
        self.came = came
        self.is_spelling = is_spelling


def shown(line):
    """A line as it is told: what is not printed in it as an escape, and a line end that it lacks in words."""
    if not line:
        return 'nothing'
    text = line.decode('utf-8', 'backslashreplace')
    body = text[:-1] if text.endswith('\n') else text
    plain = ''.join(mark if mark.isprintable() else mark.encode('unicode_escape').decode() for mark in body)
    return plain if body != text else plain + '   without a line end'


def all_shown(lines):
    return '\n'.join(map(shown, lines)) or 'nothing'


def is_same_value(due, came):
    """Whether lines that differ have the same values, and so differ by their spelling alone."""
    try:
        return due == [line_of(value_of(line)) for line in came]
    except ValueError:
        return False


def differs(line, what, due, came):
    """The difference between the lines that are due and those that came."""
    return Difference(line, what, all_shown(due), all_shown(came), is_same_value(due, came))


def spelled(line):
    """The value of a line, where this is spelled as a report spells it, or None."""
    try:
        value = value_of(line)
    except ValueError:
        return None
    return value if line_of(value) == line else None


def is_entry(line, number):
    """Whether a line is one of this event, in the form and the spelling of a report."""
    value = spelled(line)
    return isinstance(value, dict) and sorted(value) == NAMES and line_of(value['n']) == line_of(number)


def is_fate(line):
    value = spelled(line)
    return isinstance(value, dict) and sorted(value) == ['copy', 'fate']


def compare_line(script, number, came):
    """The difference between the line of an event and what came, or None; where no line is told, any of that event may come."""
    due, event = script.due[number], line_of(script.events[number]).decode('utf-8', 'backslashreplace').rstrip()
    if due is not None:
        whole = [line_of({'n': number, **due})]
        return None if came == whole else differs(script.where[number], event, whole, came)
    if came and is_entry(came[0], number):
        return None
    said = 'a line of event %d in the spelling of a report' % number
    return Difference(script.where[number] or script.line, event, said, all_shown(came))


def compare_lines(script, lines):
    """The events whose line is another than is due."""
    found = (compare_line(script, number, lines[number:number + 1]) for number in range(len(script.events)))
    return [one for one in found if one]


def compare_fates(script, lines):
    """The fates, which are compared where the row tells any, and the counts."""
    rest = lines[len(script.events):]
    counts = [line_of({'copies': len(rest) - 1, 'entries': len(script.events)})]
    if rest[-1:] != counts:
        return [differs(script.line, 'the last line', counts, rest[-1:])]
    if script.fates is None:
        wrong = [line for line in rest[:-1] if not is_fate(line)]
        said = 'fates in the spelling of a report'
        return [Difference(script.line, 'the fates', said, all_shown(wrong))] if wrong else []
    due = list(map(line_of, script.fates))
    return [differs(script.line, 'the fates', due, rest[:-1])] if due != rest[:-1] else []


def compare_refusal(script, status, lines):
    """The difference between the status and the one line of a refusal and what came."""
    due = script.refused[0], [line_of(script.refused[1])]
    if due == (status, lines):
        return []
    said, came = ('status %d: %s' % (one, all_shown(text)) for one, text in (due, (status, lines)))
    return [Difference(script.line, 'the whole script', said, came, status == due[0] and is_same_value(due[1], lines))]


def compare(script, status, written):
    """The differences between what is due of a script and what came of it."""
    lines = lines_of(written)
    if script.refused:
        return compare_refusal(script, status, lines)
    if status != 0:
        return [Difference(script.line, 'the whole script', 'status 0', 'status %d: %s' % (status, all_shown(lines)))]
    return compare_lines(script, lines) + compare_fates(script, lines)


def tell(script, differences):
    """What is told of a row that failed: the first difference, and how many more there are."""
    first = differences[0]
    yield '%s:%d: %s' % (script.path, first.line, script.title)
    yield '    of %s' % first.what
    for said, text in (('due', first.due), ('came', first.came)):
        for line in text.split('\n'):
            yield '    %-4s %s' % (said, line)
    if first.is_spelling:
        yield '    which is the same value in another spelling'
    if len(differences) > 1:
        yield '    and %d more lines are others' % (len(differences) - 1)
