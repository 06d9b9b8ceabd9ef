"""Reads a report: its entries, its copies and its counts, or tells which line is not one."""
import re

from json_text import BadJson, read_json

QUEUE = re.compile(r'[a-z]+(?::[0-9]{1,20}){1,2}(?::(?:in|out))?')


class BadReport(Exception):
    """The report is malformed: at which line, and why."""


class Entry:
    """What an event did. Queues are texts, items and replies plain values, and an item is named by entry and place."""

    def __init__(self, line, number, reply, takes, puts, ends):
        self.line = line
        self.number = number
        self.reply = reply
        self.takes = takes
        self.puts = puts
        self.ends = ends


class Report:
    """The entries, and the copies with their fates, in order; of both the lines too."""

    def __init__(self):
        self.entries = []
        self.copies = {}
        self.lines_of_copies = {}

    def line_of_copy(self, name):
        return self.lines_of_copies[name]

    def item(self, name):
        """The queue and the item that have this name."""
        return self.entries[name[0]].puts[name[1]]


def plain(value):
    """A value of JSON as a value of Python; a number that is not whole as its text."""
    if value.kind == 'object':
        return {name: plain(held) for name, _, held in value.held}
    if value.kind == 'array':
        return [plain(held) for held in value.held]
    if value.kind == 'number':
        number = value.whole()
        return value.held if number is None else number
    return value.held


def is_number(value):
    return isinstance(value, int) and not isinstance(value, bool)


def need(holds, reason):
    if not holds:
        raise BadReport(reason)


def a_list(value, what):
    need(isinstance(value, list), '%s is no array' % what)
    return value


def a_name(value, what):
    """The name of an item or a copy: two numbers."""
    need(isinstance(value, list) and len(value) == 2 and all(map(is_number, value)), '%s is no pair of numbers' % what)
    return tuple(value)


def a_queue(value):
    need(isinstance(value, str) and QUEUE.fullmatch(value) is not None, 'a queue is due, as "router:0"')
    return value


def a_put(value):
    need(isinstance(value, list) and len(value) == 2, 'a put is a queue and an item')
    return a_queue(value[0]), value[1]


def an_end(value):
    """An end: ('item', name) or ('copy', name, how)."""
    need(isinstance(value, list) and len(value) in (3, 4), 'an end has three or four parts')
    name = a_name(value[1:3], 'what an end names')
    if len(value) == 3:
        need(value[0] == 'item', 'an end of three parts is an "item"')
        return 'item', name
    need(value[0] == 'copy' and isinstance(value[3], str), 'an end of four parts is a "copy", and how it ended')
    return 'copy', name, value[3]


def a_fate(value):
    """A fate: ('waiting', queue), ('delivered', queue, entry) or ('dropped', cause, entry)."""
    need(isinstance(value, list) and len(value) > 0, 'a fate is no array')
    if value[0] == 'waiting':
        need(len(value) == 2, 'a copy that waits has a queue')
        return 'waiting', a_queue(value[1])
    need(value[0] in ('delivered', 'dropped') and len(value) == 3 and is_number(value[2]), 'a fate that is not known')
    if value[0] == 'delivered':
        return 'delivered', a_queue(value[1]), value[2]
    need(isinstance(value[1], str), 'a cause is no text')
    return 'dropped', value[1], value[2]


def read_entry(said, report, line):
    number = said['n']
    need(number == len(report.entries) and is_number(number), 'entry %d is due here' % len(report.entries))
    takes = [a_name(one, 'a take') for one in a_list(said['take'], '`take`')]
    ends = [an_end(one) for one in a_list(said['end'], '`end`')]
    for entry, place in takes + [end[1] for end in ends if end[0] == 'item']:
        need(entry < number and place < len(report.entries[entry].puts), 'item [%d,%d] was not put before' % (entry, place))
    for _, (send, place), *how in ends:
        need(not how or send <= number, 'copy [%d,%d] is of a later entry' % (send, place))
    puts = [a_put(one) for one in a_list(said['put'], '`put`')]
    report.entries.append(Entry(line, number, said['reply'], takes, puts, ends))


def read_copy(said, report, line):
    name = a_name(said['copy'], '`copy`')
    need(name[0] < len(report.entries), 'there is no entry %d' % name[0])
    need(name not in report.copies, 'copy [%d,%d] has a line already' % name)
    fate = a_fate(said['fate'])
    need(len(fate) == 2 or fate[2] < len(report.entries), 'there is no entry %s' % fate[-1])
    report.copies[name] = fate
    report.lines_of_copies[name] = line


def read_counts(said, report):
    need(said['entries'] == len(report.entries), 'the report has %d entries' % len(report.entries))
    need(said['copies'] == len(report.copies), 'the report has %d copies' % len(report.copies))


def read_line(text, report, ended):
    """Reads one line, and answers whether it is the last."""
    try:
        said = plain(read_json(text))
    except BadJson as bad:
        raise BadReport('column %d: %s' % (bad.at + 1, bad.reason)) from None
    need(isinstance(said, dict), 'a line is an object')
    need(not ended, 'the line with the counts is the last')
    if set(said) == {'end', 'n', 'put', 'reply', 'take'}:
        need(not report.copies, 'entries come before copies')
        read_entry(said, report, text)
    elif set(said) == {'copy', 'fate'}:
        read_copy(said, report, text)
    elif set(said) == {'copies', 'entries'}:
        read_counts(said, report)
        return True
    elif set(said) == {'error'} or set(said) & {'config', 'event'}:
        raise BadReport('the script was refused; tools/check tells why')
    else:
        raise BadReport('neither an entry, a copy nor the counts')
    return False


def read_report(text):
    """The report that a text is."""
    report = Report()
    ended = False
    lines = text.split('\n')
    for number, line in enumerate(lines[:-1], 1):
        try:
            ended = read_line(line, report, ended)
        except BadReport as bad:
            raise BadReport('line %d: %s' % (number, bad)) from None
    if lines[-1]:
        raise BadReport('line %d: the line has no end, so the report was cut off' % len(lines))
    if not ended:
        raise BadReport('the last line, with the counts, is missing')
    return report
