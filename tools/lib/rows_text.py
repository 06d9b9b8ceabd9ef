"""Cuts the text of a file of rows into its rows, and each row into its parts.

    # A topic                                      the first line; what stands before the first row is prose
    ## A rule as a sentence                        a row
    after: two nodes                               it begins as tests/preludes/two-nodes.rows does,
    configs:                                       or with the configurations that are indented below, or with no nodes
    node 0: "send_batch_size":2                    these members replace those of the configuration; `each node:` of each
    channel 7: "burst":4                           and these those of the quota of a channel that the prelude registers, at
    channel 7 of node 0: "burst":4                 each node or at one
    at 1000                                        the moment of the events below; before, that of the prelude's last
    {"do":"start","node":0}                        an event, without `at`,
        "reply":"ok","put":[..]                    and under it the members of its line, without `n` and empty lists, with
                                                   the braces around them or without
    first: {"do":"router","node":0}                an event with a label: `$first` is its number, also within a text
        ...                                        of its line the spelling alone is compared
    fate [$first,0]: "waiting","router:0"          the fates of all copies, in order, or none
    status 8                                       instead of lines and fates: the script is refused, and this is written
        {"error":"event","event":$first}
    # a comment
"""
import re

HEADING = '## '
LABEL = re.compile(r'([a-z][a-z0-9-]*): (\{.*)')
HEADERS = [
    ('after', re.compile(r'after: (.+)')),
    ('configs', re.compile(r'configs:()')),
    ('each node', re.compile(r'each node: (.+)')),
    ('node', re.compile(r'node ([0-9]+): (.+)')),
    ('channel', re.compile(r'channel ([0-9]+): (.+)')),
    ('channel of node', re.compile(r'channel ([0-9]+) of node ([0-9]+): (.+)')),
]
MOMENT = re.compile(r'at ([0-9]+)')
STATUS = re.compile(r'status ([0-9]+)')
FATE = re.compile(r'fate (\[.*?\]): (.+)')
NOT_COMPARED = '...'


class BadRows(Exception):
    """A file of rows, or one row of it, is malformed: at which line, and why."""

    def __init__(self, line, reason):
        super().__init__(reason)
        self.line = line
        self.reason = reason


class Part:
    """A line in the first column with what is indented under it."""

    def __init__(self, line, words=()):
        self.line = line
        self.words = words
        self.under = []

    def text(self):
        return '\n'.join(self.under)


class Event(Part):
    """An event with its label, or None, and its moment, or None where the row has named none yet."""

    def __init__(self, line, label, said, at):
        super().__init__(line)
        self.label = label
        self.said = said
        self.at = at

    def is_compared(self):
        return self.under != [NOT_COMPARED]


class Row:
    """One row: its sentence, and its parts in order."""

    def __init__(self, line, title):
        self.line = line
        self.title = title
        self.headers = []
        self.events = []
        self.fates = []
        self.status = None
        self.at = None

    def read(self, line, text):
        """Reads one line in the first column, and answers its part where anything may be indented under it."""
        for kind, form in HEADERS:
            match = form.fullmatch(text)
            if match:
                if self.events or self.status:
                    raise BadRows(line, 'this stands before the first event of its row')
                self.headers.append((kind, Part(line, match.groups())))
                return self.headers[-1][1] if kind == 'configs' else None
        return self.read_event(line, text)

    def read_event(self, line, text):
        match = LABEL.fullmatch(text)
        if match or text.startswith('{'):
            if self.status or self.fates:
                raise BadRows(line, 'an event stands before `status` and `fate`')
            label, said = match.groups() if match else (None, text)
            self.events.append(Event(line, label, said, self.at))
            return self.events[-1]
        return self.read_other(line, text)

    def read_other(self, line, text):
        moment, status, fate = MOMENT.fullmatch(text), STATUS.fullmatch(text), FATE.fullmatch(text)
        if moment:
            self.at = int(moment.group(1))
            return None
        if status and self.status is None:
            self.status = Part(line, status.groups())
            return self.status
        if fate:
            self.fates.append(Part(line, fate.groups()))
            return None
        raise BadRows(line, 'neither an event nor another line of a row')


def read_parts(row, lines):
    """Reads the lines of a row, each a number and a text."""
    part = None
    for line, text in lines:
        if not text.strip() or text.startswith('#'):
            continue
        if text[0] not in ' \t':
            part = row.read(line, text.rstrip())
        elif part is None:
            raise BadRows(line, 'nothing may be indented here')
        else:
            part.under.append(text.strip())
    return row


def numbered(text):
    lines = list(enumerate(text.split('\n'), 1))
    if not lines[0][1].startswith('# '):
        raise BadRows(1, 'the first line is the topic, after `# `')
    return lines


def cut_rows(text):
    """The rows of a file: for each its line, its sentence and its lines."""
    found = []
    for line, said in numbered(text):
        if said.startswith(HEADING):
            found.append((line, said[len(HEADING):].strip(), []))
        elif found:
            found[-1][2].append((line, said))
    if not found:
        raise BadRows(1, 'this file has no rows')
    return found


def cut_prelude(text):
    """The lines of a prelude, without its title and its prose."""
    lines = numbered(text)
    for at, (_, said) in enumerate(lines):
        if any(form.fullmatch(said.rstrip()) for kind, form in HEADERS if kind in ('after', 'configs')):
            return lines[at:]
    raise BadRows(1, 'a prelude begins with `configs:` or `after:`')
