"""Reads files of rows into scripts, with what is due of each event, or tells which line is malformed."""
import json
import os
import re

from rows_text import BadRows, Row, cut_prelude, cut_rows, read_parts

NAMED = re.compile(r'\$([a-z][a-z0-9-]*)')
MEMBERS = ('end', 'put', 'reply', 'take')


class Script:
    """What a row runs. `due` has a line for each event, or None where it is not told; `where` the line of the file; `refused`
    the status and the value of the one line, or None where the script is run."""

    def __init__(self, path, line, title):
        self.path = path
        self.line = line
        self.title = title
        self.configs = []
        self.events = []
        self.due = []
        self.where = []
        self.labels = {}
        self.fates = None
        self.refused = None


def without_repeats(pairs):
    found = dict(pairs)
    if len(found) != len(pairs):
        raise ValueError('a name stands twice in one object')
    return found


def no_constant(word):
    raise ValueError('%s is none of JSON' % word)


def read_value(line, text, labels):
    """The value that a text is, in which labels stand for the numbers of events."""
    def number_of(match):
        if match.group(1) not in labels:
            raise BadRows(line, 'no event has the label `%s`' % match.group(1))
        return str(labels[match.group(1)])
    said = NAMED.sub(number_of, text)
    try:
        return json.loads(said, object_pairs_hook=without_repeats, parse_constant=no_constant)
    except ValueError as error:
        raise BadRows(line, 'this is not JSON: %s' % error) from None


def read_members(line, text, labels):
    return read_value(line, '{%s}' % text, labels)


class Preludes:
    """The preludes of a directory, each read once."""

    def __init__(self, directory):
        self.directory = directory
        self.found = {}

    def path(self, name):
        return os.path.join(self.directory, name.replace(' ', '-') + '.rows')

    def get(self, line, name):
        """The prelude of this name, which a row names at this line."""
        name = name.replace('-', ' ')
        if name not in self.found:
            if not os.path.isfile(self.path(name)):
                raise BadRows(line, 'there is no prelude %s' % os.path.basename(self.path(name)))
            self.found[name] = None
            try:
                self.found[name] = read_prelude(name, self)
            except BadRows as bad:
                self.found[name] = BadRows(line, 'its prelude, line %d: %s' % (bad.line, bad.reason))
        if self.found[name] is None:
            raise BadRows(line, 'this prelude begins with itself')
        if isinstance(self.found[name], BadRows):
            raise BadRows(line, self.found[name].reason)
        return self.found[name]


def begin(script, row, preludes):
    """How the row begins: with the events of its prelude, or with configurations of its own."""
    begun = False
    for kind, part in row.headers:
        if kind in ('after', 'configs') and begun:
            raise BadRows(part.line, 'the row has a beginning already')
        if kind == 'configs':
            script.configs = read_value(part.line, part.text(), {})
            if not isinstance(script.configs, list) or not all(isinstance(one, dict) for one in script.configs):
                raise BadRows(part.line, 'configurations are a list of objects')
        elif kind == 'after':
            prelude = preludes.get(part.line, part.words[0])
            script.configs = json.loads(json.dumps(prelude.configs))
            script.events = json.loads(json.dumps(prelude.events))
            script.labels = dict(prelude.labels)
        begun = begun or kind in ('after', 'configs')
    script.due = [None] * len(script.events)
    script.where = [None] * len(script.events)


def change_node(script, line, which, members):
    if not which < len(script.configs):
        raise BadRows(line, 'there is no node %d' % which)
    script.configs[which].update(members)


def change_channel(script, line, channel, node, members):
    """Changes the quota that is registered for a channel, at one node or, where none is named, at each."""
    changed = False
    for event in script.events:
        if event.get('do') == 'register' and event['channel'] == channel and node in (None, event['node']):
            event['quota'].update(members)
            changed = True
    if not changed:
        raise BadRows(line, 'the prelude does not register this channel')


def change(script, row):
    """Changes the beginning as the row says."""
    for kind, part in row.headers:
        if kind in ('after', 'configs'):
            continue
        members = read_members(part.line, part.words[-1], {})
        if kind == 'each node':
            for which in range(len(script.configs)):
                change_node(script, part.line, which, members)
        elif kind == 'node':
            change_node(script, part.line, int(part.words[0]), members)
        else:
            node = int(part.words[1]) if kind == 'channel of node' else None
            change_channel(script, part.line, int(part.words[0]), node, members)


def read_labels(script, row):
    for number, event in enumerate(row.events, len(script.events)):
        if event.label in script.labels:
            raise BadRows(event.line, 'the label `%s` is that of event %d already' % (event.label, script.labels[event.label]))
        if event.label is not None:
            script.labels[event.label] = number


def read_due(event, labels):
    """The line that is due of an event, or None where it is not compared. Its lists are empty where they are left out."""
    if not event.under:
        raise BadRows(event.line, 'the event has no expected line')
    if not event.is_compared():
        return None
    line = event.line + 1
    text = event.text()
    said = read_value(line, text, labels) if text.startswith('{') else read_members(line, text, labels)
    for name in said:
        if name not in MEMBERS:
            raise BadRows(line, 'a line of a report has no `%s` to compare' % name)
    if 'reply' not in said:
        raise BadRows(line, 'each line of a report has a `reply`')
    return {'end': [], 'put': [], 'take': [], **said}


def read_events(script, row):
    at = script.events[-1]['at'] if script.events else 0
    for event in row.events:
        said = read_value(event.line, event.said, script.labels)
        if 'at' in said:
            raise BadRows(event.line, 'the moment of an event stands before it, as `at 0`')
        if row.status and event.under:
            raise BadRows(event.line + 1, 'a script that is refused has no report')
        at = at if event.at is None else event.at
        script.events.append({'at': at, **said})
        script.where.append(event.line)
        script.due.append(None if row.status else read_due(event, script.labels))


def read_ends(script, row):
    """How the script ends: refused, or with the fates of its copies."""
    if row.status:
        if row.fates:
            raise BadRows(row.fates[0].line, 'a script that is refused has no fates')
        script.refused = int(row.status.words[0]), read_value(row.status.line + 1, row.status.text(), script.labels)
    elif row.fates:
        script.fates = []
        for fate in row.fates:
            copy, said = fate.words
            script.fates.append({'copy': read_value(fate.line, copy, script.labels),
                                 'fate': read_value(fate.line, '[%s]' % said, script.labels)})


def read_row(path, row, preludes):
    """The script of a row."""
    script = Script(path, row.line, row.title)
    begin(script, row, preludes)
    change(script, row)
    read_labels(script, row)
    read_events(script, row)
    read_ends(script, row)
    if script.refused is None and script.fates is None and not any(script.due):
        raise BadRows(row.line, 'nothing of this row is compared')
    return script


def read_file(path):
    try:
        with open(path, encoding='utf-8') as source:
            return source.read()
    except UnicodeDecodeError as error:
        raise BadRows(1, 'byte %d of this file is not UTF-8' % error.start) from None
    except OSError as error:
        raise BadRows(1, error.strerror or str(error)) from None


def read_prelude(name, preludes):
    path = preludes.path(name)
    return read_row(path, read_parts(Row(1, name), cut_prelude(read_file(path))), preludes)


def read_rows(path, preludes):
    """Each row of a file: its script, or what is wrong with it."""
    found, titles = [], set()
    try:
        rows = cut_rows(read_file(path))
    except BadRows as bad:
        return [bad]
    for line, title, lines in rows:
        try:
            if title in titles or not title:
                raise BadRows(line, 'a row has a sentence of its own')
            titles.add(title)
            found.append(read_row(path, read_parts(Row(line, title), lines), preludes))
        except BadRows as bad:
            found.append(bad)
    return found
