"""Tables of edits: each makes another script of the first example, and has the lines under it that are told of that."""
import json
import os

import hello
from files import TOP, read_text


def read_edits(name):
    """Each edit of a table, with the lines under it."""
    found = []
    for line in read_text(os.path.join(TOP, 'tools', 'tests', 'tables', name + '.table')).splitlines():
        if line.startswith('    '):
            found[-1][1].append(line.strip())
        elif not line.startswith('#'):
            found.append((line, []))
    return found


def edited(edit):
    """The first example after an edit: `PATH = VALUE` or `PATH out`."""
    script = {'configs': hello.configurations(), 'script': hello.events()}
    path, mark, value = edit.partition(' = ')
    steps = [int(step) if step.isdigit() else step for step in path.split() if mark or step != 'out']
    holder = script
    for step in steps[:-1]:
        holder = holder[step]
    if mark and isinstance(holder, list) and steps[-1] == len(holder):
        holder.append(None)
    if mark:
        holder[steps[-1]] = json.loads(value)
    else:
        del holder[steps[-1]]
    return script


def line_by_line(script):
    """The text of a script, with a configuration and an event a line."""
    parts = []
    for name, held in script.items():
        rows = isinstance(held, list)
        lines = [json.dumps(one, separators=(',', ':'), ensure_ascii=False) for one in held] if rows else []
        text = ',\n'.join(lines) if rows else json.dumps(held)
        parts.append('%s:[\n%s\n]' % (json.dumps(name), text) if rows else '%s:%s' % (json.dumps(name), text))
    return '{%s}' % ','.join(parts)
