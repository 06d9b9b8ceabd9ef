"""Runs the scripts of rows, one process each, several at a time."""
import glob
import json
import os
import subprocess
from concurrent.futures import ThreadPoolExecutor

from rows_compare import compare, tell
from rows_form import BadRows, Preludes, read_prelude, read_rows

SECONDS = 60


def run(script, program):
    """Runs a script: the status and what was written, to standard error too, where nothing is due."""
    text = json.dumps({'configs': script.configs, 'script': script.events})
    try:
        ran = subprocess.run([program, 'run'], input=text.encode(), stdout=subprocess.PIPE, stderr=subprocess.STDOUT, check=False,
                             timeout=SECONDS)
    except subprocess.TimeoutExpired:
        return -1, b'it had not ended after %d seconds' % SECONDS
    return ran.returncode, ran.stdout


def tell_row(path, row, program):
    """What is told of a row, or nothing where it passed."""
    if isinstance(row, BadRows):
        return ['%s:%d: %s' % (path, row.line, row.reason)]
    differences = compare(row, *run(row, program))
    return list(tell(row, differences)) if differences else []


def names(directory):
    return [os.path.splitext(os.path.basename(path))[0] for path in sorted(glob.glob(os.path.join(directory, '*.rows')))]


def all_rows(directory, topics):
    """The rows of these topics, or of all, each with its file: first the preludes, each as a row."""
    preludes = Preludes(os.path.join(directory, 'preludes'))
    found = []
    for topic in topics or names(directory):
        path = os.path.join(directory, topic + '.rows')
        found += [(path, row) for row in read_rows(path, preludes)]
    shown = preludes.found if topics else [name.replace('-', ' ') for name in names(preludes.directory)]
    beginnings = []
    for name in shown:
        try:
            beginnings.append((preludes.path(name), read_prelude(name, preludes)))
        except BadRows as bad:
            beginnings.append((preludes.path(name), bad))
    return beginnings + found


def run_rows(rows, program):
    """What is told of each row, in order; several run at a time."""
    with ThreadPoolExecutor(max_workers=os.cpu_count() or 1) as pool:
        return list(pool.map(lambda row: tell_row(row[0], row[1], program), rows))
