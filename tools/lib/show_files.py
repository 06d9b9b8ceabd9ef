"""The files of tools/show: a report, and the script that gave it. What is wrong with one is told with its place."""
from command import read_file
from json_text import BadJson, Places, read_json
from judge import judge
from report_form import BadReport, plain, read_report
from same_run import OtherRun, check_same_run


class Unreadable(Exception):
    """A file that is not what it should be, and why."""


def read_text(path):
    try:
        return read_file(path).decode('utf-8')
    except OSError as error:
        raise Unreadable('%s: %s' % (path, error.strerror or error)) from None
    except UnicodeDecodeError as error:
        raise Unreadable('%s: byte %d is not UTF-8' % (path, error.start)) from None


def is_script(text):
    """Whether a text has the names of a script."""
    try:
        tree = read_json(text)
    except BadJson:
        return False
    return tree.kind == 'object' and bool({'configs', 'script'} & {name for name, _, _ in tree.held})


def read_given_report(path):
    """The report at a path."""
    text = read_text(path)
    try:
        return read_report(text)
    except BadReport as bad:
        if is_script(text):
            raise Unreadable('%s: this is a script, not a report; ./p2p run < %s > REPORT writes its report, and then '
                             'tools/show REPORT --script %s shows it' % (path, path, path)) from None
        raise Unreadable('%s: %s' % (path, bad)) from None


class Script:
    """A valid script: its configurations and events as plain values, and where each event stands."""

    def __init__(self, path, text):
        tree = read_json(text)
        said = plain(tree)
        self.path = path
        self.configurations = said['configs']
        self.events = said['script']
        self.places = Places(text)
        self.starts = [value.at for value in tree.get('script').held]

    def where(self, number):
        """The line and column of an event; those of the last one, where there is no such event."""
        if not self.starts:
            return '%s:1:1' % self.path
        return '%s:%d:%d' % (self.path, *self.places.of(self.starts[min(number, len(self.starts) - 1)]))


def read_script(path, report):
    """The script at a path, which gave the report."""
    text = read_text(path)
    if judge(text.encode())[1].status != 0:
        raise Unreadable('%s: the program runs no such script, so it gave no report; tools/check %s tells why' % (path, path))
    script = Script(path, text)
    try:
        check_same_run(report, script.configurations, script.events)
    except OtherRun as other:
        at = '' if other.number >= len(script.events) else 'at event %d ' % other.number
        raise Unreadable('%s: the report is none of this script: %s%s' % (script.where(other.number), at, other.reason)) from None
    return script
