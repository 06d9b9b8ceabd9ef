"""The verdict on a script: what is wrong with it, where, and with which status and which line the program ends."""
import re

from faults import Fault, Verdict
from json_text import BadJson, Places, read_json
from repeated import repeated_names
from report_text import line_of
from script_form import read_script
from valid_input import configuration_faults, event_faults

LIMIT = 16_777_216
SHOWN = 100
CONCLUSIONS = {
    0: 'status 0: the program runs this script',
    4: 'status 4: the input is too long',
    5: 'status 5: the input is not JSON',
    6: 'status 6: this is not a script',
    7: 'status 7: a configuration is not valid',
    8: 'status 8: an event is not valid',
    None: 'status 6: this is not built yet',
}
ERRORS = {5: 'json', 6: 'script', 7: 'config', 8: 'event'}
PLACE = re.compile(r'(?:configuration|event) ([0-9]+)')


def judge_tree(tree):
    """The verdict on a tree: its form first, then acts that are not built, then valid input."""
    script = read_script(tree)
    if script.faults:
        return Verdict(script.faults, 6)
    if script.not_built:
        return Verdict(script.not_built, None)
    configurations, events = configuration_faults(script.configurations), event_faults(script)
    return Verdict(configurations + events, 7 if configurations else 8 if events else 0)


def judge(data):
    """The text of the bytes as far as it is one, and the verdict on it."""
    if len(data) > LIMIT:
        return '', Verdict([Fault(0, 'the input', '%d bytes are more than %d' % (len(data), LIMIT))], 4)
    try:
        text = data.decode('utf-8')
    except UnicodeDecodeError as error:
        before = data[:error.start].decode('utf-8')
        return before, Verdict([Fault(len(before), 'the input', 'the bytes here are not UTF-8')], 5)
    try:
        tree = read_json(text)
        verdict = judge_tree(tree)
        verdict.warnings.extend(repeated_names(tree))
        return text, verdict
    except BadJson as bad:
        return text, Verdict([Fault(bad.at, 'the input', bad.reason)], 5)


def some_lines(path, places, faults):
    """A line for each of the first faults, and how many more there are."""
    lines = ['%s:%d:%d: %s: %s' % (path, *places.of(fault.at), fault.what, fault.reason) for fault in faults[:SHOWN]]
    return lines + (['%s: and %d more' % (path, len(faults) - SHOWN)] if len(faults) > SHOWN else [])


def lines_of(path, text, verdict):
    """What is told of a verdict: a line for each fault and each warning, and the conclusion."""
    places = Places(text)
    lines = some_lines(path, places, verdict.faults) + some_lines(path, places, verdict.warnings)
    return [*lines, '%s: %s' % (path, CONCLUSIONS[verdict.status])]


def status_now(verdict):
    """The status that the program ends with today, where it has memory and its streams do not fail."""
    return 6 if verdict.status is None else verdict.status


def refusal_now(verdict):
    """What the program writes today of a script that it refuses: one line, or nothing where this is too long; None of one that
    it runs. The configuration or the event that it tells is the first that is not valid."""
    status = status_now(verdict)
    if status in (0, 4):
        return b'' if status == 4 else None
    place = PLACE.match(verdict.faults[0].what) if status in (7, 8) else None
    return line_of({'error': ERRORS[status], **({ERRORS[status]: int(place.group(1))} if place else {})})
