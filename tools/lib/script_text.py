"""The text of a script: a line for each configuration and each event."""
import json


def line_of(value):
    return json.dumps(value, separators=(',', ':'))


def lines_of(values):
    return ',\n'.join('  ' + line_of(value) for value in values)


def script_text(configurations, events):
    return '{"configs":[\n%s\n],"script":[\n%s\n]}\n' % (lines_of(configurations), lines_of(events))
