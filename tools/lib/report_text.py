"""The text of a line of a report, byte for byte: there is one for each value."""
import json


def no_number(text):
    raise ValueError('%s is no number of a report' % text)


def line_of(value):
    """The line of a value: names in the order of their bytes, no space, no escape that is not needed, and the line end."""
    text = json.dumps(value, sort_keys=True, separators=(',', ':'), ensure_ascii=False)
    return text.encode('utf-8', 'surrogatepass') + b'\n'


def value_of(line):
    """The value that a line has, however it is spelled; a ValueError where it has none that a report may have."""
    return json.loads(line.decode('utf-8'), parse_float=no_number, parse_constant=no_number)


def lines_of(written):
    """What was written as lines, each with its line end; only the last may have none."""
    *whole, rest = written.split(b'\n')
    return [line + b'\n' for line in whole] + ([rest] if rest else [])
