"""Reads JSON as the program does, and keeps the place of each value in the text.

Of equal names in one object the last counts. Refused are: nesting deeper than 127 arrays and objects, a number beyond
the finite 64-bit floats, and an escape of half a surrogate pair.
"""
import bisect
import math
import re

MOST_NESTED = 127
WHITE = re.compile(r'[ \t\n\r]*')
NUMBER = re.compile(r'-?(?:0|[1-9][0-9]*)(\.[0-9]+)?([eE][+-]?[0-9]+)?')
PLAIN = re.compile(r'[^"\\\x00-\x1f]*')
ESCAPES = {'"': '"', '\\': '\\', '/': '/', 'b': '\b', 'f': '\f', 'n': '\n', 'r': '\r', 't': '\t'}
WORDS = {'true': ('boolean', True), 'false': ('boolean', False), 'null': ('null', None)}


class BadJson(Exception):
    """The text is not JSON: where, and why."""

    def __init__(self, at, reason):
        super().__init__(reason)
        self.at = at
        self.reason = reason


class Value:
    """A value of JSON. An object is a list of (name, place of the name, value); a number is its text."""

    __slots__ = ('kind', 'held', 'at')

    def __init__(self, kind, held, at):
        self.kind = kind
        self.held = held
        self.at = at

    def get(self, name):
        """The last value at this name of an object."""
        found = None
        for other, _, value in self.held:
            if other == name:
                found = value
        return found

    def whole(self):
        """A whole number of 64 bits, or None. `1.0`, `1e3` and `-0` are none."""
        if self.kind != 'number' or not self.held.isdigit() or len(self.held) > 20:
            return None
        number = int(self.held)
        return number if number < 1 << 64 else None


class Places:
    """Lines and columns of a text, both from 1."""

    def __init__(self, text):
        self.starts = [0] + [match.end() for match in re.finditer('\n', text)]

    def of(self, at):
        line = bisect.bisect_right(self.starts, at)
        return line, at - self.starts[line - 1] + 1


class Reader:
    """A text, and how far it is read."""

    def __init__(self, text):
        self.text = text
        self.at = 0

    def skip_white(self):
        self.at = WHITE.match(self.text, self.at).end()

    def next(self):
        self.skip_white()
        return self.text[self.at:self.at + 1]

    def refuse(self, reason, at=None):
        raise BadJson(self.at if at is None else at, reason)

    def expect(self, mark, after):
        if self.next() != mark:
            found = 'the text ends' if self.at >= len(self.text) else 'here stands %r' % self.text[self.at]
            self.refuse('`%s` is due after %s, but %s' % (mark, after, found))
        self.at += 1

    def value(self, depth):
        mark = self.next()
        if mark == '{':
            return self.nested(depth, self.members)
        if mark == '[':
            return self.nested(depth, self.items)
        if mark == '"':
            at = self.at
            return Value('text', self.string(), at)
        if mark == '-' or mark.isdigit():
            return self.number()
        return self.word()

    def nested(self, depth, read):
        if depth == MOST_NESTED:
            self.refuse('arrays and objects are nested deeper than %d' % MOST_NESTED)
        at = self.at
        self.at += 1
        return read(at, depth + 1)

    def members(self, at, depth):
        found = []
        if self.next() == '}':
            self.at += 1
            return Value('object', found, at)
        while True:
            if self.next() != '"':
                self.refuse('a name in quotes is due in an object')
            name_at = self.at
            name = self.string()
            self.expect(':', 'a name')
            found.append((name, name_at, self.value(depth)))
            if self.next() == '}':
                self.at += 1
                return Value('object', found, at)
            self.expect(',', 'a value in an object')

    def items(self, at, depth):
        found = []
        if self.next() == ']':
            self.at += 1
            return Value('array', found, at)
        while True:
            found.append(self.value(depth))
            if self.next() == ']':
                self.at += 1
                return Value('array', found, at)
            self.expect(',', 'a value in an array')

    def string(self):
        self.at += 1
        parts = []
        while True:
            match = PLAIN.match(self.text, self.at)
            parts.append(match.group())
            self.at = match.end()
            mark = self.text[self.at:self.at + 1]
            if mark == '"':
                self.at += 1
                return ''.join(parts)
            if mark != '\\':
                self.refuse('a string has no end' if mark == '' else 'a control character stands in a string')
            parts.append(self.escape())

    def escape(self):
        at = self.at
        mark = self.text[at + 1:at + 2]
        if mark != 'u':
            if mark not in ESCAPES:
                self.refuse('an escape that JSON does not have')
            self.at += 2
            return ESCAPES[mark]
        first = self.unit()
        if not 0xD800 <= first < 0xE000:
            return chr(first)
        if first < 0xDC00 and self.text[self.at:self.at + 2] == '\\u':
            second = self.unit()
            if 0xDC00 <= second < 0xE000:
                return chr(0x10000 + ((first - 0xD800) << 10) + (second - 0xDC00))
        return self.refuse('an escape of half a surrogate pair', at)

    def unit(self):
        digits = self.text[self.at + 2:self.at + 6]
        if not re.fullmatch('[0-9a-fA-F]{4}', digits):
            self.refuse('four hexadecimal digits are due after \\u')
        self.at += 6
        return int(digits, 16)

    def number(self):
        at = self.at
        match = NUMBER.match(self.text, at)
        if not match:
            self.refuse('a digit is due in a number')
        self.at = match.end()
        if self.text[self.at:self.at + 1] in tuple('.eE0123456789'):
            self.refuse('a number that JSON does not have', at)
        if not math.isfinite(float(match.group())):
            self.refuse('a number that is out of range', at)
        return Value('number', match.group(), at)

    def word(self):
        for word, (kind, held) in WORDS.items():
            if self.text.startswith(word, self.at):
                self.at += len(word)
                return Value(kind, held, self.at - len(word))
        found = 'the text ends' if self.at >= len(self.text) else 'here stands %r' % self.text[self.at]
        return self.refuse('a value is due, but %s' % found)


def read_json(text):
    """The value that a text is."""
    reader = Reader(text)
    value = reader.value(0)
    if reader.next():
        reader.refuse('the text goes on after its value')
    return value
