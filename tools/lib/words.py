"""Words for the form of a value: each reads a value of JSON, or tells what is wrong with it."""
import re

from faults import Fault, listed, perhaps
from samples import as_it_stood, as_member, as_sample

U64 = (1 << 64) - 1
U32 = (1 << 32) - 1
U16 = (1 << 16) - 1


# Of longer texts it is not told how they are written in hexadecimal.
MOST_SPELLED = 64


class Field:
    """A value, the name that it has in what is told, and the name at which it stands in an object, where it does."""

    def __init__(self, value, what, name=None):
        self.value = value
        self.what = what
        self.name = name

    def fault(self, reason):
        return Fault(self.value.at, self.what, reason)

    def due(self, what, how=''):
        """The fault that this is due, written so, and something else stood there."""
        return self.fault('%s is due here%s%s' % (what, how, as_it_stood(self.value)))

    def at_name(self, name):
        """The value at a name that is required."""
        value = self.value.get(name)
        if value is None:
            raise self.fault('`%s` is missing%s' % (name, as_member(name)))
        return Field(value, '%s, `%s`' % (self.what, name), name)

    def has(self, name):
        return self.value.get(name) is not None


def an_object(field, names):
    """An object with no other names than these."""
    if field.value.kind != 'object':
        raise field.due('an object', as_sample(field.name))
    for name, at, _ in field.value.held:
        if name not in names:
            raise Fault(at, field.what, '"%s" is no name of it%s; its names are %s' % (name, perhaps(name, names), listed(names)))
    return field


def an_array(field):
    if field.value.kind != 'array':
        raise field.due('an array', as_sample(field.name))
    return [Field(value, '%s, item %d' % (field.what, place)) for place, value in enumerate(field.value.held)]


def whole(field, least=0, most=U64):
    """A whole number from the least to the most."""
    number = field.value.whole()
    if number is None or not least <= number <= most:
        kind = 'below 2^64' if (least, most) == (0, U64) else 'from %d to %d' % (least, most)
        raise field.due('a whole number %s' % kind, ', written in digits alone')
    return number


def a_flag(field):
    if field.value.kind != 'boolean':
        raise field.due('`true` or `false`')
    return field.value.held


def a_text(field):
    if field.value.kind != 'text':
        raise field.due('a text in quotes', as_sample(field.name))
    return field.value.held


def some_bytes(field):
    """Hexadecimal text: how many bytes it is."""
    text = a_text(field)
    if re.fullmatch('[0-9a-fA-F]*', text):
        if len(text) % 2:
            raise field.fault('hexadecimal text has two digits a byte; these are %d digits' % len(text))
        return len(text) // 2
    fault = field.due('hexadecimal text of two digits a byte')
    if len(text.encode()) <= MOST_SPELLED:
        fault.reason += '; as text this would be %s' % text.encode().hex()
    raise fault
