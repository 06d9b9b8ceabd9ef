"""Spoils a file in ways that depend on a number alone, so that a test can be run again."""
import json
import random

ODD_VALUES = [None, True, False, -1, 0, 1, 7, 1 << 64, 0.5, '', 'x', 'all', 'kill', 'router:0', [], {}, [1], [0, 0], {'one': 2},
              {'some': [1]}, {'ended': 'killed'}, {'sent': [1]}, '\u0000', '\ufeff']


def spoil_bytes(data, seed):
    """A few bytes are taken out, changed or doubled."""
    draws = random.Random(seed)
    spoiled = bytearray(data)
    for _ in range(draws.randint(1, 3)):
        at = draws.randrange(len(spoiled) + 1)
        kind = draws.randrange(3)
        if kind == 0:
            del spoiled[at:at + draws.randint(1, 8)]
        elif kind == 1:
            spoiled[at:at + 1] = bytes([draws.choice(b'{}[]",:0123456789.-eE\\u \n\xff\x00')])
        else:
            spoiled[at:at] = spoiled[at:at + draws.randint(1, 20)]
    return bytes(spoiled)


def spots(value):
    """Each place in a value: what holds it, and under which name."""
    pairs = value.items() if isinstance(value, dict) else enumerate(value) if isinstance(value, list) else ()
    for name, held in list(pairs):
        yield value, name
        yield from spots(held)


def spoil_value(value, seed):
    """One place in a value gets an odd one, or is taken away or doubled."""
    draws = random.Random(seed)
    spoiled = json.loads(json.dumps(value))
    holder, name = draws.choice(list(spots(spoiled)))
    kind = draws.randrange(4)
    if kind == 0:
        del holder[name]
    elif kind == 1 and isinstance(holder, list):
        holder.insert(name, holder[name])
    else:
        holder[name] = draws.choice(ODD_VALUES)
    return spoiled
