"""Names that stand twice in one object. The last of them counts, so this is no fault, but it is seldom meant."""
from faults import Fault


def repeated_names(value):
    """A warning for each name that stood in its object before, in the order of the text."""
    if value.kind not in ('object', 'array'):
        return
    before = set()
    for part in value.held:
        name, at, held = part if value.kind == 'object' else (None, None, part)
        if name is not None and name in before:
            yield Fault(at, 'warning', 'the name "%s" stands in this object before; the last one counts' % name)
        before.add(name)
        yield from repeated_names(held)
