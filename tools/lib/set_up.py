"""What comes before the first message: which entries it is, and the connections that it made."""
from journey import node_of

ASKING = ('send', 'check')
ANSWERS = frozenset(['sent', 'checked', 'retry', 'message_too_large'])


def asks_for_a_message(entry, event):
    """Whether an entry is of a `send` or a `check`; where its event is not at hand, by its reply."""
    if event:
        return event.get('do') in ASKING
    return isinstance(entry.reply, dict) and bool(ANSWERS & set(entry.reply))


def length_of_set_up(report, events):
    """How many entries come before the first message; none, where there is no message at all."""
    for entry in report.entries:
        if asks_for_a_message(entry, events[entry.number] if entry.number < len(events) else {}):
            return entry.number
    return 0


def connections_made(report, entries):
    """The connections that these entries made: for each its number, its node, the key of its peer and its link."""
    found = []
    for entry in entries:
        for name in entry.takes:
            queue, item = report.item(name)
            spawn = item.get('spawn') if isinstance(item, dict) else None
            if queue.startswith('spawner:') and isinstance(spawn, dict):
                found.append((entry.number, node_of(queue), spawn.get('key'), spawn.get('link')))
    return found
