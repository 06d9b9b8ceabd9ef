"""The table of copies, as text."""

HEAD = ('copy', 'from', 'to', 'channel', 'way: each queue, and the entry that put it there', 'end')


def sender_text(journey, keys):
    key = keys.get(journey.sender, journey.sender_key)
    parts = [] if journey.sender is None else ['node %s' % journey.sender]
    return ', '.join(parts if key is None else [*parts, 'key %s' % key]) or '?'


def row_of(journey, keys):
    way = '  '.join('%s (%d)' % (queue, entry) for entry, queue in journey.steps)
    recipient = '?' if journey.recipient is None else 'key %s' % journey.recipient
    channel = '?' if journey.channel is None else str(journey.channel)
    return '[%d,%d]' % journey.name, sender_text(journey, keys), recipient, channel, way or 'none', journey.end_text()


def copy_table(journeys, keys):
    """One line for each copy under a line of heads, in columns."""
    rows = [HEAD] + [row_of(journey, keys) for journey in journeys]
    widths = [max(len(row[column]) for row in rows) for column in range(len(HEAD))]
    return ['   '.join(cell.ljust(width) for cell, width in zip(row, widths)).rstrip() for row in rows]
