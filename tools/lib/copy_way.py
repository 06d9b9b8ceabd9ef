"""The way of one copy: each queue that it entered, what stood before it there, and its end."""
import json

from copy_table import sender_text
from journey import copies_carried
from queue_state import Queues

MOST_NAMED = 8
MOST_SHOWN = 40


def item_text(name, item):
    """An item by its name, with the copies that it carries, or with what it is."""
    copies = ', '.join('copy [%d,%d]' % copy for copy in copies_carried(item))
    text = json.dumps(item, separators=(',', ':'))
    return '[%d,%d] (%s)' % (*name, copies or (text if len(text) <= MOST_SHOWN else text[:MOST_SHOWN] + ' ..'))


def before_text(items):
    """What stands before it, oldest first; of many the first few."""
    if not items:
        return 'nothing before it'
    more = ['and %d more' % (len(items) - MOST_NAMED)] if len(items) > MOST_NAMED else []
    return 'before it %s' % ', '.join([item_text(*one) for one in items[:MOST_NAMED]] + more)


def way_of(report, copy):
    """For each put of the copy: the entry, the queue and what stood before it; and what stands before it at last."""
    queues, found, last = Queues(), [], None
    for entry in report.entries:
        queues.step(entry)
        for place, (queue, item) in enumerate(entry.puts):
            if copy in copies_carried(item):
                last = entry.number, place
                found.append((entry.number, queue, before(queues, queue, last)))
    return found, before(queues, queues.home[last], last) if last else []


def before(queues, queue, name):
    items = queues.line(queue)
    names = [one for one, _ in items]
    return items[:names.index(name)] if name in names else []


def end_text(journey, waiting):
    """Its end, or what it waits behind."""
    if journey.fate[0] == 'waiting':
        return 'it waits in %s, %s' % (journey.fate[1], before_text(waiting))
    if journey.fate[0] == 'delivered':
        return 'entry %d delivered it' % journey.fate[2]
    return 'entry %d dropped it: %s' % (journey.fate[2], journey.fate[1])


def way_lines(report, journey, keys, cause=None):
    """What is told of a copy; with the cause of its drop in words, where that is known."""
    found, waiting = way_of(report, journey.name)
    to = 'key %s' % ('?' if journey.recipient is None else journey.recipient)
    channel = '?' if journey.channel is None else journey.channel
    lines = ['copy [%d,%d], from %s, to %s, on channel %s' % (*journey.name, sender_text(journey, keys), to, channel)]
    lines += ['    entry %d put it into %s, %s' % (entry, queue, before_text(items)) for entry, queue, items in found]
    end = end_text(journey, waiting)
    return [*lines, '    %s%s' % (end, ': %s' % cause if cause else '')]
