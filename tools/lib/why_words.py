"""What a cause is, and words for it."""
import json


class Cause:
    """Why an entry answered as it did, and the earlier entry whose own cause is behind it, where there is one."""

    def __init__(self, text, of=None):
        self.text = text
        self.of = of


def listed_keys(keys):
    """Keys as words: `key 2`, `keys 2 and 3`."""
    words = [str(key) for key in keys]
    if len(words) == 1:
        return 'key %s' % words[0]
    return 'keys %s and %s' % (', '.join(words[:-1]), words[-1]) if words else 'no key'


def reply_text(reply):
    return '"%s"' % reply if isinstance(reply, str) else json.dumps(reply, separators=(',', ':'))


def began_none(state, number, what, lacking=''):
    """That the event of this number began or made none of these; where it did something else, what it lacked."""
    reply = state.replies[number]
    return Cause('event %d %s: its reply is %s%s' % (number, what, reply_text(reply), lacking if reply == 'ok' else ''), number)


def count_of(number, word):
    """`1 message`, `2 messages`."""
    return '%d %s%s' % (number, word, '' if number == 1 else 's')


def ip_text(numbers):
    """An address as it is read by eye: an IPv4 one with dots, and the other kind in pairs of bytes."""
    if len(numbers) == 4:
        return '.'.join(map(str, numbers))
    return ':'.join('%x' % (high << 8 | low) for high, low in zip(numbers[::2], numbers[1::2]))


def stopped(state, node):
    """That a node was stopped, and by which event, where that is so."""
    if node not in state.stopped:
        return None
    number = state.stopped[node]
    how = ', a start that does not bind' if state.events[number]['do'] == 'start' else ''
    return Cause('node %d was stopped by event %d%s' % (node, number, how))


def why_stopped(state, entry, event):
    """A `register`, a `start` or a `stop` of a node that was stopped before."""
    return stopped(state, event['node']) if entry.reply == 'gone' else None


def not_up(state, node):
    """That a node was stopped, or has not started, where that is so."""
    return stopped(state, node) or (None if node in state.started else Cause('node %d has not started' % node))


def not_registered(state, node, channel):
    return None if (node, channel) in state.channels else Cause('channel %d is not registered at node %d' % (channel, node))
