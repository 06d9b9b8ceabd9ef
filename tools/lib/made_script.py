"""The script that the program's `gen` makes of a number of events and a seed. docs/FORMAT.md tells what stands there."""
import json

from draws import Draws

MOST_EVENTS = 100_000
MOST_SEED = (1 << 64) - 1
NODES = 4
STEP = 1_000_000
# A half of each connection: its node, and the event that made it.
HALVES = ((1, 33), (0, 34), (2, 59), (0, 60), (3, 85), (0, 86))
# A node that dials node 0, and the event at which it begins.
DIALS = ((1, 18), (2, 44), (3, 70))


def socket(node, port):
    return {'ip': [10, 0, 0, node + 1], 'port': port}


def peers(nodes):
    return [[node + 1, {'symmetric': socket(node, 3000)}] for node in nodes]


def configurations():
    return [{'key': node + 1, 'preset': 'local', 'max_peers_per_set': 4, 'max_message_size': 1024, 'mailbox_size': 64}
            for node in range(NODES)]


def act(do, node, **names):
    return {'do': do, 'node': node, **names}


def starting(node):
    """A node gets a channel, starts and tracks its peers."""
    primary, secondary = ([0], []) if node else ([], [1, 2, 3])
    yield act('register', node, channel=0, quota={'burst': 64, 'period': 15_625_000})
    yield act('start', node)
    yield act('track', node, index=0, primary=peers(primary), secondary=peers(secondary))
    yield act('tracker', node)


def exchanging(node, first):
    """A node dials node 0, and they exchange keys."""
    attempt, link, handshake = first + 4, first + 5, first + 7
    for do in ('dialer', 'tracker', 'dialer', 'tracker', 'dialer'):
        yield act(do, node)
    yield act('connect', node, attempt=attempt, to=0, **{'from': socket(node, 40_000)})
    yield act('attempt', node, attempt=attempt)
    yield act('listener', 0)
    yield act('tracker', 0)
    yield act('handshake', 0, handshake=handshake)
    yield {'do': 'finish', 'link': link, 'ok': True}
    yield act('attempt', node, attempt=attempt)
    yield act('handshake', 0, handshake=handshake)
    yield act('tracker', 0)
    yield act('handshake', 0, handshake=handshake)


def running(node, first):
    """Both ends of a link get a connection, which runs."""
    yield act('spawner', node)
    yield act('spawner', 0)
    sends = [act('send_step', node, conn=first + 15), act('send_step', 0, conn=first + 16)]
    yield from sends
    yield from (act('router', node), act('router', node), act('router', 0))
    yield from sends
    yield from (act('tracker', node), act('tracker', 0))


def beginning():
    for node in range(NODES):
        yield from starting(node)
    yield from (act('listener', 0), act('router', 0))
    for node, first in DIALS:
        yield from exchanging(node, first)
        yield from running(node, first)


def drawn(number, what, where):
    """The act of the event of this number."""
    node = where % NODES
    holder, conn = HALVES[where]
    if what <= 1:
        return act('send', node, bytes='%08x' % number, channel=0, priority=what == 1, to='all')
    return (act('router', node), act('router', node), act('send_step', holder, conn=conn), act('recv_step', holder, conn=conn),
            act('recv', node, channel=0), act('tracker', node))[what - 2]


def made_events(count, seed):
    events = list(beginning())[:count]
    draws = Draws(seed)
    for number in range(len(events), count):
        what = draws.up_to(7)
        events.append(drawn(number, what, draws.up_to(5)))
    return [dict(event, at=number * STEP) for number, event in enumerate(events)]


def made_text(count, seed):
    """The text of the script: JSON without spaces, names in byte order."""
    script = {'configs': configurations(), 'script': made_events(count, seed)}
    return json.dumps(script, sort_keys=True, separators=(',', ':'))
