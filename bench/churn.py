#!/usr/bin/env python3
"""Writes a script of so many events in which connections begin and end all the time: four nodes, two by two.

    bench/churn.py EVENTS

In each round of two seconds a node dials its partner, messages go both ways, and the dialer's address book changes while one
more message waits: it ends its connection and drops what waits there, the partner finds the link dropped, and both give
their reservations back.
"""
import json
import sys

from script import begin, config, meet, message, socket, started

NODES = 4
ROUND = 2_000_000_000


def life(events, a, turn):
    """One connection of a pair, from its dial to its end."""
    b = a + 1
    ends = dict(zip((a, b), meet(events, a)))
    for node, conn in ends.items():
        begin(events, node, conn)
    for sender in (a, b):
        events.extend(message(sender, ends))
    events.extend(list(message(a, ends))[:2])
    moved = [b + 1, {'symmetric': socket(b, 3001 + turn % 2)}]
    events.extend([{'do': 'overwrite', 'node': a, 'peers': [moved]}, {'do': 'tracker', 'node': a}])
    events.extend([{'do': 'send_step', 'node': a, 'conn': ends[a]}, {'do': 'recv_step', 'node': b, 'conn': ends[b]}])
    for node in (a, b):
        events.extend([{'do': 'router', 'node': node}, {'do': 'tracker', 'node': node}])


def script(count):
    events, turn = started(NODES, count), 0
    moments = [0] * len(events)
    while len(events) < count:
        for a in range(0, NODES, 2):
            life(events, a, turn)
        moments.extend([turn * ROUND] * (len(events) - len(moments)))
        turn += 1
    return [dict(event, at=at) for event, at in zip(events[:count], moments)]


def main():
    json.dump({'configs': [config(key + 1, 1) for key in range(NODES)], 'script': script(int(sys.argv[1]))}, sys.stdout)


if __name__ == '__main__':
    main()
