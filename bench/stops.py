#!/usr/bin/env python3
"""Writes a script of so many events in which links are cut and nodes stop all the time: pairs of nodes, one after another.

    bench/stops.py EVENTS [kept]     with the word, the same pairs carry messages in place of that

Of each pair one node dials the other. Messages go both ways, some of which wait when the link is cut, and both nodes stop
with all that they have.
"""
import json
import sys

from script import CHANNEL, begin, config, meet, message, track

ENDS = 12


def pair(events, a, ends_it):
    """The life of a pair, which ends with so many events: a cut, two stops, and what finds out, or messages."""
    b = a + 1
    quota = {'burst': 100, 'period': 1000000000}
    events.extend({'do': 'register', 'node': node, 'channel': CHANNEL, 'quota': quota} for node in (a, b))
    events.extend({'do': 'start', 'node': node} for node in (a, b))
    events.extend([track(a, b), track(b, a)])
    ends = dict(zip((a, b), meet(events, a)))
    for node, conn in ends.items():
        begin(events, node, conn)
    for sender in (a, b):
        events.extend(message(sender, ends))
    last = list(message(a, ends)) + list(message(b, ends)) + list(message(a, ends))[:2]
    if ends_it:
        last = list(message(a, ends))[:3] + list(message(b, ends))[:2]
        last.append({'do': 'cut', 'link': link_of(events, a)})
        last.extend({'do': 'stop', 'node': node} for node in (a, b))
        last.extend({'do': 'recv_step', 'node': node, 'conn': ends[node]} for node in (a, b))
        last.extend({'do': 'recv', 'node': node, 'channel': CHANNEL} for node in (a, b))
    assert len(last) == ENDS
    events.extend(last)


def link_of(events, a):
    """The number of the latest link, which a node dialed."""
    return next(number for number in range(len(events) - 1, -1, -1) if events[number]['do'] == 'connect' and events[number]['node'] == a)


def script(count, ends_it):
    events, nodes = [], 0
    while len(events) < count:
        pair(events, nodes, ends_it)
        nodes += 2
    return nodes, [dict(event, at=0) for event in events[:count]]


def main():
    nodes, events = script(int(sys.argv[1]), sys.argv[2:] != ['kept'])
    json.dump({'configs': [config(key + 1, 1) for key in range(nodes)], 'script': events}, sys.stdout)


if __name__ == '__main__':
    main()
