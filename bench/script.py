#!/usr/bin/env python3
"""Writes a script of so many events: pairs of connected nodes that move one message after another.

    bench/script.py EVENTS [NODES]     NODES is even; without it, 2

Of each pair one node dials and the other listens, and no node does both.
"""
import json
import sys

CHANNEL = 7


def config(key, links):
    """A node of a script with so many links, all of which its mailboxes hold."""
    return {'key': key, 'preset': 'local', 'max_peers_per_set': 2, 'max_message_size': 1024, 'mailbox_size': max(64, links)}


def socket(node, port):
    return {'ip': [10, 0, node // 256, node % 256], 'port': port}


def track(node, peer):
    return {'do': 'track', 'index': 0, 'node': node, 'primary': [[peer + 1, {'symmetric': socket(peer, 3000)}]]}


def meet(events, a):
    """A node dials its partner, they exchange keys, and each makes its connection: the numbers of the two events that do."""
    b = a + 1

    def act(do, node, **names):
        events.append({'do': do, 'node': node, **names})
        return len(events) - 1

    act('tracker', a)
    act('tracker', b)
    act('listener', b)
    act('dialer', a)
    act('tracker', a)
    act('dialer', a)
    act('tracker', a)
    attempt = act('dialer', a)
    link = act('connect', a, attempt=attempt, to=b, **{'from': socket(a, 40000)})
    act('attempt', a, attempt=attempt)
    handshake = act('listener', b)
    act('tracker', b)
    act('handshake', b, handshake=handshake)
    events.append({'do': 'finish', 'link': link, 'ok': True})
    act('attempt', a, attempt=attempt)
    act('handshake', b, handshake=handshake)
    act('tracker', b)
    act('handshake', b, handshake=handshake)
    return act('spawner', a), act('spawner', b)


def begin(events, node, conn):
    """The connection begins, the router takes the subscription and the connection, and the half takes its answer."""
    step = {'do': 'send_step', 'node': node, 'conn': conn}
    router = {'do': 'router', 'node': node}
    events.extend([step, router, router, step, {'do': 'tracker', 'node': node}])


def started(nodes, burst):
    """The events that register the channel everywhere, start all nodes and let each track its partner."""
    quota = {'burst': burst, 'period': 1000000000}
    events = [{'do': 'register', 'node': node, 'channel': CHANNEL, 'quota': quota} for node in range(nodes)]
    events.extend({'do': 'start', 'node': node} for node in range(nodes))
    events.extend(track(node, node ^ 1) for node in range(nodes))
    return events


def setup(nodes, burst):
    """Those events and the ones that connect the nodes two by two, and the connections."""
    events = started(nodes, burst)
    conns = []
    for a in range(0, nodes, 2):
        conns.extend(meet(events, a))
    for node, conn in enumerate(conns):
        begin(events, node, conn)
    return events, conns


def message(sender, conns):
    """The five events that carry one message from a node to its partner."""
    reader = sender ^ 1
    yield {'do': 'send', 'node': sender, 'channel': CHANNEL, 'bytes': '68656c6c6f', 'priority': False, 'to': {'one': reader + 1}}
    yield {'do': 'router', 'node': sender}
    yield {'do': 'send_step', 'node': sender, 'conn': conns[sender]}
    yield {'do': 'recv_step', 'node': reader, 'conn': conns[reader]}
    yield {'do': 'recv', 'node': reader, 'channel': CHANNEL}


def script(count, nodes):
    events, conns = setup(nodes, count)
    turn = 0
    while len(events) < count:
        events.extend(message(2 * (turn % (nodes // 2)), conns))
        turn += 1
    return [dict(event, at=0) for event in events[:count]]


def main():
    count, nodes = int(sys.argv[1]), int(sys.argv[2]) if len(sys.argv) > 2 else 2
    configs = [config(key + 1, nodes // 2) for key in range(nodes)]
    json.dump({'configs': configs, 'script': script(count, nodes)}, sys.stdout)


if __name__ == '__main__':
    main()
