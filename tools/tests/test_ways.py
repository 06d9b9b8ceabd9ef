"""The way to a connection and the program: wherever it is not refused, both connections run at its end."""
import json
import os
import random
import subprocess
import unittest

from files import TOP
from script import SECOND, BadSource, Script, connect, link_of, quota

PROGRAM = os.environ.get('P2P_PROGRAM', os.path.join(TOP, 'p2p'))
SCRIPTS = 60
ROUNDS = 40


def some_nodes(draw):
    """A script of up to four nodes that run, with channels and limits that differ now and then."""
    script = Script(preset='local', max_peers_per_set=draw.choice([3, 4, 4]), max_message_size=8, mailbox_size=4,
                    tracked_peer_sets=draw.choice([1, 2, 4]), block_duration=2 * SECOND)
    nodes = [script.node(key=key, **draw.choice([{}, {}, {'max_message_size': 4}])) for key in range(1, draw.randint(2, 4) + 1)]
    for node in nodes:
        for channel in (7, 8)[:draw.choice([1, 2, 2])]:
            node.register(channel, quota(burst=draw.randint(1, 3)))
    for node in nodes:
        node.start()
    return script, nodes


def acts_of(draw, script, nodes, conns):
    """What may be done by hand: each as a call."""
    node, peer = draw.sample(nodes, 2)
    found = [
        node.tracker, node.router, node.listener,
        lambda: node.send(draw.choice([7, 8]), draw.choice(['one', 'longer']), to=draw.choice([peer, 'all', [peer, 9]])),
        lambda: node.recv(7),
        lambda: node.block(peer),
        lambda: node.overwrite([(peer, draw.choice(['10.0.9.9:3000', peer.address]))]),
        lambda: node.track(draw.randint(0, 9), draw.sample(nodes, 2)),
        lambda: script.wait(milliseconds=draw.choice([1, 300, 1500])),
    ]
    if conns:
        found.append(lambda: script.cut(link_of(draw.choice(conns))))
    for conn in conns[-4:]:
        owner = script.nodes[conn.said['node']]
        found += [lambda owner=owner, conn=conn: owner.send_step(conn), lambda owner=owner, conn=conn: owner.recv_step(conn)]
    return found


def a_script(seed):
    """A script of connections and of acts by hand, and for each way its last events: the steps that took the routers' answers."""
    draw = random.Random(seed)
    script, nodes = some_nodes(draw)
    conns, ends = [], []
    for _ in range(ROUNDS):
        if draw.random() < 0.25:
            try:
                conns += connect(*draw.sample(nodes, 2))
            except BadSource:
                continue
            ends.append(len(script.events) - 4)
        else:
            draw.choice(acts_of(draw, script, nodes, conns))()
    return script, ends


class Ways(unittest.TestCase):

    def lines_of(self, script):
        ran = subprocess.run([PROGRAM, 'run'], input=script.text().encode(), capture_output=True, check=False, timeout=60)
        self.assertEqual(ran.returncode, 0, ran.stdout[:200])
        return [json.loads(line) for line in ran.stdout.splitlines()]

    def test_both_connections_run_at_the_end_of_a_way(self):
        count = 0
        for seed in range(SCRIPTS):
            script, ends = a_script(seed)
            lines = self.lines_of(script)
            for end in ends:
                for line in lines[end:end + 2]:
                    with self.subTest('script %d, event %d' % (seed, line['n'])):
                        self.assertEqual((line['reply'], line['put'], len(line['take'])), ('ok', [], 1))
            count += len(ends)
        self.assertGreater(count, SCRIPTS)
