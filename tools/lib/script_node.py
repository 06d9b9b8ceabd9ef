"""A node of a script, with a method for each act that names a node; each answers its event."""
from script_values import address, egress_of, key_of, recipients, some_bytes, some_peers, socket
from script_waits import Waits

FIRST_PORT = 40000


class Node:

    def __init__(self, script, place, configuration, where):
        self.script = script
        self.place = place
        self.configuration = configuration
        self.key = configuration['key']
        self.address = address(where)
        self.waits = Waits(self)

    def does(self, do, **names):
        return self.script.event(do, **names)

    # ---- the node and its channels

    def register(self, channel, quota=None):
        return self.does('register', node=self, channel=channel, quota=quota or channel.quota)

    def start(self, bind=True):
        """Where it does not bind, it finds no place to listen, and the node stops."""
        return self.does('start', node=self, **({} if bind else {'bind': False}))

    def stop(self):
        return self.does('stop', node=self)

    def send(self, channel, bytes, to, priority=False):
        return self.does('send', node=self, channel=channel, bytes=some_bytes(bytes), priority=priority, to=recipients(to))

    def check(self, channel, to):
        return self.does('check', node=self, channel=channel, to=recipients(to))

    def recv(self, channel):
        return self.does('recv', node=self, channel=channel)

    def close(self, channel):
        return self.does('close', node=self, channel=channel)

    # ---- the router and the connections

    def router(self):
        return self.does('router', node=self)

    def spawner(self):
        return self.does('spawner', node=self)

    def send_step(self, conn):
        return self.does('send_step', node=self, conn=conn)

    def recv_step(self, conn):
        return self.does('recv_step', node=self, conn=conn)

    # ---- the tracker

    def track(self, index, primary, secondary=None):
        others = {} if secondary is None else {'secondary': some_peers(secondary)}
        return self.does('track', index=index, node=self, primary=some_peers(primary), **others)

    def overwrite(self, peers):
        return self.does('overwrite', node=self, peers=some_peers(peers))

    def block(self, key):
        return self.does('block', key=key_of(key), node=self)

    def peer_set(self, index):
        return self.does('peer_set', index=index, node=self)

    def subscribe(self):
        return self.does('subscribe', node=self)

    def blocked(self):
        return self.does('blocked', node=self)

    def tracker(self, seed=None):
        return self.does('tracker', seed=seed, node=self)

    # ---- the dialer and its attempts

    def dialer(self, seed=None):
        return self.does('dialer', seed=seed, node=self)

    def attempt(self, attempt, seed=None):
        return self.does('attempt', seed=seed, attempt=attempt, node=self)

    def resolve(self, attempt, addresses):
        return self.does('resolve', addresses=[socket(one) for one in addresses], attempt=attempt, node=self)

    def connect(self, attempt, to, from_=None):
        """From the address of this node, and a port of its own from 40000 on, if no socket is named."""
        return self.does('connect', attempt=attempt, from_=self.outgoing() if from_ is None else socket(from_), node=self, to=to)

    def outgoing(self):
        links = [event for event in self.script.events if event.said['do'] == 'connect' and event.said['node'] == self.place]
        return {'ip': egress_of(self.address)['ip'], 'port': FIRST_PORT + len(links)}

    def refuse(self, attempt):
        return self.does('refuse', attempt=attempt, node=self)

    # ---- the listener and its handshakes

    def listener(self):
        return self.does('listener', node=self)

    def handshake(self, handshake):
        return self.does('handshake', handshake=handshake, node=self)
