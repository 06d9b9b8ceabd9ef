"""A node stops: what waits for it ends, what it wrote is read by the other node, and what waits in its channel by its own reader."""
from script import Script, connect, quota

script = Script(preset='local', max_peers_per_set=2, max_message_size=1024, mailbox_size=4)
ann, bob = script.node(key=1), script.node(key=2)
for node in (ann, bob):
    node.register(7, quota(burst=3))
    node.start()
to_bob, to_ann = connect(ann, bob)

# Two messages of the first node: one is in the channel of the second, and one is in flight.
for word in ('one', 'two'):
    ann.send(7, word, to=bob)
    ann.router()
ann.send_step(to_bob)
bob.recv_step(to_ann)

# Two of the second: one is in flight, and one waits for its router.
bob.send(7, 'three', to=ann)
bob.router()
bob.send_step(to_ann)
bob.send(7, 'four', to=ann)

# The second node stops, once.
bob.stop()
bob.stop()

# Its reader takes what waits, and then the network is closed. It sends to nobody, and its actors are gone.
for _ in range(2):
    bob.recv(7)
bob.send(7, 'five', to=ann)
bob.router()
bob.recv_step(to_ann)

# The first node reads what was written before, and then that the link is broken.
ann.recv_step(to_bob)
ann.recv(7)
ann.recv_step(to_bob)
