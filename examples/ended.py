"""How connections end, for each of the five reasons; the peers connect anew in between."""
from script import SECOND, Script, admit, arrive, connect, dial, quota

script = Script(preset='local', max_peers_per_set=2, max_message_size=1024, mailbox_size=4)
ann, bob = script.node(key=1), script.node(key=2, max_message_size=5, block_duration=1 * SECOND)
ann.register(7, quota(burst=3))
bob.register(7, quota(burst=1))
bob.register(8, quota(burst=3))
for node in (ann, bob):
    node.start()
to_bob, to_ann = connect(ann, bob)

# One message is in the channel of the second node, one is held, and one is on the link.
for word in ('one', 'two', 'three'):
    ann.send(7, word, to=bob)
for _ in range(3):
    ann.router()
ann.send_step(to_bob)
bob.recv_step(to_ann)
bob.recv_step(to_ann)

# One is on the link the other way, on a channel that the first node has not; two wait for the connection, one for the router.
bob.send(8, 'none', to=ann)
bob.router()
bob.send_step(to_ann)
bob.send(7, 'low', to=ann)
bob.send(8, 'high', to=ann, priority=True)
bob.send(8, 'late', to=ann)
bob.router()
bob.router()

# Killed, with all that waits for it.
bob.block(ann)
bob.tracker()
bob.send_step(to_ann)
bob.send_step(to_ann)
bob.router()
bob.router()
bob.recv(7)

# The other connection takes what came before its link broke, and cannot: the channel is not registered. A kill waits for it.
ann.overwrite([(bob, '10.0.0.9:3000')])
ann.tracker()
ann.recv_step(to_bob)
ann.router()
ann.tracker()

# The block ends, and both connect anew.
script.at(2 * SECOND)
bob.tracker()
bob.tracker()
bob.listener()
to_bob, to_ann = connect(ann, bob, again=True)

# A message that is too long for the second node, and then a link that is broken.
ann.send(7, 'longer', to=bob)
ann.router()
ann.send_step(to_bob)
bob.recv_step(to_ann)
ann.send(7, 'next', to=bob)
ann.router()
ann.send_step(to_bob)
ann.router()
ann.tracker()
bob.tracker()

# The first node makes its connection a third time; the handshake of the second ends, since its peer is blocked by then.
script.at(4 * SECOND)
attempt = dial(ann)
link = arrive(attempt, bob)
handshake = admit(bob)
script.finish(link)
ann.attempt(attempt)
to_bob = ann.spawner()
ann.send_step(to_bob)
ann.router()
ann.send_step(to_bob)
ann.send(7, 'last', to=bob)
ann.router()
ann.send_step(to_bob)
bob.block(ann)
bob.handshake(handshake)
bob.tracker()
bob.tracker()
bob.handshake(handshake)
ann.recv_step(to_bob)
