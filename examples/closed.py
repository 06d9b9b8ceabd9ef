"""A reader is dropped while a message waits in its channel, one is held, and one is on its link: none is delivered."""
from script import SECOND, Script, connect, quota

script = Script(preset='local', max_peers_per_set=2, max_message_size=1024, mailbox_size=4)
ann, bob = script.node(key=1), script.node(key=2, tracked_peer_sets=1)
ann.register(7, quota(burst=3))
bob.register(7, quota(burst=1))
for node in (ann, bob):
    node.start()
to_bob, to_ann = connect(ann, bob)

for word in ('one', 'two', 'three'):
    ann.send(7, word, to=bob)
for _ in range(3):
    ann.router()
ann.send_step(to_bob)
bob.recv_step(to_ann)
bob.recv_step(to_ann)

bob.close(7)
bob.recv(7)
bob.close(7)

# What comes later is dropped once its quota admits it.
script.at(SECOND - 1)
bob.recv_step(to_ann)
script.at(1 * SECOND)
bob.recv_step(to_ann)
script.at(2 * SECOND)
bob.recv_step(to_ann)

# The channel is still there to send on; one that is not registered has no reader.
bob.send(7, 'yes', to=ann)
ann.close(8)
