"""Three messages come to a reader whose channel holds two: the third is dropped."""
from script import SECOND, Script, connect, quota

script = Script(preset='local', max_peers_per_set=2, max_message_size=1024, mailbox_size=4)
ann, bob = script.node(key=1), script.node(key=2, tracked_peer_sets=1)
ann.register(7, quota(burst=3))
bob.register(7, quota(burst=1))
for node in (ann, bob):
    node.start()
to_bob, to_ann = connect(ann, bob)

for word in ('one', 'two', 'three'):
    ann.send(7, word, to=bob)
for _ in range(3):
    ann.router()
ann.send_step(to_bob)

# The reader's node admits one message a second.
bob.recv_step(to_ann)
script.at(1 * SECOND)
bob.recv_step(to_ann)
script.at(2 * SECOND)
bob.recv_step(to_ann)
for _ in range(3):
    bob.recv(7)
