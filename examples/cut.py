"""A link is cut: what is in flight over it ends, what was held before is delivered in its time, and both connections end; then the
link of an exchange of keys is cut."""
from script import SECOND, Script, admit, arrive, connect, dial, link_of, quota

script = Script(preset='local', max_peers_per_set=2, max_message_size=1024, mailbox_size=4)
ann, bob = script.node(key=1), script.node(key=2)
ann.register(7, quota(burst=3))
bob.register(7, quota(burst=1))
for node in (ann, bob):
    node.start()
to_bob, to_ann = connect(ann, bob)

# One message is in the channel of the second node, one is held there, and one is in flight; so is one the other way.
for word in ('one', 'two', 'three'):
    ann.send(7, word, to=bob)
for _ in range(3):
    ann.router()
ann.send_step(to_bob)
bob.recv_step(to_ann)
bob.recv_step(to_ann)
bob.send(7, 'four', to=ann)
bob.router()
bob.send_step(to_ann)

# What is in flight ends, and a link is cut once.
script.cut(link_of(to_bob))
script.cut(link_of(to_bob))

# Nothing comes to the first node any more. The second one has nothing to write, and takes what it holds first.
ann.recv_step(to_bob)
bob.send_step(to_ann)
bob.recv_step(to_ann)
script.at(1 * SECOND)
bob.recv_step(to_ann)
for _ in range(2):
    bob.recv(7)
bob.send(7, 'five', to=ann)
bob.router()
bob.send_step(to_ann)
bob.recv_step(to_ann)

# Both peers are free again. Over the next link no keys are exchanged, since it is cut before; it ends for both.
for node in (ann, bob):
    node.router()
    node.tracker()
script.at(2 * SECOND)
attempt = dial(ann)
link = arrive(attempt, bob)
handshake = admit(bob)
script.cut(link)
script.finish(link)
ann.attempt(attempt)
bob.handshake(handshake)
