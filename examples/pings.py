"""A connection pings once that is due; the next ping comes too soon for the other node, and the message behind it waits."""
from script import SECOND, Script, connect

script = Script(preset='local', max_peers_per_set=2, max_message_size=1024, mailbox_size=4)
ann, bob = script.node(key=1, ping_frequency=1 * SECOND), script.node(key=2, ping_frequency=4 * SECOND)
channel = script.channel(7, burst=2)
for node in (ann, bob):
    node.register(channel)
for node in (ann, bob):
    node.start()
to_bob, to_ann = connect(ann, bob)

script.at(SECOND - 1)
ann.send(channel, 'hello', to=bob)
ann.send_step(to_bob)
ann.router()
script.at(1 * SECOND)
ann.send_step(to_bob)
bob.recv_step(to_ann)
bob.recv_step(to_ann)
bob.recv(channel)

ann.send(channel, 'again', to=bob)
ann.router()
script.at(2 * SECOND)
ann.send_step(to_bob)
bob.recv_step(to_ann)
script.at(3 * SECOND - 1)
bob.recv_step(to_ann)
script.at(3 * SECOND)
bob.recv_step(to_ann)
bob.recv_step(to_ann)
bob.recv(channel)
