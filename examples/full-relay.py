"""Two messages come to a connection whose queue holds one: the second is dropped."""
from script import Script, reach

script = Script(preset='local', max_peers_per_set=2, max_message_size=1024, mailbox_size=1)
ann, bob = script.node(key=1), script.node(key=2)
channel = script.channel(7, burst=2)
for node in (ann, bob):
    node.register(channel)
for node in (ann, bob):
    node.start()
to_bob, to_ann = reach(ann, bob)

# The first node's connection does not run yet, so nothing leaves its queue.
ann.send_step(to_bob)
bob.send_step(to_ann)
ann.router()
ann.router()
ann.send(channel, b'\x01', to=bob)
ann.send(channel, b'\x02', to=bob)
ann.router()
ann.router()
ann.send_step(to_bob)
ann.send_step(to_bob)

bob.router()
bob.router()
bob.send_step(to_ann)
bob.recv_step(to_ann)
bob.recv(channel)
