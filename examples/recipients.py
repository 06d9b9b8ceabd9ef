"""A message to a list of keys has a copy for each; one to an empty list has none."""
from script import Script, connect

script = Script(preset='local', max_peers_per_set=2, max_message_size=1024, mailbox_size=4)
ann, bob = script.node(key=1), script.node(key=2)
channel = script.channel(7, burst=8)
for node in (ann, bob):
    node.register(channel)
for node in (ann, bob):
    node.start()
to_bob, to_ann = connect(ann, bob)

ann.send(channel, 'hello', to=bob)
ann.send(channel, 'urgent', to=[bob, 9, bob], priority=True)
ann.send(channel, 'nobody', to=[])
for _ in range(3):
    ann.router()
ann.send_step(to_bob)
for _ in range(3):
    bob.recv_step(to_ann)
for _ in range(3):
    bob.recv(channel)
