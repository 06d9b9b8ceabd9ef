"""Two nodes connect, and the first sends hello to the second."""
from script import Script, connect

script = Script(preset='local', max_peers_per_set=2, max_message_size=1024, mailbox_size=4)
ann, bob = script.node(key=1), script.node(key=2)
channel = script.channel(7, burst=1)
for node in (ann, bob):
    node.register(channel)
for node in (ann, bob):
    node.start()
to_bob, to_ann = connect(ann, bob)

ann.send(channel, 'hello', to=bob)
ann.router()
ann.send_step(to_bob)
bob.recv_step(to_ann)
bob.recv(channel)
