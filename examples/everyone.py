"""Messages to all: to nobody before the first list of peers, and then to those of the newest list."""
from script import Script, reach

script = Script(preset='local', max_peers_per_set=2, max_message_size=1024, mailbox_size=4)
ann, bob = script.node(key=1), script.node(key=2)
channel = script.channel(7, burst=2)
for node in (ann, bob):
    node.register(channel)
for node in (ann, bob):
    node.start()
to_bob, to_ann = reach(ann, bob)
ann.send_step(to_bob)
bob.send_step(to_ann)
ann.send(channel, 'hello', to='all')
for _ in range(3):
    ann.router()
for _ in range(2):
    bob.router()
ann.send_step(to_bob)
bob.send_step(to_ann)
for node in (ann, bob):
    node.tracker()

for word in ('hello', 'again'):
    ann.send(channel, word, to='all')
    ann.router()
ann.send_step(to_bob)
for _ in range(2):
    bob.recv_step(to_ann)
for _ in range(2):
    bob.recv(channel)
ann.check(channel, to='all')
script.send_checked(bob.check(channel, to='all'), 'hello')
