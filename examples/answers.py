"""What an event answers of which nothing comes: pending, gone, idle."""
from script import Script, admit, arrive, dial, track_each_other

script = Script(preset='local', max_peers_per_set=2, max_message_size=1024, mailbox_size=4)
ann, bob = script.node(key=1), script.node(key=2)
channel = script.channel(7)
for node in (ann, bob):
    node.register(channel)

# Before the start.
ann.recv(channel)
ann.recv(9)
ann.router()
none = ann.spawner()
for node in (ann, bob):
    node.start()
ann.send_step(none)
ann.recv_step(none)

# The first node makes its connection; the second does not make its own.
track_each_other(ann, bob)
attempt = dial(ann)
link = arrive(attempt, bob)
admit(bob)
script.finish(link)
ann.attempt(attempt)
to_bob = ann.spawner()

# Before it begins, while it waits for the router's answer, and once it runs.
ann.recv_step(to_bob)
ann.send_step(to_bob)
ann.send_step(to_bob)
ann.recv_step(to_bob)
for _ in range(3):
    ann.router()
ann.send_step(to_bob)
ann.send_step(to_bob)
ann.recv_step(to_bob)
