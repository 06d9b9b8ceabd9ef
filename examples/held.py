"""Two messages come at one moment, and the quota of the node that receives admits one: the second is held, and a third waits behind it."""
from script import SECOND, Script, connect, quota

script = Script(preset='local', max_peers_per_set=2, max_message_size=1024, mailbox_size=4)
ann, bob = script.node(key=1), script.node(key=2)
ann.register(7, quota(burst=3))
bob.register(7, quota(burst=1))
for node in (ann, bob):
    node.start()
to_bob, to_ann = connect(ann, bob)

ann.send(7, 'hello', to=bob)
ann.send(7, 'again', to=bob)
ann.router()
ann.router()
ann.send_step(to_bob)
bob.recv_step(to_ann)
bob.recv_step(to_ann)
script.wait(milliseconds=500)
ann.send(7, 'last', to=bob)
ann.router()
ann.send_step(to_bob)

for moment in (SECOND - 1, SECOND, 2 * SECOND):
    script.at(moment)
    bob.recv_step(to_ann)
for _ in range(3):
    bob.recv(7)
