"""The spawners of both ends of a link take what waits for them, and make a connection each; the peer stays reserved."""
from script import SECOND, Script, admit, arrive, dial

script = Script(preset='local', max_peers_per_set=4, max_message_size=1024, mailbox_size=4)
ann, bob = script.node(key=1), script.node(key=2)
bob.spawner()
for node in (ann, bob):
    node.start()
ann.spawner()
ann.track(0, [bob])
ann.tracker()
bob.track(0, [ann])
bob.tracker()
bob.listener()

attempt = dial(ann)
link = arrive(attempt, bob)
handshake = admit(bob)
script.finish(link)
ann.attempt(attempt)
ann.spawner()
ann.spawner()
bob.handshake(handshake)
bob.tracker()
bob.handshake(handshake)
bob.spawner()

script.at(9 * SECOND)
ann.dialer()
ann.tracker()
