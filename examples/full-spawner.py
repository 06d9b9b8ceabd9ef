"""A spawner whose mailbox is full takes no reservation: it is given back."""
from script import Script, admit, dial

script = Script(preset='local', max_peers_per_set=4, max_message_size=1024, mailbox_size=4)
ann, bob, cat = script.node(key=1, mailbox_size=1), script.node(key=2), script.node(key=3)
for node in (ann, bob, cat):
    node.start()
ann.track(0, [bob, cat])
ann.tracker()
ann.listener()
attempts = []
for node in (bob, cat):
    node.track(0, [ann])
    node.tracker()
    attempts.append(dial(node))

# Both arrive at the first node, whose spawner takes no step.
for node, attempt in zip((bob, cat), attempts):
    link = node.connect(attempt, to=ann)
    handshake = admit(ann)
    script.finish(link)
    ann.handshake(handshake)
    ann.tracker()
    ann.handshake(handshake)
ann.tracker()
ann.handshake(handshake)
