"""A newer set evicts the oldest, of which nothing is answered then."""
from script import Script

script = Script(preset='local', max_peers_per_set=4, max_message_size=1024, mailbox_size=4, tracked_peer_sets=1)
ann = script.node(key=1)
ann.start()
ann.track(0, [(2, '10.0.0.2:3000')])
ann.tracker()
ann.track(1, [(3, '10.0.0.3:3000')])
ann.tracker()

questions = [ann.peer_set(0), ann.peer_set(1)]
for _ in questions:
    ann.tracker()
for question in questions:
    script.answer(question)
