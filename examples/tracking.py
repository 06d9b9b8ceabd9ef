"""A set of peers is tracked: the addresses from which they may come, and the update to a subscription."""
from script import Script

script = Script(preset='local', max_peers_per_set=4, max_message_size=1024, mailbox_size=4)
ann = script.node(key=1)
ann.start()
updates = ann.subscribe()
ann.tracker()
script.next(updates)

ann.track(0, [ann, (2, '10.0.0.2:3000')], secondary=[(3, '10.0.0.3:3000')])
ann.tracker()
script.next(updates)
script.next(updates)
