"""A set beyond the limit is refused with both numbers; the set of as many as the limit is not."""
from script import Script

script = Script(preset='local', max_peers_per_set=2, max_message_size=1024, mailbox_size=4)
ann = script.node(key=1)
bob, cat = (2, '10.0.0.2:3000'), (3, '10.0.0.3:3000')
ann.start()
ann.track(0, [bob], secondary=[cat])
ann.track(0, [bob, ann])
ann.tracker()
