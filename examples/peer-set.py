"""A question to a tracker: its answer waits, is given once, and then is gone."""
from script import Script

script = Script(preset='local', max_peers_per_set=4, max_message_size=1024, mailbox_size=4)
ann = script.node(key=1)
bob, cat = (2, '10.0.0.2:3000'), (3, '10.0.0.3:3000')
ann.start()
ann.track(3, [bob], secondary=[bob, cat])
question = ann.peer_set(3)
script.answer(question)
ann.tracker()
ann.tracker()
script.answer(question)
script.answer(question)
