"""The quota is asked first, and one message is sent to whom it admitted."""
from script import SECOND, Script

script = Script(preset='local', max_peers_per_set=1, max_message_size=5, mailbox_size=1, tracked_peer_sets=1)
ann = script.node(key=1)
channel = script.channel(7)
ann.register(channel)
script.send_checked(ann.check(channel, to=4), 'hello')
ann.start()

check = ann.check(channel, to=2)
script.send_checked(check, 'hello')
script.send_checked(check, 'hello')
script.send_checked(ann.check(channel, to=2), 'hello')

# The router's mailbox is full.
check = ann.check(channel, to=[2, 3])
script.send_checked(check, 'hello', priority=True)
script.send_checked(check, 'hello', priority=True)
ann.check(channel, to=[])

script.at(SECOND - 1)
ann.check(channel, to=2)
script.at(SECOND)
check = ann.check(channel, to=2)
script.send_checked(check, 'hello!')
script.send_checked(check, 'hello')
script.send_checked(ann.check(8, to=2), 'hello')
