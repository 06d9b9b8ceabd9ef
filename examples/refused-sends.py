"""A message for which the router's mailbox is full, and one on a channel that is not registered, are sent to nobody."""
from script import Script

script = Script(preset='local', max_peers_per_set=1, max_message_size=1024, mailbox_size=1, tracked_peer_sets=1)
ann = script.node(key=1)
channel = script.channel(7)
ann.register(channel)
ann.start()
ann.send(channel, 'hello', to=2)
ann.send(channel, 'hello', to=3)
ann.send(8, 'hello', to=3)
