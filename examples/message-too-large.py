"""A message beyond its node's limit is refused with both numbers; the message of as many bytes as the limit is not."""
from script import Script

script = Script(preset='local', max_peers_per_set=2, max_message_size=5, mailbox_size=4)
ann = script.node(key=1)
channel = script.channel(7, burst=2)
ann.register(channel)
ann.start()
ann.send(channel, 'hello!', to=2)
ann.send(channel, 'hello', to=2)
