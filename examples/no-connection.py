"""A message to a key that is not connected is dropped."""
from script import Script

script = Script(preset='local', max_peers_per_set=2, max_message_size=1024, mailbox_size=4)
ann = script.node(key=1)
channel = script.channel(7)
ann.register(channel)
ann.start()
ann.router()

ann.send(channel, 'hello', to=9)
ann.router()
