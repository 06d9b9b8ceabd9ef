"""The quota of a channel counts each key apart; a message that is too long counts too."""
from script import SECOND, Script

script = Script(preset='local', max_peers_per_set=2, max_message_size=5, mailbox_size=4)
ann = script.node(key=1)
channel = script.channel(7, burst=2, period=SECOND)
ann.register(channel)
ann.start()
for _ in range(3):
    ann.send(channel, 'hello', to=2)
ann.send(channel, 'hello', to=[2, 3])
ann.send(channel, 'hello!', to=2)
ann.send(channel, 'hello!', to=3)
ann.send(channel, 'hello', to=3)

script.at(SECOND - 1)
ann.send(channel, 'hello', to=2)
script.at(SECOND)
ann.send(channel, 'hello', to=2)
ann.send(channel, 'hello', to=[2, 3])
