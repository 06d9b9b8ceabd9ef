"""A peer is blocked: it is told, and its address is not; the block ends at its moment."""
from script import Script

script = Script(preset='local', max_peers_per_set=4, max_message_size=1024, mailbox_size=4)
ann = script.node(key=1, block_duration=1000)
ann.start()
blocked = ann.blocked()
ann.tracker()
script.next(blocked)
ann.track(0, [(2, '10.0.0.2:3000')])
ann.tracker()

ann.block(2)
ann.tracker()
script.next(blocked)
script.wait(nanoseconds=999)
ann.tracker()
script.wait(nanoseconds=1)
ann.tracker()
script.next(blocked)
