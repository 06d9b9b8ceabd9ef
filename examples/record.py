"""How long a tracker keeps what it knows of a peer, and that a block outlives it."""
from script import Script

script = Script(preset='local', max_peers_per_set=4, max_message_size=1024, mailbox_size=4)
ann = script.node(key=1, tracked_peer_sets=2, block_duration=1000)
bob, cat, bob_elsewhere = (2, '10.0.0.2:3000'), (3, '10.0.0.3:3000'), (2, '10.0.0.9:3000')
ann.start()
ann.track(0, [bob])
ann.tracker()
ann.overwrite([bob_elsewhere])
ann.tracker()
ann.track(1, [cat])
ann.tracker()
ann.block(2)
ann.tracker()

# The first set falls, and with it what was known of key 2, but for its block.
ann.track(2, [cat])
ann.tracker()
ann.overwrite([bob_elsewhere])
ann.tracker()
ann.track(3, [bob])
ann.tracker()
script.wait(nanoseconds=1000)
ann.tracker()
