"""A peer arrives at a listener four times: what its gates say each time, and that the tracker is asked where they admit it."""
from script import SECOND, Script, dial, dial_next, quota

script = Script(preset='local', max_peers_per_set=8, max_message_size=1024, mailbox_size=4)
ann = script.node(key=1, max_concurrent_handshakes=1, allowed_handshake_rate_per_ip=quota(burst=2, period=60 * SECOND))
bob = script.node(key=2)
for node in (ann, bob):
    node.start()

# The second node knows the first by four keys, so that it dials it four times.
bob.track(0, [(key, ann.address) for key in (1, 3, 4, 5)])
bob.tracker()
bob.connect(dial(bob, seed=1), to=ann)
ann.listener()

ann.track(0, [bob])
ann.tracker()
script.wait(milliseconds=500)
bob.connect(dial_next(bob), to=ann)
ann.listener()
ann.listener()
ann.tracker()

# One handshake runs, and no more may.
script.wait(milliseconds=500)
bob.connect(dial_next(bob), to=ann)
ann.listener()

# The address came twice within the minute.
script.wait(milliseconds=500)
bob.connect(dial_next(bob), to=ann)
ann.listener()
