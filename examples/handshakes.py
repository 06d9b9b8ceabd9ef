"""What ends a handshake: that its peer may not connect, or its deadline; its place is free then, and it is told nothing more."""
from script import SECOND, Script, dial, dial_next

script = Script(preset='local', max_peers_per_set=8, max_message_size=1024, mailbox_size=4)
ann = script.node(key=1, max_concurrent_handshakes=1, handshake_timeout=1 * SECOND)
bob = script.node(key=2)
for node in (ann, bob):
    node.start()
ann.track(0, [bob])
ann.tracker()
ann.listener()
bob.track(0, [(key, ann.address) for key in (1, 3, 4, 5)])
bob.tracker()

bob.connect(dial(bob, seed=1), to=ann)
first = ann.listener()
ann.handshake(first)
bob.listener()
ann.tracker()
ann.handshake(first)

# One that is not admitted begins no handshake.
script.wait(milliseconds=500)
bob.connect(dial_next(bob), to=ann)
none = ann.listener()
ann.handshake(none)

# The deadline.
script.at(SECOND - 1)
ann.handshake(first)
script.at(1 * SECOND)
ann.handshake(first)
ann.handshake(first)

# The next ends before the tracker takes its question.
bob.connect(dial_next(bob), to=ann)
second = ann.listener()
script.wait(seconds=1)
ann.handshake(second)
ann.tracker()

# The peer of the last is blocked.
bob.connect(dial_next(bob), to=ann)
ann.block(bob)
third = ann.listener()
ann.tracker()
ann.tracker()
ann.handshake(third)
ann.handshake(third)
