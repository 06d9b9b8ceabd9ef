"""Whom a dialer dials and when: a list in a drawn order, a grant, a refusal, and its deadlines."""
from script import SECOND, Script

script = Script(preset='local', max_peers_per_set=4, max_message_size=1024, mailbox_size=4)
ann = script.node(key=1)
ann.start()

# With nobody to dial it asks again a second later.
ann.dialer()
ann.dialer()
ann.tracker()
ann.dialer()
ann.track(0, [(2, '10.0.0.2:3000'), (3, '10.0.0.3:3000')], secondary=[(4, '10.0.0.4:3000')])
ann.tracker()
script.at(SECOND - 1)
ann.dialer()

# A list of two, of which the seed draws the first.
script.at(1 * SECOND)
ann.dialer()
ann.tracker()
ann.dialer(seed=7)
ann.tracker()
ann.dialer()

# The next of the list, which is blocked by then.
script.wait(milliseconds=200)
ann.block(2)
ann.block(3)
ann.tracker()
ann.tracker()
script.wait(milliseconds=300)
ann.dialer()
ann.tracker()
ann.dialer()
script.wait(milliseconds=500)
ann.dialer()
