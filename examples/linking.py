"""An attempt is linked to the listener of another node once that runs; before, it is refused; and its deadline once it is linked."""
from script import SECOND, Script, address, dial, name

script = Script(preset='local', max_peers_per_set=4, max_message_size=1024, mailbox_size=4)
ann, bob = script.node(key=1), script.node(key=2)
ann.start()
ann.track(0, [(bob, address(egress='10.0.0.2:3000', ingress=name('two.example')))])
ann.tracker()

# The other node does not run yet.
first = dial(ann)
ann.connect(first, to=bob, from_='10.0.0.1:40000')
ann.resolve(first, ['10.0.0.2:3000'])
ann.attempt(first)
ann.connect(first, to=bob, from_='10.0.0.1:40000')
ann.connect(first, to=bob, from_='10.0.0.1:40000')
ann.attempt(first)
ann.tracker()

script.at(3 * SECOND)
bob.start()
second = dial(ann)
ann.resolve(second, ['10.0.0.2:3000'])
ann.attempt(second)
link = ann.connect(second, to=bob, from_='10.0.0.1:40001')
ann.refuse(second)
ann.attempt(second)

# Nothing is exchanged over the link.
script.at(link.at + 5 * SECOND - 1)
ann.attempt(second)
script.wait(nanoseconds=1)
ann.attempt(second)
ann.connect(second, to=bob, from_='10.0.0.1:40002')
