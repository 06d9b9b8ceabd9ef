"""What becomes of a dial: a name that is looked up, a refusal, a deadline, and that the peer may be dialed again."""
from script import SECOND, Script, address, dial, dial_next, name

script = Script(preset='local', max_peers_per_set=4, max_message_size=1024, mailbox_size=4)
ann = script.node(key=1)
ann.start()
ann.track(0, [(2, '10.0.0.2:3000'), (3, address(egress='10.0.0.3:3000', ingress=name('three.example')))])
ann.tracker()

by_name = dial(ann, seed=7)
ann.refuse(by_name)
ann.resolve(by_name, ['10.0.0.3:3000', '10.0.1.3:3000'])
ann.attempt(by_name, seed=7)
script.wait(milliseconds=200)
ann.refuse(by_name)
ann.attempt(by_name)
ann.attempt(by_name)
ann.tracker()

script.wait(milliseconds=300)
by_socket = dial_next(ann)
script.wait(seconds=1)
ann.dialer()
ann.tracker()
ann.dialer()
ann.tracker()

# Nobody answers the second attempt, whose deadline is fifteen seconds after it began.
script.at(by_socket.at + 15 * SECOND - 1)
ann.attempt(by_socket)
script.wait(nanoseconds=1)
ann.attempt(by_socket)
ann.tracker()
