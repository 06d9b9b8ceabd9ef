"""An overwrite of addresses, one that changes none, and one for a peer that is dialed by a name."""
from script import Script, address, name

script = Script(preset='local', max_peers_per_set=4, max_message_size=1024, mailbox_size=4)
ann = script.node(key=1)
ann.start()
ann.track(0, [(2, '10.0.0.2:3000')])
ann.tracker()
for where in ('10.0.0.9:3000', '10.0.0.9:3000', address(egress='10.0.0.9:3000', ingress=name('two.example'))):
    ann.overwrite([(2, where)])
    ann.tracker()
