"""Three nodes with two channels: a message to all; a node blocks another; what it sends to all then comes to the third alone."""
from script import Script, connect

script = Script(preset='local', max_peers_per_set=3, max_message_size=1024, mailbox_size=4)
ann, bob, cat = script.node(key=1), script.node(key=2), script.node(key=3)
news, talk = script.channel(7, burst=2), script.channel(8)
for node in (ann, bob, cat):
    node.register(news)
    node.register(talk)
    node.start()
ann_bob, bob_ann = connect(ann, bob)
ann_cat, cat_ann = connect(ann, cat)
bob_cat, cat_bob = connect(bob, cat)

ann.send(news, 'hello', to='all')
ann.router()
for node, here, there in ((bob, ann_bob, bob_ann), (cat, ann_cat, cat_ann)):
    ann.send_step(here)
    node.recv_step(there)
    node.recv(news)
bob.send(talk, 'thanks', to=cat)
bob.router()
bob.send_step(bob_cat)
cat.recv_step(cat_bob)
cat.recv(talk)

ann.block(bob)
ann.tracker()
ann.send_step(ann_bob)
ann.router()
bob.recv_step(bob_ann)
ann.send(news, 'alone', to='all')
ann.router()
ann.send_step(ann_cat)
cat.recv_step(cat_ann)
cat.recv(news)
