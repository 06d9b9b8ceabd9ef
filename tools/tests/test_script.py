"""tools/script: each example is what its source makes, each act has its method, and what makes no script is told."""
import json
import os
import re
import tempfile
import unittest

import script as words
from files import TOP, beside, examples, read_text, run_tool
from judge import judge
from script import (SECOND, BadSource, Script, address, begin, connect, dial, duration, link_of, name, quota, reach, socket,
                    track_each_other)
from script_form import ACT_FORMS, OPTIONAL_FORMS
from script_node import Node

LIMITS = {'preset': 'local', 'max_peers_per_set': 4, 'max_message_size': 8, 'mailbox_size': 4}
SCRIPTS = read_text(os.path.join(TOP, 'docs', 'SCRIPTS.md'))
# What is no whole number of nanoseconds.
NO_DURATIONS = [{'seconds': 0.0000000001}, {'milliseconds': '1/3'}, {'nanoseconds': 0.5}, {'seconds': -1}]
# Methods that a source does not call.
INNER = {'plain', 'text', 'does', 'outgoing'}
NO_SOCKETS = ['10.0.0.2', '10.0.0:3000', 'two.example:3000', '10.0.0.2:', '::1:x']


def running(count=3, channels=(7,), **configuration):
    """A script of nodes that run, with these channels."""
    script = Script(**{**LIMITS, **configuration})
    nodes = [script.node(key=key) for key in range(1, count + 1)]
    for node in nodes:
        for channel in channels:
            node.register(channel, quota(1))
        node.start()
    return script, nodes


def said_of(script):
    return json.loads(script.text())['script']


def some_of_each_act():
    """A script in which each act stands once, and those that the way to a connection has stand more often."""
    script, (ann, bob, cat) = running()
    to_bob, to_ann = connect(ann, bob)
    script.send_checked(ann.check(7, to='all'), 'hello')
    ann.send(7, b'\x01', to=[bob, 9], priority=True)
    bob.recv_step(to_ann)
    bob.recv(7)
    bob.close(7)
    ann.overwrite([(bob, '10.0.0.9:3000')])
    ann.block(cat)
    script.answer(ann.peer_set(0))
    script.next(ann.subscribe())
    script.next(ann.blocked())
    attempt = cat.dialer(seed=1)
    cat.resolve(attempt, ['[2001:db8::1]:3000'])
    cat.refuse(attempt)
    script.cut(link_of(to_bob))
    ann.track(5, [bob], secondary=[(9, address(egress='10.0.0.9:3000', ingress=name('nine.example')))])
    cat.stop()
    return script


class Examples(unittest.TestCase):

    def test_each_example_is_what_its_source_makes(self):
        for path in examples():
            with self.subTest(os.path.basename(path)):
                made = run_tool('script', beside(path, '.py'))
                self.assertEqual((made.returncode, made.stderr, made.stdout.decode()), (0, b'', read_text(path)))

    def test_the_directory_is_checked(self):
        told = run_tool('script', '--check', os.path.join(TOP, 'examples'))
        count = len(examples())
        self.assertEqual((told.returncode, told.stdout.decode()), (0, '%d of %d sources make the script beside them\n' % (count, count)))

    def test_another_script_is_told(self):
        with tempfile.TemporaryDirectory() as folder:
            source, made = os.path.join(folder, 'one.py'), os.path.join(folder, 'one.json')
            text = read_text(os.path.join(TOP, 'examples', 'unbound.py'))
            with open(source, 'w', encoding='utf-8') as out:
                out.write(text)
            self.assertIn('No such file', run_tool('script', '--check', folder).stdout.decode())
            with open(made, 'w', encoding='utf-8') as out:
                out.write(read_text(os.path.join(TOP, 'examples', 'unbound.json')).replace('"priority":false', '"priority":0'))
            told = run_tool('script', '--check', folder)
            self.assertEqual(told.returncode, 1)
            self.assertIn('%s: tools/script %s makes another script\n0 of 1' % (made, source), told.stdout.decode())

    def test_an_empty_directory_has_no_sources(self):
        with tempfile.TemporaryDirectory() as folder:
            self.assertEqual(run_tool('script', '--check', folder).returncode, 1)


class Sources(unittest.TestCase):

    def told_of(self, text):
        with tempfile.TemporaryDirectory() as folder:
            path = os.path.join(folder, 'one.py')
            with open(path, 'w', encoding='utf-8') as out:
                out.write(text)
            told = run_tool('script', path)
            self.assertEqual((told.returncode, told.stdout), (1, b''))
            return told.stderr.decode().replace(path, 'one.py')

    def test_what_makes_no_script_is_told_with_its_line(self):
        head = 'from script import Script, connect\n'
        self.assertEqual(self.told_of(head), 'one.py: it has no `script = Script(..)`\n')
        self.assertRegex(self.told_of(head + 'script = Script(1)(\n'), r'^one\.py:2: \S')
        self.assertEqual(self.told_of(head + 'script = Script()\nscript.node(key=1)\n'),
                         'one.py:3: the configuration of key 1 lacks `preset`\n')
        self.assertEqual(self.told_of(head + 'script = Scrip()\n'), "one.py:2: NameError: name 'Scrip' is not defined\n")

    def test_the_words_of_the_tool(self):
        self.assertEqual(run_tool('script').returncode, 2)
        self.assertEqual(run_tool('script', '--check').returncode, 2)
        self.assertEqual(run_tool('script', '--help').returncode, 0)
        self.assertEqual(run_tool('script', os.path.join(TOP, 'examples', 'none.py')).returncode, 1)


class Words(unittest.TestCase):

    def test_each_act_has_a_method_whose_event_has_its_names(self):
        script = some_of_each_act()
        found = {event['do']: event for event in said_of(script)}
        self.assertEqual(sorted(found), sorted(ACT_FORMS))
        for act, event in found.items():
            self.assertTrue(hasattr(Node, act) or hasattr(Script, act), act)
            names = set(event) - {'at', 'do', 'seed'} - set(OPTIONAL_FORMS.get(act, {}))
            self.assertEqual(names, set(ACT_FORMS[act]), act)
        self.assertEqual(judge(script.text().encode())[1].status, 0)

    def test_a_start_says_that_it_does_not_bind_and_else_nothing_of_it(self):
        script = Script(**LIMITS)
        ann, bob = script.node(key=1), script.node(key=2)
        ann.start(bind=False)
        bob.start(bind=True)
        bob.stop()
        self.assertEqual(said_of(script), [
            {'at': 0, 'do': 'start', 'node': 0, 'bind': False}, {'at': 0, 'do': 'start', 'node': 1}, {'at': 0, 'do': 'stop', 'node': 1}])
        self.assertEqual(judge(script.text().encode())[1].status, 0)

    def test_a_plain_event_is_what_it_says(self):
        script, (ann, bob, _) = running()
        step = ann.dialer()
        script.event('connect', seed=4, node=ann, attempt=step, from_=socket('10.0.0.1:1'), to=bob)
        self.assertEqual(said_of(script)[-1], {
            'at': 0, 'seed': 4, 'do': 'connect', 'node': 0, 'attempt': step.number, 'from': {'ip': [10, 0, 0, 1], 'port': 1}, 'to': 1})
        script.event('stop', node=7)
        script.event('send_checked', check=99, bytes='', priority=False)
        script.event('finish', link=99, ok=True)
        script.event('cut', link=99)

    def test_values(self):
        self.assertEqual(socket('[::1]:3000'), {'ip': [0] * 15 + [1], 'port': 3000})
        for said in NO_SOCKETS:
            with self.subTest(said), self.assertRaises(BadSource):
                socket(said)
        script, (ann, bob, _) = running()
        for to, said in ((bob, {'one': 2}), (5, {'one': 5}), ([bob, 5], {'some': [2, 5]}), ([], {'some': []}), ('all', 'all')):
            self.assertEqual(ann.send(7, 'é', to=to).said['to'], said)
        self.assertEqual(ann.send(7, 'é', to=bob).said['bytes'], 'c3a9')

    def test_moments_go_on_and_never_back(self):
        script, (ann, _, _) = running()
        script.wait(seconds=0.1, milliseconds=2, nanoseconds=3)
        self.assertEqual(ann.tracker().at, 102_000_003)
        script.at(SECOND)
        self.assertEqual(ann.tracker().at, SECOND)
        with self.assertRaises(BadSource):
            script.at(SECOND - 1)
        for said in NO_DURATIONS:
            with self.subTest(said), self.assertRaises(BadSource):
                duration(**said)

    def test_a_configuration_has_the_names_of_the_format(self):
        with self.assertRaisesRegex(BadSource, 'key 1 has the unknown name `mailbox`'):
            Script(**LIMITS).node(key=1, mailbox=1)
        node = Script(**LIMITS).node(key=1, dial_timeout=5, mailbox_size=9)
        self.assertEqual(list(node.configuration.items())[:1] + list(node.configuration.items())[-2:],
                         [('key', 1), ('mailbox_size', 9), ('dial_timeout', 5)])

    def test_a_value_of_another_script_is_refused(self):
        (script, (ann, _, _)), (_, (other, _, _)) = running(), running()
        for wrong in (other, other.dialer()):
            with self.assertRaisesRegex(BadSource, 'another script'):
                script.event('attempt', node=ann, attempt=wrong)


class Ways(unittest.TestCase):

    def refused(self, why, a, b, **more):
        count = len(a.script.events)
        with self.assertRaisesRegex(BadSource, why):
            connect(a, b, **more)
        self.assertEqual(len(a.script.events), count)

    def test_a_way_waits_until_the_dialer_dials_again(self):
        script, (ann, bob, cat) = running()
        connect(ann, bob)
        here, there = connect(ann, cat)
        self.assertEqual((here.at, there.at, script.moment), (500_000_000,) * 3)
        self.assertEqual((here.said['node'], there.said['node']), (0, 2))

    def test_a_way_takes_what_waits_first(self):
        """The set that waits for the tracker, and the addresses that wait for the listener, are taken before anybody dials."""
        script, (ann, bob, cat) = running()
        bob.track(0, [cat])
        count = len(script.events)
        connect(ann, bob)
        self.assertEqual([(event['do'], event['node']) for event in said_of(script)[count:count + 4]],
                         [('tracker', 1), ('listener', 1), ('track', 0), ('track', 1)])

    def test_a_set_of_a_way_has_all_who_were_tracked(self):
        script, (ann, bob, cat) = running()
        connect(ann, bob)
        connect(cat, ann)
        tracks = [event for event in said_of(script) if event['do'] == 'track' and event['node'] == 0]
        self.assertEqual([(event['index'], [key for key, _ in event['primary']]) for event in tracks], [(0, [1, 2]), (1, [1, 2, 3])])

    def test_where_no_way_leads(self):
        script, (ann, bob, cat) = running()
        dan = script.node(key=4)
        self.refused('node 3, of key 4, has not started', ann, dan)
        self.refused('is the same node', ann, ann)
        connect(ann, bob)
        self.refused('node 0, of key 1, is connected with key 2', ann, bob)
        dial(cat)
        self.refused('node 2, of key 3, has a dialer that was stepped by hand', cat, bob)

    def test_no_way_leads_to_one_of_several_or_to_one_that_is_blocked(self):
        script, (ann, bob, cat) = running()
        track_each_other(ann, bob, cat)
        self.refused('tracks key 3 too', ann, bob)
        script, (ann, bob, cat) = running()
        bob.block(ann)
        self.refused('node 1, of key 2, may still block key 1', ann, bob)

    def test_no_way_leads_beyond_a_limit_or_to_a_private_address(self):
        script, (ann, bob, cat) = running(max_peers_per_set=2)
        connect(ann, bob)
        self.refused('would track 3 keys', ann, cat)
        script, (ann, bob, cat) = running(preset='recommended')
        self.refused('node 0, of key 1, may not dial key 2', ann, bob)

    def test_no_way_leads_past_one_who_waits(self):
        script, (ann, bob, cat) = running()
        ann.track(0, [bob])
        ann.tracker()
        link = ann.connect(dial(ann), to=bob)
        self.refused('node 1, of key 2, may have somebody who waits for its listener', cat, bob)
        script.finish(link)
        self.refused('node 0, of key 1, may have a peer that waits for its spawner', cat, ann)

    def test_no_way_leads_to_another_address_or_to_a_name(self):
        _, (ann, bob, _) = running()
        ann.track(0, [(bob, address(egress='10.0.0.2:3000', ingress=name('two.example')))])
        self.refused('knows key 2 by a name', ann, bob)
        bob.track(0, [(ann, '10.0.0.9:3000')])
        ann.overwrite([bob])
        self.refused('node 1, of key 2, knows key 1 by another address', ann, bob)
        script = Script(**LIMITS)
        open_node, shut_node = script.node(key=1), script.node(key=2, allow_private_ips=False)
        for node in (open_node, shut_node):
            node.start()
        self.refused('node 1, of key 2, may not listen to key 1', open_node, shut_node)

    def ended(self, **limits):
        """Three nodes, of which the first two were connected, and both those connections have ended; no router has taken that."""
        script, (ann, bob, cat) = running(**limits)
        to_bob, to_ann = connect(ann, bob)
        ann.block(bob)
        ann.tracker()
        ann.send_step(to_bob)
        bob.recv_step(to_ann)
        return script, (ann, bob, cat)

    def test_a_way_again_is_asked_for(self):
        script, (ann, bob, _) = self.ended(block_duration=1000)
        self.refused('say again=True', ann, bob)
        self.refused('may still block key 2', ann, bob, again=True)
        script.wait(nanoseconds=1000)
        connect(ann, bob, again=True)

    def test_a_way_again_waits_until_the_peer_is_listed(self):
        """That is a cooldown and at most half of it after it was granted."""
        for first in (0, 1):
            script, nodes = self.ended(block_duration=1000)
            script.wait(nanoseconds=1000)
            connect(nodes[first], nodes[1 - first], again=True)
            self.assertEqual(script.moment, 1_500_000_000)

    def test_a_way_takes_the_release_of_a_connection_that_ended(self):
        script, (ann, _, cat) = self.ended()
        count = len(script.events)
        connect(cat, ann)
        steps = [event for event in said_of(script)[count:] if event['do'] in ('router', 'tracker') and event['node'] == 0]
        self.assertEqual([event['do'] for event in steps], ['tracker'] * 4 + ['router'] * 2 + ['tracker'])

    def test_a_way_again_leads_past_a_cut(self):
        script, (ann, bob, _) = running()
        to_bob, to_ann = connect(ann, bob)
        link = link_of(to_ann)
        self.assertEqual((link.said['do'], link_of(to_bob)), ('connect', link))
        bob.recv_step(to_ann)
        script.cut(link)
        self.refused('node 0, of key 1, is connected with key 2', ann, bob, again=True)
        ann.recv_step(to_bob)
        self.refused('node 1, of key 2, is connected with key 1', ann, bob, again=True)
        bob.recv_step(to_ann)
        self.refused('say again=True', ann, bob)
        connect(ann, bob, again=True)

    def test_no_way_leads_to_a_node_that_stopped(self):
        script, (ann, bob, cat) = running()
        to_bob, _ = connect(ann, bob)
        bob.stop()
        self.refused('node 1, of key 2, has stopped', cat, bob)
        ann.recv_step(to_bob)
        self.refused('node 1, of key 2, has stopped', ann, bob, again=True)
        script.wait(seconds=1)
        connect(cat, ann)
        dan = script.node(key=4)
        dan.stop()
        dan.start()
        self.refused('node 3, of key 4, has stopped', cat, dan)
        eve = script.node(key=5)
        eve.start(bind=False)
        self.refused('node 4, of key 5, has stopped', eve, cat)

    def test_what_no_way_made_has_no_link_that_is_known(self):
        _, (ann, _, _) = running()
        with self.assertRaisesRegex(BadSource, 'is no connection that a way made'):
            link_of(ann.spawner())

    def test_a_way_to_connections_that_have_not_begun_ends_before_their_first_step(self):
        (script, (ann, bob, _)), (whole, others) = running(), running()
        begin(*reach(ann, bob))
        connect(*others[:2])
        self.assertEqual(script.text(), whole.text())
        self.assertEqual([event['do'] for event in said_of(script) if event['do'] == 'send_step'], ['send_step'] * 4)


class Page(unittest.TestCase):

    def test_its_scripts_are_examples(self):
        blocks = re.findall(r'^```python\n(.*?)^```$', SCRIPTS, re.MULTILINE | re.DOTALL)
        sources = [read_text(os.path.join(TOP, 'examples', source + '.py')) for source in ('hello', 'three-nodes')]
        self.assertEqual(blocks, sources)
        self.assertEqual(len([line for line in sources[0].splitlines() if line]), 15)
        self.assertLess(len(sources[1].splitlines()), 40)

    def test_it_has_each_word(self):
        listed = set(re.findall(r'^\| `(?:script\.|node\.)?(\w+)', SCRIPTS, re.MULTILINE))
        methods = {word for kind in (Script, Node) for word in vars(kind) if not word.startswith('_')} - INNER
        self.assertEqual(sorted(set(words.__all__) | methods), sorted(listed))
