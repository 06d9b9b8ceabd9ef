"""tools/check: each broken script has the verdict that is written beside it, and each example none."""
import json
import os
import unittest
from itertools import product

import hello
from files import TOP, beside, broken_scripts, examples, read_bytes, read_text, run_tool
from json_text import read_json
from judge import LIMIT, judge, lines_of, refusal_now, status_now
from script_form import read_script
from words import U64

# What changes a node's peers.
CHANGES = [{'do': 'track', 'index': 9, 'primary': []}, {'do': 'overwrite', 'peers': []}, {'do': 'block', 'key': 3}]
QUESTIONS = [{'do': 'peer_set', 'index': 0}, {'do': 'subscribe'}, {'do': 'blocked'}]


def judged(events, limits=(), said=()):
    """The verdict on these events at the nodes of the first example, with these limits of messages, and with what else is said
    of each node, where some are given."""
    configurations = hello.configurations()
    for configuration, limit in zip(configurations, limits):
        configuration['max_message_size'] = limit
    for configuration, more in zip(configurations, said):
        configuration.update(more)
    script = {'configs': configurations, 'script': [{'at': 0, **event} for event in events]}
    return judge(json.dumps(script).encode())[1]


def register(node, burst):
    return {'do': 'register', 'node': node, 'channel': 7, 'quota': {'burst': burst, 'period': 1}}


def send(to, priority=False, channel=7, bytes_sent='00'):
    return {'do': 'send', 'node': 0, 'channel': channel, 'bytes': bytes_sent, 'priority': priority, 'to': to}


def check(to, channel=7):
    return {'do': 'check', 'node': 0, 'channel': channel, 'to': to}


def send_checked(number, bytes_sent='00'):
    return {'do': 'send_checked', 'check': number, 'bytes': bytes_sent, 'priority': False}


def with_a_step(events):
    """These events, and then a step of a connection."""
    return [{'do': 'spawner', 'node': 0}, *events, {'do': 'send_step', 'node': 0, 'conn': 0}]


def asked_after(count, event, node):
    """So many events of the first example, then this one at the node, then a step of a connection."""
    steps = [{'do': 'spawner', 'node': 0}, {'do': 'send_step', 'node': 0, 'conn': count + 1}]
    return judged(hello.events()[:count] + [dict(event, node=node)] + steps)


class Check(unittest.TestCase):

    def test_each_broken_script_has_its_verdict(self):
        for path in broken_scripts():
            with self.subTest(os.path.basename(path)):
                lines = lines_of('', *judge(read_bytes(path)))
                told = ''.join(line[1:].lstrip() + '\n' for line in lines)
                self.assertEqual(told, read_text(beside(path, '.verdict')))

    def test_each_example_runs(self):
        for path in examples():
            with self.subTest(os.path.basename(path)):
                self.assertEqual(status_now(judge(read_bytes(path))[1]), 0)

    def test_a_node_changes_its_peers_at_any_time(self):
        for count, node, event in product(range(len(hello.events())), (0, 1), CHANGES):
            with self.subTest((count, node, event)):
                self.assertEqual(status_now(asked_after(count, event, node)), 0)

    def test_a_script_may_ask_for_more_copies_than_a_burst(self):
        for keys, bursts, priority in product(([], [2], [2, 2], [2, 9, 2]), ((1, 1), (1, 4), (3, 2), (4, 4)), (False, True)):
            events = [register(0, bursts[0]), register(1, bursts[1]), send({'some': keys}, priority), send({'one': 2})]
            with self.subTest((keys, bursts, priority)):
                self.assertEqual([status_now(judged(each)) for each in (events, with_a_step(events))], [0, 0])

    def test_a_message_may_be_longer_than_a_limit_and_on_any_channel(self):
        for channel, size, limits in product((7, 8), (0, 1, 2, 3), ((3, 3), (2, 1), (1, 2), (0, 0))):
            events = [register(0, 1), register(1, 1), send({'some': [2]}, True, channel, '00' * size)]
            with self.subTest((channel, size, limits)):
                self.assertEqual([status_now(judged(each, limits)) for each in (events, with_a_step(events))], [0, 0])

    def test_so_may_a_message_of_a_check(self):
        for channel, size, limits in product((7, 8), (0, 1, 2, 3), ((3, 3), (2, 1), (1, 2), (0, 0))):
            begin = [register(0, 1), register(1, 1), check('all', channel)]
            alone, stepped = begin + [send_checked(2, '00' * size)], with_a_step(begin + [send_checked(3, '00' * size)])
            with self.subTest((channel, size, limits)):
                self.assertEqual([status_now(judged(each, limits)) for each in (alone, stepped)], [0, 0])

    def test_a_message_names_an_earlier_check(self):
        for number, long in product(range(6), (False, True)):
            events = [register(0, 1), send({'one': 2}), check({'one': 2}), send_checked(number), check('all')]
            with self.subTest((number, long)):
                self.assertEqual(status_now(judged(events, (0, 0) if long else ())), 0 if number == 2 else 8)

    def test_a_message_is_to_all_to_one_or_to_some(self):
        for to, due in (('all', 0), ({'one': 2}, 0), ({'some': []}, 0), ('All', 6), ('', 6), (['all'], 6), ({'all': True}, 6),
                        (True, 6), (None, 6)):
            with self.subTest(to):
                self.assertEqual([status_now(judged([asked(to)])) for asked in (send, check)], [due, due])

    def test_a_channel_may_be_registered_after_a_message(self):
        for count in range(3):
            events = [send({'one': 2}), register(1, 1), register(0, 1)][:count + 1]
            with self.subTest(count):
                self.assertEqual(status_now(judged(with_a_step(events))), 0)

    def test_a_node_dials_and_listens(self):
        for acts, nodes in product(product(('dialer', 'listener'), repeat=2), product((0, 1), repeat=2)):
            events = [{'do': act, 'node': node} for act, node in zip(acts, nodes)]
            with self.subTest((acts, nodes)):
                self.assertEqual([status_now(judged(each)) for each in (events, with_a_step(events))], [0, 0])

    def test_a_deadline_may_come_where_a_connection_may_begin(self):
        for name, node, timeout in product(('dial_timeout', 'handshake_timeout'), (0, 1), (0, 1, 1000)):
            said = [{}, {}]
            said[node] = {name: timeout}
            for at in (0, 1, 999, 1000):
                after = [{'at': at, 'do': 'tracker', 'node': 0}]
                with self.subTest((name, node, timeout, at)):
                    found = [status_now(judged(each, said=said)) for each in (after, with_a_step([]) + after)]
                    self.assertEqual(found, [0, 0])

    def test_a_connection_may_ping_at_any_moment(self):
        for frequency, at in product((0, 1, 5_000_000_000, U64), (0, 4_999_999_999, 5_000_000_000, U64)):
            steps = with_a_step([]) + [{'at': at, 'do': act, 'node': 0, 'conn': 0} for act in ('send_step', 'recv_step')]
            with self.subTest((frequency, at)):
                self.assertEqual(status_now(judged(steps, said=[{'ping_frequency': frequency}])), 0)

    def test_a_ping_frequency_is_a_whole_number(self):
        for frequency, due in ((0, 0), (1, 0), (U64, 0), (U64 + 1, 6), (-1, 6), (1.5, 6), ('1', 6), (None, 6), (True, 6)):
            with self.subTest(frequency):
                self.assertEqual(status_now(judged([], said=[{'ping_frequency': frequency}])), due)

    def test_a_preset_says_how_often_a_node_pings_that_does_not_say_it(self):
        for preset, due in (('local', 5_000_000_000), ('recommended', 50_000_000_000)):
            for more, said in (({}, due), ({'ping_frequency': 7}, 7)):
                configuration = {**hello.configurations()[0], 'preset': preset, **more}
                script = read_script(read_json(json.dumps({'configs': [configuration], 'script': []})))
                with self.subTest((preset, more)):
                    self.assertEqual([one.said['ping_frequency'] for one in script.configurations], [said])

    def test_there_may_be_more_links_than_a_mailbox_holds(self):
        begin = [{'do': 'dialer', 'node': 0}]
        for count, sizes in product(range(4), ((1, 3), (3, 1), (2, 2), (3, 3))):
            connect = {'do': 'connect', 'node': 0, 'attempt': 1, 'from': {'ip': [10, 0, 0, 1], 'port': 40000}, 'to': 1}
            said = [{'mailbox_size': size} for size in sizes]
            with self.subTest((count, sizes)):
                self.assertEqual(status_now(judged(with_a_step(begin + [connect] * count), said=said)), 0)

    def test_a_tracker_is_asked_what_it_knows_at_any_time(self):
        for event in QUESTIONS:
            for node in (0, 1):
                self.assertEqual(status_now(asked_after(len(hello.events()), event, node)), 0)

    def test_a_half_steps_by_the_spawner_of_its_own_node(self):
        for act in ('send_step', 'recv_step'):
            for number in range(hello.BEFORE):
                due = 0 if number == hello.SENDING else 8
                with self.subTest((act, number)):
                    step = {'do': act, 'node': 0, 'conn': number}
                    self.assertEqual(status_now(judged(hello.events()[:hello.BEFORE] + [step])), due)

    def test_a_long_input_is_status_4(self):
        self.assertEqual(status_now(judge(b' ' * (LIMIT + 1))[1]), 4)
        self.assertEqual(status_now(judge(b' ' * LIMIT)[1]), 5)

    def test_what_the_program_writes_of_a_refusal(self):
        again = {'configs': [hello.configurations()[0]] * 2, 'script': [{'at': 0, 'do': 'start', 'node': 2}]}
        cases = [(b' ' * (LIMIT + 1), b''), (b'', b'{"error":"json"}\n'), (b'{}', b'{"error":"script"}\n'),
                 (json.dumps(again).encode(), b'{"config":1,"error":"config"}\n')]
        for data, due in cases:
            self.assertEqual(refusal_now(judge(data)[1]), due)
        for node, due in ((0, None), (2, b'{"error":"event","event":1}\n')):
            self.assertEqual(refusal_now(judged([send('all'), {'do': 'start', 'node': node}])), due)
        self.assertEqual(refusal_now(judged([{'do': 'fault', 'after': 0, 'link': 0, 'side': 'dial'}])), b'{"error":"script"}\n')

    def test_the_status_of_the_tool_tells_whether_the_program_runs_it(self):
        good = run_tool('check', os.path.join(TOP, 'examples', 'hello.json'))
        bad = run_tool('check', os.path.join(TOP, 'tools', 'tests', 'scripts', 'form-misspelled-act.json'))
        self.assertEqual((good.returncode, bad.returncode), (0, 1))
        self.assertIn(b'perhaps "send" is meant', bad.stdout)

    def test_a_file_that_is_not_there_and_no_file_are_told(self):
        absent = run_tool('check', '/no/such/script')
        self.assertEqual(absent.returncode, 1)
        self.assertIn(b'No such file', absent.stderr)
        self.assertEqual(run_tool('check').returncode, 2)
