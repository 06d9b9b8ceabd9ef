"""tools/show: the table of each example is the one beside its report, its picture is XML, and a bad report is told."""
import json
import os
import tempfile
import unittest
import xml.dom.minidom

from chart import Chart
from copy_table import copy_table
from files import TOP, beside, read_text, reports, run_tool
from journey import journeys
from places import keys_of_nodes, link_ends, link_writers, links_of
from report_form import BadReport, read_report
from several import of_each

HELLO = os.path.join(TOP, 'examples', 'hello.report')
PINGS = os.path.join(TOP, 'examples', 'pings.report')
CHECKED = os.path.join(TOP, 'examples', 'checked.report')
ENDED = os.path.join(TOP, 'examples', 'ended.report')
CUT = os.path.join(TOP, 'examples', 'cut.report')
TRACKER = r'''{"end":[],"n":0,"put":[["tracker:0",{"call":0}]],"reply":{"feedback":"ok"},"take":[]}
{"end":[],"n":1,"put":[["control:0:4","kill"],["update:0",[[10,0,0,2]]],["updates:0",{"all":{"primary":[2],"secondary":[]},"index":6,"latest":{"primary":[2],"secondary":[]}}]],"reply":"ok","take":[[0,0]]}
{"end":[],"n":2,"put":[],"reply":{"update":{"all":{"primary":[2],"secondary":[]},"index":6,"latest":{"primary":[2],"secondary":[]}}},"take":[[1,2]]}
{"end":[],"n":3,"put":[["tracker:0",{"call":3}]],"reply":{"feedback":"ok"},"take":[]}
{"end":[["item",1,1]],"n":4,"put":[["update:0",[]],["answer:3",null],["blocked:0",[9]],["dialer:0",{"dial":{"ingress":{"host":"a","port":1},"key":2}}],["dialer:0",{"dialable":{"next":null,"peers":[2]}}]],"reply":"ok","take":[[3,0]]}
{"end":[],"n":5,"put":[],"reply":{"peer_set":null},"take":[[4,1]]}
{"end":[],"n":6,"put":[],"reply":{"peer_set":{"primary":[1],"secondary":[]}},"take":[]}
{"copies":0,"entries":7}
'''
TRACKER_SCRIPT = r'''{"configs":[],"script":[
{"at":0,"do":"subscribe","node":0},
{"at":0,"do":"tracker","node":0},
{"at":0,"do":"next","question":0},
{"at":0,"do":"peer_set","index":6,"node":0},
{"at":0,"do":"tracker","node":0},
{"at":0,"do":"answer","question":3},
{"at":0,"do":"answer","question":3}]}
'''
ATTEMPT = r'''{"end":[],"n":0,"put":[["tracker:0",{"dial":2}]],"reply":"ok","take":[]}
{"end":[],"n":1,"put":[["dialer:0",{"dial":{"ingress":{"host":"a","port":1},"key":2}}]],"reply":"ok","take":[[0,0]]}
{"end":[],"n":2,"put":[],"reply":"ok","take":[[1,0]]}
{"end":[],"n":3,"put":[["attempt:0:2",{"addresses":[{"ip":[10,0,0,2],"port":1}]}]],"reply":"ok","take":[]}
{"end":[],"n":4,"put":[],"reply":"ok","take":[[3,0]]}
{"end":[],"n":5,"put":[["attempt:0:2","refused"]],"reply":"ok","take":[]}
{"end":[],"n":6,"put":[["tracker:0",{"release":2}]],"reply":"ok","take":[[5,0]]}
{"end":[],"n":7,"put":[],"reply":"gone","take":[]}
{"copies":0,"entries":8}
'''
ATTEMPT_SCRIPT = r'''{"configs":[],"script":[
{"at":0,"do":"dialer","node":0},
{"at":0,"do":"tracker","node":0},
{"at":0,"do":"dialer","node":0},
{"at":0,"do":"resolve","addresses":[{"ip":[10,0,0,2],"port":1}],"attempt":2,"node":0},
{"at":0,"do":"attempt","attempt":2,"node":0},
{"at":0,"do":"refuse","attempt":2,"node":0},
{"at":0,"do":"attempt","attempt":2,"node":0},
{"at":0,"do":"refuse","attempt":2,"node":0}]}
'''
LISTENER = r'''{"end":[],"n":0,"put":[["tracker:0",{"call":0}]],"reply":{"feedback":"ok"},"take":[]}
{"end":[],"n":1,"put":[["update:0",[[10,0,0,2]]]],"reply":"ok","take":[[0,0]]}
{"end":[],"n":2,"put":[["attempt:1:0","linked"],["arrivals:0",{"from":{"ip":[10,0,0,2],"port":1},"key":2,"link":2}]],"reply":"ok","take":[]}
{"end":[],"n":3,"put":[],"reply":"ok","take":[[1,0]]}
{"end":[],"n":4,"put":[["tracker:0",{"acceptable":{"handshake":4,"key":2}}]],"reply":"admitted","take":[[2,1]]}
{"end":[],"n":5,"put":[["handshake:0:4",{"acceptable":true}]],"reply":"ok","take":[[4,0]]}
{"end":[],"n":6,"put":[],"reply":{"limited":[true,false]},"take":[]}
{"end":[],"n":7,"put":[],"reply":{"limited":[false,true]},"take":[]}
{"end":[],"n":8,"put":[],"reply":{"limited":[true,true]},"take":[]}
{"end":[],"n":9,"put":[],"reply":"ok","take":[[5,0]]}
{"end":[],"n":10,"put":[["handshake:0:4",{"acceptable":false}]],"reply":"ok","take":[]}
{"copies":0,"entries":11}
'''
LISTENER_SCRIPT = r'''{"configs":[],"script":[
{"at":0,"do":"track","index":0,"node":0,"primary":[]},
{"at":0,"do":"tracker","node":0},
{"at":0,"do":"connect","attempt":0,"from":{"ip":[10,0,0,2],"port":1},"node":1,"to":0},
{"at":0,"do":"listener","node":0},
{"at":0,"do":"listener","node":0},
{"at":0,"do":"tracker","node":0},
{"at":0,"do":"listener","node":0},
{"at":0,"do":"listener","node":0},
{"at":0,"do":"listener","node":0},
{"at":0,"do":"handshake","handshake":4,"node":0},
{"at":0,"do":"tracker","node":0}]}
'''
FINISH = r'''{"end":[],"n":0,"put":[["attempt:0:5",{"finished":true}],["handshake:1:6",{"finished":true}]],"reply":"ok","take":[]}
{"end":[],"n":1,"put":[["spawner:0",{"spawn":{"key":2,"link":3}}]],"reply":"ok","take":[[0,0]]}
{"end":[],"n":2,"put":[["tracker:1",{"listen":{"handshake":6,"key":1}}]],"reply":"ok","take":[[0,1]]}
{"end":[],"n":3,"put":[["handshake:1:6",{"listen":false}]],"reply":"ok","take":[[2,0]]}
{"end":[],"n":4,"put":[["attempt:0:7",{"finished":false}],["handshake:1:8",{"finished":false}]],"reply":"ok","take":[]}
{"end":[],"n":5,"put":[],"reply":"ok","take":[[1,0]]}
{"copies":0,"entries":6}
'''
FINISH_SCRIPT = r'''{"configs":[],"script":[
{"at":0,"do":"finish","link":3,"ok":true},
{"at":0,"do":"attempt","attempt":5,"node":0},
{"at":0,"do":"handshake","handshake":6,"node":1},
{"at":0,"do":"tracker","node":1},
{"at":0,"do":"finish","link":4,"ok":false},
{"at":0,"do":"spawner","node":0}]}
'''
HELD = r'''{"end":[],"n":0,"put":[["router:0",{"content":{"channel":7,"frame":"00070161","priority":false,"send":0,"to":[2]}}]],"reply":{"sent":[2]},"take":[]}
{"end":[],"n":1,"put":[["low:0:9",{"copy":[0,0],"frame":"00070161"}]],"reply":"ok","take":[[0,0]]}
{"end":[],"n":2,"put":[["link:8:out",{"copy":null,"frame":"01"}],["link:8:out",{"copy":[0,0],"frame":"00070161"}]],"reply":"ok","take":[[1,0]]}
{"end":[],"n":3,"put":[["held:1:10","ping"]],"reply":"ok","take":[[2,0]]}
{"end":[],"n":4,"put":[],"reply":"ok","take":[[3,0]]}
{"end":[],"n":5,"put":[["held:1:10",{"bytes":"61","channel":7,"copy":[0,0]}]],"reply":"ok","take":[[2,1]]}
{"copy":[0,0],"fate":["waiting","held:1:10"]}
{"copies":1,"entries":6}
'''
HELD_SCRIPT = r'''{"configs":[],"script":[
{"at":0,"do":"send","node":0,"channel":7,"bytes":"61","priority":false,"to":{"one":2}},
{"at":0,"do":"router","node":0},
{"at":0,"do":"send_step","node":0,"conn":9},
{"at":0,"do":"recv_step","node":1,"conn":10},
{"at":0,"do":"recv_step","node":1,"conn":10},
{"at":0,"do":"recv_step","node":1,"conn":10}]}
'''
BAD = {
    '': 'the last line, with the counts, is missing',
    '{"copies":0,"entries":0}': 'line 1: the line has no end, so the report was cut off',
    '{"copies":0,"entries":1}\n': 'line 1: the report has 0 entries',
    '{"copies":0,"entries":0}\n{}\n': 'line 2: the line with the counts is the last',
    '[]\n': 'line 1: a line is an object',
    '{"end":[]}\n': 'line 1: neither an entry, a copy nor the counts',
    '{"error":"script"}\n': 'line 1: the script was refused; tools/check tells why',
    '{"end":[],"n":1,"put":[],"reply":"ok","take":[]}\n': 'line 1: entry 0 is due here',
    '{"end":[],"n":0,"put":[],"reply":"ok","take":[[0,0]]}\n': 'line 1: item [0,0] was not put before',
    '{"end":[],"n":0,"put":[["router",1]],"reply":"ok","take":[]}\n': 'line 1: a queue is due, as "router:0"',
    '{"end":[["copy",0,0]],"n":0,"put":[],"reply":"ok","take":[]}\n': 'line 1: an end of three parts is an "item"',
    '{"copy":[0,0],"fate":["waiting","router:0"]}\n': 'line 1: there is no entry 0',
    '{"end":[],\n': 'line 1: column 11: a name in quotes is due in an object',
}


class Show(unittest.TestCase):

    def test_each_example_has_its_table_and_its_picture_is_xml(self):
        with tempfile.TemporaryDirectory() as folder:
            def picture(path):
                return os.path.join(folder, os.path.basename(beside(path, '.svg')))
            shown = of_each(lambda path: run_tool('show', path, '--script', beside(path, '.json'), '--svg', picture(path)), reports())
            for path, told in zip(reports(), shown):
                with self.subTest(os.path.basename(path)):
                    expected = os.path.join(TOP, 'tools', 'tests', 'tables', os.path.basename(beside(path, '.table')))
                    self.assertEqual((told.returncode, told.stdout.decode()), (0, read_text(expected)))
                    xml.dom.minidom.parse(picture(path))

    def test_a_picture_needs_no_script(self):
        with tempfile.TemporaryDirectory() as folder:
            picture = os.path.join(folder, 'picture.svg')
            self.assertEqual(run_tool('show', PINGS, '--svg', picture).returncode, 0)
            xml.dom.minidom.parse(picture)

    def test_the_picture_of_the_readme_is_that_of_its_example(self):
        with tempfile.TemporaryDirectory() as folder:
            picture = os.path.join(folder, 'picture.svg')
            run_tool('show', HELLO, '--script', beside(HELLO, '.json'), '--svg', picture)
            self.assertEqual(read_text(picture), read_text(os.path.join(TOP, 'docs', 'hello.svg')))

    def drawn(self, said, script_said):
        """The picture of a report with its events."""
        report, events = read_report(said), json.loads(script_said)['script']
        return Chart(report, journeys(report, events), events, 0, len(report.entries) - 1).draw()

    def assert_drawn(self, report, script, lines):
        drawn = self.drawn(report, script)
        for words in lines:
            with self.subTest(words):
                self.assertIn(words, drawn)
        return drawn

    def test_a_report_of_a_tracker_is_drawn_by_its_replies(self):
        drawn = self.drawn(TRACKER, TRACKER_SCRIPT)
        for words in ('node 0 subscribe: feedback ok', 'node 0 tracker: ok', 'next of event 0: update 6', 'kill → control 4',
                      'answer of event 3: peer set none', 'answer of event 3: peer set [1], []', 'node 0, key'):
            with self.subTest(words):
                self.assertEqual(words in drawn, words != 'node 0, key')

    def test_a_report_of_an_attempt_is_drawn_with_its_end(self):
        self.assert_drawn(ATTEMPT, ATTEMPT_SCRIPT, (
            'node 0 dialer: ok', 'node 0 resolve of event 2: ok', 'node 0 attempt of event 2: ok', 'refused → attempt 2',
            'release 2 → tracker', 'node 0 refuse of event 2: gone'))

    def test_a_report_of_a_listener_is_drawn_by_what_its_gates_say(self):
        self.assert_drawn(LISTENER, LISTENER_SCRIPT, (
            'node 1 connect of event 0: ok', '3  node 0 listener: ok', 'node 0 listener: admitted',
            '6  node 0 listener: limited by address', '7  node 0 listener: limited by subnet',
            '8  node 0 listener: limited by both'))

    def test_a_link_is_drawn_with_the_key_that_dialed(self):
        drawn = self.assert_drawn(LISTENER, LISTENER_SCRIPT, ('>link 2<', '>node 1, key 2<', '>node 0<'))
        self.assertEqual(drawn.count('>link '), 1)

    def test_both_ends_of_a_link_have_their_keys_and_read_what_the_other_wrote(self):
        report = read_report(read_text(HELLO))
        self.assertEqual(links_of(report), {13: (0, 1)})
        self.assertEqual(keys_of_nodes(report, []), {0: 1, 1: 2})
        self.assertEqual(link_ends(report, []), {'link:13:out': 1, 'link:13:in': 0})

    def test_a_report_of_a_handshake_is_drawn_with_the_word_that_ends_it(self):
        drawn = self.assert_drawn(LISTENER, LISTENER_SCRIPT, (
            '9  node 0 handshake of event 4: ok', 'acceptable false → handshake 4'))
        self.assertEqual(drawn.count('acceptable false'), 1)

    def test_a_report_of_links_is_drawn_with_what_was_not_finished_and_who_was_not_reserved(self):
        drawn = self.assert_drawn(FINISH, FINISH_SCRIPT, (
            '0  finish of event 3: ok', 'listen false → handshake 6', '4  finish of event 4: ok',
            'finished false → attempt 7', 'finished false → handshake 8', '5  node 0 spawner: ok'))
        self.assertEqual((drawn.count('finished false'), drawn.count('listen false')), (2, 1))

    def test_a_message_that_is_held_has_its_queue_in_the_table_and_in_the_picture(self):
        report = read_report(HELD)
        found = journeys(report, [])
        self.assertEqual([(one.steps[-1], one.end_text()) for one in found], [((5, 'held:1:10'), 'waits in held:1:10')])
        self.assertIn('link:8:out (2)  held:1:10 (5)   waits in held:1:10', copy_table(found, keys_of_nodes(report, found))[1])
        self.assert_drawn(HELD, HELD_SCRIPT, ('>held:1:10<', '[0,0] waits in held:1:10', '5  node 1 recv_step: ok'))

    def test_a_message_of_a_check_is_to_those_whom_the_check_admitted(self):
        report = read_report(read_text(CHECKED))
        events = json.loads(read_text(beside(CHECKED, '.json')))['script']
        for given, due in ((events, (0, 7, 4)), ([], (None, None, None))):
            unbound = journeys(report, given)[0]
            self.assertEqual((unbound.sender, unbound.channel, unbound.recipient), due)

    def test_a_check_is_drawn_with_what_it_answers_and_its_message_with_what_comes_of_it(self):
        self.assert_drawn(read_text(CHECKED), read_text(beside(CHECKED, '.json')), (
            '1  node 0 check: checked [4]', '2  send_checked of event 1: ok', '[2,0] dropped',
            '7  node 0 check: retry 1000000000', '10  send_checked of event 9: rejected'))

    def test_a_ping_is_drawn_where_it_is_written_and_where_it_is_held(self):
        self.assertEqual(self.drawn(HELD, HELD_SCRIPT).count('ping → '), 2)
        drawn = self.drawn(read_text(PINGS), read_text(beside(PINGS, '.json')))
        self.assertEqual((drawn.count('ping → link:13:out'), drawn.count('ping → held 25'), drawn.count('ping → ')), (2, 1, 3))

    def test_each_end_of_a_connection_is_drawn_with_its_reason_and_with_what_it_takes_along(self):
        drawn = self.assert_drawn(read_text(ENDED), read_text(beside(ENDED, '.json')), (
            '57  node 1 send_step: killed', '64  node 0 recv_step: invalid_channel', '98  node 1 recv_step: decode_failed',
            '101  node 0 send_step: send_failed', '129  node 0 recv_step: receive_failed', 'kill → control 26',
            'release 1 → router', 'release 2 → tracker', '4 copies dropped: connection_ended', '[47,0] dropped: channel_unregistered',
            '[52,0] dropped: connection_ended', '[95,0] dropped: frame_refused'))
        reasons = ('killed', 'invalid_channel', 'decode_failed', 'send_failed', 'receive_failed')
        self.assertEqual([drawn.count('connection ended: %s<' % why) for why in reasons], [1] * 5)

    def test_a_cut_is_drawn_across_its_link_with_what_ends_there(self):
        drawn = self.assert_drawn(read_text(CUT), read_text(beside(CUT, '.json')), (
            '48  cut of event 13: ok', '49  cut of event 13: gone', '[38,0] dropped: link_cut', '[45,0] dropped: link_cut',
            '74  cut of event 69: ok'))
        self.assertEqual([drawn.count('>link %d is cut<' % link) for link in (13, 69)], [1, 1])

    def test_each_direction_of_a_link_has_its_writer(self):
        self.assertEqual(link_writers(read_report(read_text(HELLO))), {'link:13:out': 0, 'link:13:in': 1})

    def test_a_part_of_a_report_can_be_drawn(self):
        with tempfile.TemporaryDirectory() as folder:
            picture = os.path.join(folder, 'picture.svg')
            self.assertEqual(run_tool('show', HELLO, '--svg', picture, '--from', '37', '--to', '39').returncode, 0)
            self.assertIn('link:13:out', read_text(picture))
            self.assertNotIn('>[36,0] delivered<', read_text(picture))
            self.assertEqual(run_tool('show', HELLO, '--svg', picture, '--from', '41').returncode, 1)

    def test_a_bad_report_is_told_by_its_line(self):
        for text, reason in BAD.items():
            with self.subTest(text), self.assertRaises(BadReport) as told:
                read_report(text)
            self.assertEqual(str(told.exception), reason)

    def test_files_that_cannot_be_read_or_written_are_told(self):
        self.assertEqual(run_tool('show', '/no/such/report').returncode, 1)
        self.assertEqual(run_tool('show', HELLO, '--svg', '/no/such/folder/picture.svg').returncode, 1)
        self.assertEqual(run_tool('show', HELLO, '--script', HELLO).returncode, 1)
        self.assertEqual(run_tool('show').returncode, 2)
