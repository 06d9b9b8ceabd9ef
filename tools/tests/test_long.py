"""The program on a script of more than two thousand events, in which one message after another is delivered: its whole report."""
import json
import os
import subprocess
import unittest

from hello import BEFORE, LINK, RECEIVING, SENDING, beginning, configurations, lines_of_beginning
from report_text import line_of, lines_of

PROGRAM = os.environ['P2P_PROGRAM']
MESSAGES = 400
EVENTS = BEFORE + 5 * MESSAGES
CHANNEL = 7
FRAME = '00070568656c6c6f'
BYTES = '68656c6c6f'


def message_events():
    """The five events that carry one message."""
    yield {'do': 'send', 'node': 0, 'channel': CHANNEL, 'bytes': BYTES, 'priority': False, 'to': {'one': 2}}
    yield {'do': 'router', 'node': 0}
    yield {'do': 'send_step', 'node': 0, 'conn': SENDING}
    yield {'do': 'recv_step', 'node': 1, 'conn': RECEIVING}
    yield {'do': 'recv', 'node': 1, 'channel': CHANNEL}


def long_script():
    messages = [dict(event, at=0) for event in message_events()] * MESSAGES
    return {'configs': configurations(), 'script': beginning(MESSAGES) + messages}


def entry(n, reply, take=(), put=(), end=()):
    return {'end': list(end), 'n': n, 'put': list(put), 'reply': reply, 'take': list(take)}


def message_entries(n):
    """The message that event n sends, on its way to its reader."""
    copy = [n, 0]
    content = {'channel': CHANNEL, 'frame': FRAME, 'priority': False, 'send': n, 'to': [2]}
    frame = {'copy': copy, 'frame': FRAME}
    yield entry(n, {'sent': [2]}, put=[['router:0', {'content': content}]])
    yield entry(n + 1, 'ok', [[n, 0]], [['low:0:%d' % SENDING, frame]])
    yield entry(n + 2, 'ok', [[n + 1, 0]], [['link:%d:out' % LINK, frame]])
    yield entry(n + 3, 'ok', [[n + 2, 0]], [['channel:1:7', {'bytes': BYTES, 'copy': copy, 'from': 1}]])
    yield entry(n + 4, {'message': {'bytes': BYTES, 'from': 1}}, [[n + 3, 0]], end=[['copy', n, 0, 'delivered']])


def due_lines():
    yield from lines_of_beginning(MESSAGES)
    sends = range(BEFORE, EVENTS, 5)
    for n in sends:
        yield from message_entries(n)
    for n in sends:
        yield {'copy': [n, 0], 'fate': ['delivered', 'channel:1:7', n + 4]}
    yield {'copies': MESSAGES, 'entries': EVENTS}


class Long(unittest.TestCase):

    def test_two_thousand_events_have_their_report(self):
        ran = subprocess.run([PROGRAM, 'run'], input=json.dumps(long_script()).encode(), capture_output=True, check=False,
                             timeout=60)
        self.assertEqual((ran.returncode, ran.stderr), (0, b''))
        self.assertEqual(lines_of(ran.stdout), list(map(line_of, due_lines())))
