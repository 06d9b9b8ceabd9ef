"""The causes of what a run refused: each reply and each answer that is none, with its earliest cause in words."""
from journey import copies_carried
from run_state import RunState
from same_run import NOT_FOLLOWING
from why_copies import copy_causes
from why_peers import (why_attempt, why_connect, why_cut, why_dialer, why_finish, why_handshake, why_listener, why_resolve)
from why_sends import why_checked, why_recv, why_send_checked, why_sent
from why_steps import why_recv_step, why_router, why_send_step, why_spawner
from why_tracker import why_answer, why_asked, why_tracker
from why_words import reply_text, why_stopped

JUDGES = {
    'register': why_stopped, 'start': why_stopped, 'stop': why_stopped,
    'send': why_sent, 'check': why_checked, 'send_checked': why_send_checked, 'recv': why_recv, 'close': why_recv,
    'router': why_router, 'spawner': why_spawner, 'send_step': why_send_step, 'recv_step': why_recv_step,
    'track': why_asked, 'overwrite': why_asked, 'block': why_asked, 'peer_set': why_asked, 'subscribe': why_asked,
    'blocked': why_asked, 'tracker': why_tracker, 'answer': why_answer, 'next': why_answer, 'dialer': why_dialer,
    'attempt': why_attempt, 'resolve': why_resolve, 'connect': why_connect, 'refuse': why_connect, 'listener': why_listener,
    'handshake': why_handshake, 'finish': why_finish, 'cut': why_cut,
}
# What takes a copy out of each queue.
TAKERS = {'router': 'router', 'high': 'send_step', 'low': 'send_step', 'link': 'recv_step', 'held': 'recv_step', 'channel': 'recv'}
# The acts whose reply `ok` may hide that something was refused, or that sent a message to fewer than it was for.
LOOKED_AT = frozenset(['send', 'check', 'send_checked', 'tracker', 'attempt', 'handshake', 'finish', 'connect'])
REFUSALS = frozenset(['gone', 'pending', 'idle', 'private', 'unregistered', 'too_many', 'network_closed', 'stream_ended'])
REFUSING = frozenset(['message_too_large', 'peer_set_too_large', 'retry', 'limited', 'ended'])
FALSE = ({'sent': []}, {'outcome': 'rejected'}, {'outcome': 'closed'}, {'feedback': 'backoff'}, {'feedback': 'closed'},
         {'peer_set': None}, {'checked': []})


def is_refusal(reply):
    """Whether a reply alone says that something was refused."""
    if isinstance(reply, str):
        return reply in REFUSALS
    return bool(set(reply) & REFUSING) or reply in FALSE


def event_name(number, event):
    node = ' of node %d' % event['node'] if 'node' in event else ''
    return 'event %d, %s%s' % (number, event['do'], node)


class Told:
    """What is told of an entry: its reply and its cause."""

    def __init__(self, entry, event, cause):
        self.entry = entry
        self.event = event
        self.cause = cause


def cause_of(state, entry):
    """The cause of an entry that refused something, or None where it refused nothing; and whether it did."""
    event = state.events[entry.number]
    refuses = is_refusal(entry.reply)
    if not refuses and event['do'] not in LOOKED_AT:
        return refuses, None
    judge = JUDGES.get(event['do'])
    try:
        return refuses, judge(state, entry, event) if judge else None
    except NOT_FOLLOWING:
        # The entry names what those before it do not show, so nothing is told of it.
        return refuses, None


def told_entries(report, configurations, events):
    """What is told, by the number of the entry, and the causes of the copies that were dropped."""
    state, told, copies = RunState(configurations, events), {}, {}
    for entry in report.entries:
        refuses, cause = cause_of(state, entry)
        if refuses or cause:
            told[entry.number] = Told(entry, events[entry.number], cause)
        copies.update(copy_causes(state, entry))
        state.step(entry)
    return told, copies


def root_of(told, cause):
    """The number of the earliest entry that is behind a cause, and that entry's own cause."""
    number = None
    while cause is not None and cause.of is not None and cause.of in told and told[cause.of].cause is not None:
        number, cause = cause.of, told[cause.of].cause
    return number, cause


def why_lines(report, configurations, events):
    """A line for each entry that refused something, and one for each copy that was dropped or waits."""
    told, copies = told_entries(report, configurations, events)
    lines = ['%s: %s: %s' % (event_name(number, one.event), reply_text(one.entry.reply), whole_text(told, one.cause))
             for number, one in told.items()]
    last = last_puts(report)
    for name, fate in report.copies.items():
        if name in copies:
            lines.append('copy [%d,%d]: dropped at %d, %s: %s' % (*name, *copies[name][0], whole_text(told, copies[name][1])))
        elif fate[0] == 'waiting' and name in last:
            taker = TAKERS.get(fate[1].split(':')[0], 'step')
            lines.append('copy [%d,%d]: waits in %s since entry %d: no "%s" took it' % (*name, fate[1], last[name], taker))
    return lines or ['nothing was refused']


def last_puts(report):
    """The entry that put each copy last into a queue."""
    return {name: entry.number for entry in report.entries for _, item in entry.puts for name in copies_carried(item)}


def whole_text(told, cause):
    """The text of a cause, and of the earliest one that is behind it."""
    if cause is None:
        return 'no cause is told'
    number, first = root_of(told, cause)
    if number is None:
        return cause.text
    return '%s; first of all, event %d: %s' % (cause.text, number, first.text)


def copy_cause(report, script, copy):
    """What is behind the drop of a copy, in words; nothing, where it was not dropped."""
    told, copies = told_entries(report, script.configurations, script.events)
    return whole_text(told, copies[copy][1]) if copy in copies else None
