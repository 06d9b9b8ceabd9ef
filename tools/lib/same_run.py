"""Whether a report can be that of a script: where it cannot, at which entry, and why."""
from gone_or_not import misfit
from journey import node_of
from presets import whole_configuration
from run_state import RunState, recipients_of
from valid_input import with_article
from why_words import reply_text

STEPS = ('ok', 'gone', 'idle')
ASKED = ('feedback', 'peer_set_too_large')
ENDED = (*STEPS, 'ended')
# The replies that each act may have, each by its word.
REPLIES = {
    'register': ('capacity', 'gone'), 'start': ('ok', 'gone'), 'stop': ('ok', 'gone'), 'send': ('gone', 'sent', 'message_too_large'),
    'check': ('gone', 'checked', 'retry'), 'send_checked': ('gone', 'outcome', 'message_too_large'), 'router': STEPS,
    'send_step': ENDED, 'recv_step': ENDED, 'recv': ('gone', 'pending', 'message', 'network_closed'), 'close': ('ok', 'gone'), 'track': ASKED,
    'overwrite': ASKED, 'block': ASKED, 'peer_set': ASKED, 'subscribe': ASKED, 'blocked': ASKED,
    'answer': ('gone', 'pending', 'peer_set'), 'next': ('pending', 'update', 'blocked', 'stream_ended'), 'tracker': STEPS, 'dialer': STEPS,
    'attempt': STEPS, 'resolve': ('ok', 'gone'), 'connect': ('ok', 'gone', 'pending'), 'refuse': ('ok', 'gone', 'pending'),
    'finish': ('ok', 'gone', 'pending'), 'cut': ('ok', 'gone'),
    'listener': (*STEPS, 'private', 'unregistered', 'limited', 'too_many', 'admitted'), 'handshake': STEPS, 'spawner': STEPS,
}
# The queues into which each act puts; where it is not here, it puts nothing.
PUTS = {
    'start': ('router',), 'send': ('router',), 'send_checked': ('router',), 'router': ('peers', 'ready', 'high', 'low'),
    'send_step': ('tracker', 'router', 'link'), 'recv_step': ('tracker', 'router', 'channel', 'held'), 'track': ('tracker',),
    'overwrite': ('tracker',), 'block': ('tracker',), 'peer_set': ('tracker',), 'subscribe': ('tracker',),
    'blocked': ('tracker',),
    'tracker': ('control', 'update', 'updates', 'blocked', 'answer', 'dialer', 'handshake'), 'dialer': ('tracker',),
    'attempt': ('tracker', 'spawner'), 'resolve': ('attempt',), 'connect': ('attempt', 'arrivals'), 'refuse': ('attempt',),
    'finish': ('attempt', 'handshake'), 'listener': ('tracker',), 'handshake': ('tracker', 'spawner'),
}
# Which item the entry must have taken or put that an event names as what began its own actor.
BEGUN_BY = {'conn': ('spawner', 'made no connection'), 'attempt': ('dialer', 'began no attempt'),
            'handshake': ('arrivals', 'began no handshake')}


# What comes of an entry that names what is not there, or an item that is none of its queue.
NOT_FOLLOWING = (AttributeError, IndexError, KeyError, TypeError, ValueError)


class OtherRun(Exception):
    """The report is none of the script: from this event on, and why."""

    def __init__(self, number, reason):
        super().__init__(reason)
        self.number = number
        self.reason = reason


def word_of(reply):
    """The word of a reply."""
    return reply if isinstance(reply, str) else next(iter(reply)) if isinstance(reply, dict) and len(reply) == 1 else None


def check_reply(entry, event):
    if word_of(entry.reply) not in REPLIES[event['do']]:
        raise OtherRun(entry.number, '%s has no reply %s' % (with_article(event['do']), reply_text(entry.reply)))


def check_queues(report, entry, event):
    """The queues into which it puts are those of its act, and of its node."""
    for queue, _ in entry.puts:
        if queue.split(':')[0] not in PUTS.get(event['do'], ()):
            raise OtherRun(entry.number, '%s puts nothing into %s' % (with_article(event['do']), queue))
        nodes = {event['node'], event.get('to')} if event['do'] == 'connect' else {event.get('node')}
        node = node_of(queue)
        if 'node' in event and node is not None and node not in nodes:
            raise OtherRun(entry.number, '%s of node %d puts nothing into %s'
                           % (with_article(event['do']), event['node'], queue))
    for name in entry.takes:
        node = node_of(report.item(name)[0])
        if 'node' in event and node is not None and node != event['node']:
            raise OtherRun(entry.number, '%s of node %d takes nothing of %s'
                           % (with_article(event['do']), event['node'], report.item(name)[0]))


def check_named(report, entry, event):
    """What it steps was begun by the entry that it names."""
    for name, (queue, lacking) in BEGUN_BY.items():
        if name in event and entry.reply != 'gone':
            made = [report.item(one)[0] for one in report.entries[event[name]].takes]
            if not any(one.split(':')[0] == queue for one in made):
                raise OtherRun(entry.number, 'entry %d %s, so the reply is not %s'
                               % (event[name], lacking, reply_text(entry.reply)))
    if event['do'] in ('finish', 'cut') and entry.reply != 'gone' and len(report.entries[event['link']].puts) != 2:
        raise OtherRun(entry.number, 'entry %d made no link, so the reply is not %s'
                       % (event['link'], reply_text(entry.reply)))


def check_send(report, events, entry, event):
    """What it sends is what its message says."""
    channel, keys = event.get('channel'), recipients_of(event['to']) if 'to' in event else None
    if 'check' in event:
        reply = report.entries[event['check']].reply
        channel, keys = events[event['check']]['channel'], reply.get('checked') if isinstance(reply, dict) else []
    for _, item in entry.puts:
        content = item['content']
        if content['channel'] != channel or content['priority'] is not event['priority']:
            raise OtherRun(entry.number, 'its message has another channel or priority')
        if not content['frame'].endswith(event['bytes'].lower()):
            raise OtherRun(entry.number, 'its message has other bytes: %s' % content['frame'])
        if keys is not None and [key for key in content['to'] if key not in keys]:
            raise OtherRun(entry.number, 'it is not to the keys %s' % content['to'])


def check_numbers(configurations, entry, event):
    """The numbers of its reply that its configuration gives."""
    reply = entry.reply
    if event['do'] == 'register' and reply != 'gone':
        said = configurations[event['node']]
        due = said['max_peers_per_set'] * said['tracked_peer_sets'] * event['quota']['burst']
        if reply['capacity'] != due:
            raise OtherRun(entry.number, 'the capacity is %d, not %s' % (due, reply['capacity']))
    if event['do'] in ('send', 'send_checked') and 'message_too_large' in reply:
        size = len(event['bytes']) // 2
        if reply['message_too_large'][0] != size:
            raise OtherRun(entry.number, 'the message has %d bytes, not %s' % (size, reply['message_too_large'][0]))
    if event['do'] == 'send' and 'sent' in reply and recipients_of(event['to']) is not None:
        if [key for key in reply['sent'] if key not in recipients_of(event['to'])]:
            raise OtherRun(entry.number, 'the message is not to the keys %s' % reply['sent'])


def check_entry(report, configurations, events, entry):
    event = events[entry.number]
    check_reply(entry, event)
    check_queues(report, entry, event)
    check_named(report, entry, event)
    check_numbers(configurations, entry, event)
    if event['do'] in ('send', 'send_checked'):
        check_send(report, events, entry, event)


def check_same_run(report, configurations, events):
    """Raises where a report is none of a script, which is valid."""
    whole = [whole_configuration(one) for one in configurations]
    state = RunState(configurations, events)
    for entry in report.entries[:len(events)]:
        try:
            check_entry(report, whole, events, entry)
            reason = misfit(state, entry, events[entry.number])
            if reason:
                raise OtherRun(entry.number, reason)
            state.step(entry)
        except NOT_FOLLOWING:
            raise OtherRun(entry.number, 'the entry does not follow from those before it') from None
    if len(events) != len(report.entries):
        raise OtherRun(min(len(events), len(report.entries)),
                       'the script has %d events, and the report has %d entries' % (len(events), len(report.entries)))
