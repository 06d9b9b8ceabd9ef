"""Where what is read off a report before an entry disagrees with what that entry then does, or a refusal has no cause."""
from run_state import RunState
from same_run import OtherRun, check_same_run
from why import why_lines
from why_sends import admitted_of
from why_tracker import cooling, not_free, why_refused, why_tracker


def expected_keys(state, entry, event):
    """A send or a check is told the keys that the quota admits, where it is told any."""
    if entry.reply == 'gone':
        return
    told = entry.reply.get('sent') or entry.reply.get('checked')
    admitted = admitted_of(state, event, state.offered(event, event['channel'], event['node']))
    if told:
        yield told, admitted
    if 'retry' in entry.reply:
        quota = state.channels[event['node'], event['channel']][1]
        offered = state.offered(event, event['channel'], event['node'])
        limiters = [state.limiter(quota, 'send', event['node'], event['channel'], key) for key in offered]
        yield (int(entry.reply['retry']), []), (max(limiter.retry() for limiter in limiters), admitted)


def expected_gates(state, entry, event):
    """Its quotas say of an arrival what the listener is told."""
    item = state.item(entry.takes[0]) if entry.takes else None
    if isinstance(item, dict) and entry.reply not in ('private', 'unregistered'):
        told = entry.reply['limited'] if isinstance(entry.reply, dict) else [False, False]
        yield told, [not limiter.admits(event['at']) for limiter in state.gates(event['node'], item['from']['ip'])]


def expected_idle(state, entry, event):
    """A dialer, an attempt or a handshake is idle before its deadline, and does something without an item after it."""
    actor = {'dialer': state.dialers.get(event['node']), 'attempt': state.attempts.get(event.get('attempt')),
             'handshake': state.handshakes.get(event.get('handshake'))}[event['do']]
    if actor is None or entry.reply == 'gone' or entry.takes:
        return
    waits = getattr(actor, 'asking', None) is not None or getattr(actor, 'finished', None) is not None
    yield entry.reply == 'idle', waits or event['at'] < actor.deadline


def expected_halves(state, entry, event):
    """A half is gone where its connection is not there or has ended; what is held stays until its quota admits it."""
    one = state.connections.get(event['conn'])
    yield entry.reply == 'gone', one is None or one.ended is not None
    if event['do'] == 'recv_step' and one and one.running is not None and one.ended is None:
        held = state.queues.line('held:%d:%d' % (one.node, one.number))
        if held:
            what, quota = state.metered(one, held[0][1])
            yield entry.reply == 'idle', not state.limiter(quota, 'link', one.number, what).admits(event['at'])


def expected_tracker(state, entry, event):
    """A tracker grants and accepts where nothing that is known of the key is against it."""
    answers = [item for _, item in entry.puts if isinstance(item, dict) and {'acceptable', 'listen', 'dial'} & set(item)]
    for item in answers:
        refuses = list(item.values())[0] in (False, None)
        if refuses:
            yield True, why_tracker(state, entry, event) is not None
        else:
            yield None, against(state, entry, event)


def against(state, entry, event):
    """What would be told against a key that was granted or accepted."""
    asked, tracker = state.item(entry.takes[0]), state.trackers[event['node']]
    if 'dial' in asked:
        return not_free(tracker, asked['dial'], event['at']) or cooling(tracker, asked['dial'], event['at'])
    said = asked.get('acceptable') or asked['listen']
    return why_refused(state, event['node'], said['key'], event['at'], state.handshakes[said['handshake']], 'listen' in asked)


EXPECTED = {'send': expected_keys, 'check': expected_keys, 'listener': expected_gates, 'dialer': expected_idle,
            'attempt': expected_idle, 'handshake': expected_idle, 'send_step': expected_halves, 'recv_step': expected_halves,
            'tracker': expected_tracker}


def disagreements(report, configurations, events):
    """Each entry that does something else than is read off those before it; and how many were compared."""
    state, found, compared = RunState(configurations, events), [], 0
    for entry in report.entries:
        event = events[entry.number]
        for came, due in EXPECTED.get(event['do'], lambda *_: ())(state, entry, event):
            compared += 1
            if came != due:
                found.append((entry.number, event['do'], came, due))
        state.step(entry)
    return found, compared


def differing(report, configurations, events):
    """Where a report is not that of the script, or does another thing than is read off it, or refuses without a cause that is
    told; and how much was compared."""
    try:
        check_same_run(report, configurations, events)
    except OtherRun as other:
        return [other.reason], 0
    found, compared = disagreements(report, configurations, events)
    return found + [line for line in why_lines(report, configurations, events) if 'no cause is told' in line], compared
