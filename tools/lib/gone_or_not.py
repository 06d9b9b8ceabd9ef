"""Whether an entry may have its reply, by what the run has come to before it."""
from stopping import after_misfit, stop_misfit, stops_node
from why_sends import admitted_of, full_router
from why_words import reply_text

STEPPED = ('router', 'tracker', 'dialer', 'listener', 'spawner')
CALLS = ('register', 'start', 'stop')
NOTHING = ('idle', 'pending', 'network_closed')
QUEUES = {'router': 'router:%(node)d', 'spawner': 'spawner:%(node)d', 'recv': 'channel:%(node)d:%(channel)d',
          'attempt': 'attempt:%(node)d:%(attempt)d', 'handshake': 'handshake:%(node)d:%(handshake)d', 'dialer': 'dialer:%(node)d'}


def is_over(actors, number, node):
    """Whether there is no such actor of the node, or none any more."""
    one = actors.get(number)
    return one is None or one.node != node or one.ended is not None


def is_gone(state, event):
    """Whether the reply to an event is "gone"; None where this is not looked at."""
    act, node = event['do'], event.get('node')
    if act in STEPPED:
        return not state.is_up(node)
    if act in CALLS:
        return node in state.stopped
    if act in ('send', 'check'):
        return (node, event['channel']) not in state.channels
    if act in ('recv', 'close'):
        return (node, event['channel']) not in state.channels or (node, event['channel']) in state.closed
    if act == 'answer':
        return event['question'] in state.answered
    if act == 'send_checked':
        return event['check'] not in state.checks or event['check'] in state.spent
    if act == 'cut':
        return event['link'] not in state.links or not state.links[event['link']].can_be_cut()
    for name, actors in (('conn', state.connections), ('attempt', state.attempts), ('handshake', state.handshakes)):
        if name in event and act not in ('connect', 'refuse', 'resolve'):
            return is_over(actors, event[name], node)
    return None


def is_late(state, event):
    """Whether the deadline has come of what an event steps, so that it is not idle; where it waits for an answer, it has none."""
    one = {'dialer': state.dialers.get(event.get('node')), 'attempt': state.attempts.get(event.get('attempt')),
           'handshake': state.handshakes.get(event.get('handshake'))}.get(event['do'])
    if one is None or getattr(one, 'asking', None) is not None or getattr(one, 'finished', None) is not None:
        return False
    return one.deadline <= event['at']


def waiting_misfit(state, entry, event):
    """Why it is not idle, and nothing is pending."""
    queue = QUEUES[event['do']] % event if event['do'] in QUEUES else None
    if queue and state.queues.count(queue):
        return 'the reply is "%s", and something waits in %s' % (entry.reply, queue)
    if entry.reply == 'idle' and is_late(state, event):
        return 'the reply is "idle", and its deadline had come'
    if event['do'] in ('connect', 'refuse') and state.attempts[event['attempt']].has_address:
        return 'the reply is "pending", and the attempt has an address'
    return None


def keys_misfit(state, entry, event):
    """Why a send or a check is not told these keys."""
    admitted = admitted_of(state, event, state.offered(event, event['channel'], event['node']))
    if event['do'] == 'check':
        told, may_be_none = entry.reply.get('checked', []), False
    else:
        told = entry.reply.get('sent', admitted)
        may_be_none = event['node'] in state.stopped or bool(full_router(state, event['node']))
    if told == admitted or told == [] and may_be_none:
        return None
    return 'the reply is %s, and the quota admits the keys %s' % (reply_text(entry.reply), admitted)


def start_misfit(state, entry, event):
    """Why it does not subscribe to these channels; or, where it does not bind, why it does not end these items."""
    if stops_node(event):
        return stop_misfit(state, entry, event)
    due = [channel for node, channel in state.channels if node == event['node']]
    told = [item['subscribe'] for _, item in entry.puts]
    if told == due:
        return None
    return 'it subscribes to the channels %s, and those of node %d are %s' % (told, event['node'], due)


def cut_misfit(state, entry, event):
    """Why it does not end what is in flight over its link, first what the node wrote that dialed."""
    due = [name for side in ('out', 'in') for name, _ in state.queues.line('link:%d:%s' % (event['link'], side))]
    told = [end[1] for end in entry.ends if end[0] == 'item']
    if told == due:
        return None
    return 'it ends the items %s, and in flight over link %d are %s' % (list(map(list, told)), event['link'], list(map(list, due)))


def misfit(state, entry, event):
    """Why an entry cannot have its reply, if it cannot."""
    gone = is_gone(state, event)
    if gone is not None and gone != (entry.reply == 'gone'):
        return 'the reply is %s, and %s due' % (reply_text(entry.reply), '"gone" is' if gone else 'another is')
    after = after_misfit(state, entry, event)
    if after:
        return after
    if entry.reply in NOTHING:
        return waiting_misfit(state, entry, event)
    if event['do'] in ('send', 'check') and entry.reply != 'gone':
        return keys_misfit(state, entry, event)
    judge = {'start': start_misfit, 'stop': stop_misfit, 'cut': cut_misfit}.get(event['do'])
    return judge(state, entry, event) if judge and entry.reply != 'gone' else None
