"""Why a dialer, an attempt, a listener or a handshake did nothing, was refused or ended without a connection."""
from why_words import Cause, began_none, count_of, ip_text, not_up, stopped


def why_dialer(state, entry, event):
    node = event['node']
    if entry.reply == 'gone':
        return not_up(state, node)
    dialer, queue = state.dialers[node], 'dialer:%d' % node
    if entry.reply == 'idle' and dialer.asking is not None:
        return Cause('nothing waits in %s: its question of entry %d waits in tracker:%d' % (queue, dialer.asking, node))
    if entry.reply == 'idle':
        return Cause('nothing waits in %s, and it asks again from %d on' % (queue, dialer.deadline))
    return None


def attempt_ended(state, number, node):
    """Why there is no attempt, or none any more."""
    if number not in state.attempts:
        return began_none(state, number, 'began no attempt', ', and it took no grant of a key')
    one = state.attempts[number]
    return None if one.ended is None else Cause('attempt %d ended at entry %d' % (number, one.ended), one.ended)


def why_attempt(state, entry, event):
    """A step: nothing waits, or the attempt ended without a connection."""
    one = state.attempts.get(event['attempt'])
    if entry.reply == 'gone':
        return attempt_ended(state, event['attempt'], event['node'])
    if entry.reply == 'idle':
        return Cause('nothing waits in attempt:%d:%d, and its deadline is %d' % (one.node, one.number, one.deadline))
    if not any('release' in told for _, told in entry.puts):
        return None
    item = state.item(entry.takes[0]) if entry.takes else None
    return why_gave_up(state, entry, one, item)


def why_gave_up(state, entry, one, item):
    """Why an attempt or a handshake ended without a connection, by what it took."""
    what = '%s %d' % ('attempt' if hasattr(one, 'ingress') else 'handshake', one.number)
    if item is None:
        return Cause('%s ended without a connection: its deadline %d had come' % (what, one.deadline))
    of = entry.takes[0][0]
    if item in ({'finished': True}, {'listen': True}):
        size = state.queues.count('spawner:%d' % one.node)
        return Cause('%s ended without a connection: spawner:%d holds %s, as many as it may'
                     % (what, one.node, count_of(size, 'message')))
    if isinstance(item, dict) and 'addresses' in item:
        return Cause('%s ended without a connection: none of the addresses of event %d may be dialed' % (what, of))
    told = 'it was refused' if item == 'refused' else ENDS.get(tuple(item) if isinstance(item, dict) else item)
    return told and Cause('%s ended without a connection: %s at entry %d' % (what, told, of), of)


ENDS = {
    ('finished',): 'it was told that no keys were exchanged',
    ('acceptable',): 'it was told that its peer may not connect',
    ('listen',): 'it was told that its peer is not reserved',
}


def why_resolve(state, entry, event):
    if entry.reply != 'gone':
        return None
    cause, number = attempt_ended(state, event['attempt'], event['node']), event['attempt']
    if cause:
        return cause
    one = state.attempts[number]
    if 'ip' in one.ingress:
        return Cause('attempt %d dials an address, which needs no look-up' % number)
    return Cause('attempt %d was told addresses by event %d' % (number, one.resolved))


def why_connect(state, entry, event):
    """A `connect` or a `refuse`."""
    number, one = event['attempt'], state.attempts.get(event['attempt'])
    if entry.reply == 'gone':
        return attempt_ended(state, number, event['node']) or Cause(
            'attempt %d was answered by event %d' % (number, one.answered))
    if entry.reply == 'pending':
        return Cause('attempt %d has no address to dial: %s' % (number, lacking(one)))
    if event['do'] == 'connect' and len(entry.puts) == 1:
        return Cause('the attempt is told that it is refused: %s' % not_up(state, event['to']).text)
    return None


def lacking(one):
    name = '"%s" is a name' % one.ingress.get('host')
    if one.resolved is None:
        return '%s, and no event resolved it yet' % name
    return '%s, and the attempt has not taken the addresses of event %d' % (name, one.resolved)


def why_listener(state, entry, event):
    node = event['node']
    if entry.reply == 'gone':
        return not_up(state, node)
    if entry.reply == 'idle':
        return Cause('%s; and none in update:%d' % (state.queues.nothing_waits('arrivals:%d' % node), node))
    if entry.reply in ('ok', 'admitted'):
        return None
    arrival = state.item(entry.takes[0])
    ip = ip_text(arrival['from']['ip'])
    if entry.reply == 'private':
        return Cause('the address %s is not global, and allow_private_ips of node %d is false' % (ip, node))
    if entry.reply == 'unregistered':
        told = state.addresses.get(node)
        known = 'took no addresses before' if told is None else 'took at entry %d %s' % (
            told[0], ', '.join(map(ip_text, told[1])) or 'that no peer has an address')
        return Cause('the address %s is not known: the listener of node %d %s' % (ip, node, known))
    if entry.reply == 'too_many':
        return Cause('node %d has as many handshakes that have not ended as it may: %d' % (
            node, state.configurations[node]['max_concurrent_handshakes']))
    return why_limited(state, entry, node, arrival['from']['ip'])


def why_limited(state, entry, node, ip):
    kinds = zip(('address', 'subnet'), entry.reply['limited'], state.gates(node, ip))
    return Cause('; '.join('the quota of the %s of %s admitted one last at event %s, and admits one from %d on'
                           % (kind, ip_text(ip), limiter.last, limiter.retry()) for kind, refuses, limiter in kinds if refuses))


def why_handshake(state, entry, event):
    number, one = event['handshake'], state.handshakes.get(event['handshake'])
    if entry.reply == 'gone' and one is None:
        return began_none(state, number, 'began no handshake', ', and it took no peer')
    if entry.reply == 'gone' and one.node != event['node']:
        return Cause('handshake %d is of node %d, not of node %d' % (number, one.node, event['node']))
    if entry.reply == 'gone':
        return Cause('handshake %d ended at entry %d' % (number, one.ended), one.ended)
    if entry.reply == 'idle':
        until = 'it took that keys were exchanged, so it has no deadline'
        until = until if one.finished is not None else 'its deadline is %d' % one.deadline
        return Cause('nothing waits in handshake:%d:%d, and %s' % (one.node, number, until))
    item = state.item(entry.takes[0]) if entry.takes else None
    if item in ({'acceptable': True}, {'finished': True}) or any('spawn' in told for _, told in entry.puts):
        return None
    return why_gave_up(state, entry, one, item)


def why_finish(state, entry, event):
    number, link = event['link'], state.links.get(event['link'])
    if link is None:
        return began_none(state, number, 'made no link')
    if entry.reply == 'gone':
        return Cause('event %d ended the exchange over link %d' % (link.finished, number))
    if entry.reply == 'pending':
        return not_accepted(state, link)
    if {'finished': False} in [told for _, told in entry.puts] or not entry.puts:
        return not_exchanged(state, link, event['ok'])
    return None


def why_cut(state, entry, event):
    """A cut of what is no link, or none any more."""
    number, link = event['link'], state.links.get(event['link'])
    if entry.reply != 'gone':
        return None
    if link is None:
        return began_none(state, number, 'made no link')
    if link.cut is not None:
        return Cause('event %d cut link %d' % (link.cut, number))
    last = max(link.dropped.values())
    return Cause('both ends of link %d were dropped, the last one at entry %d' % (number, last), last)


def not_accepted(state, link):
    """Why the handshake at a link has not taken yet that its peer may connect."""
    if link.handshake is None:
        return Cause('the peer has no handshake yet: it waits in arrivals:%d since entry %d' % (link.to, link.number))
    queue = 'handshake:%d:%d' % (link.to, link.handshake)
    if state.queues.count(queue):
        return Cause('handshake %d has not taken what waits in %s: no step of it was done' % (link.handshake, queue))
    return Cause('handshake %d was not told that its peer may connect: its question waits in tracker:%d'
                 % (link.handshake, link.to))


def not_exchanged(state, link, said):
    """Why no keys were exchanged over a link, in the order of the rules."""
    attempt, handshake = state.attempts[link.attempt], state.handshakes.get(link.handshake)
    text = 'keys were not exchanged: '
    if attempt.ended is not None:
        return Cause(text + 'attempt %d ended at entry %d' % (attempt.number, attempt.ended), attempt.ended)
    if link.turned_away is not None:
        return Cause(text + 'the listener of node %d did not admit the peer, at entry %d'
                     % (link.to, link.turned_away), link.turned_away)
    if handshake is not None and handshake.ended is not None:
        return Cause(text + 'handshake %d ended at entry %d' % (handshake.number, handshake.ended), handshake.ended)
    if handshake is None and 'in' in link.dropped:
        return Cause(text + stopped(state, link.to).text)
    if link.cut is not None:
        return Cause(text + 'event %d cut link %d' % (link.cut, link.number))
    if not said:
        return Cause(text + 'the event says so, with "ok":false')
    key = state.configurations[link.to]['key']
    if key != attempt.key:
        return Cause(text + 'node %d dialed key %d, and node %d has key %d' % (link.node, attempt.key, link.to, key))
    return None
