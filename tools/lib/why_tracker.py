"""Why a tracker refused what it was asked, or has no answer."""
from tracker_state import ip_of
from why_words import Cause, count_of, ip_text, not_up, stopped


def why_asked(state, entry, event):
    """A question that came to a full mailbox, or a set that is too large."""
    node = event['node']
    if 'peer_set_too_large' in entry.reply:
        return Cause('the set has %d keys, with the own key of node %d, and max_peers_per_set is %d'
                     % (entry.reply['peer_set_too_large'][0], node, state.configurations[node]['max_peers_per_set']))
    if entry.reply == {'feedback': 'closed'}:
        return stopped(state, node)
    count = state.queues.count('tracker:%d' % node)
    return Cause('tracker:%d holds %s already; it is kept all the same' % (node, count_of(count, 'message')))


def why_tracker(state, entry, event):
    """A step without a message, or one that refuses what the message asks."""
    node = event['node']
    if entry.reply == 'gone':
        return not_up(state, node)
    if entry.reply == 'idle':
        return Cause(state.queues.nothing_waits('tracker:%d' % node))
    item = state.item(entry.takes[0]) if entry.takes else {}
    told = entry.puts[0][1] if entry.puts else None
    if 'call' in item:
        return None if entry.puts else why_ignored(state.trackers[node], state.events[item['call']], item['call'], event['at'])
    if told in ({'acceptable': False}, {'listen': False}):
        asked = item.get('acceptable') or item['listen']
        return why_refused(state, node, asked['key'], event['at'], state.handshakes[asked['handshake']], 'listen' in item)
    if told == {'dial': None}:
        return why_no_dial(state, node, item['dial'], event['at'])
    if isinstance(told, dict) and told.get('dialable', {}).get('peers') == []:
        return why_nobody(state, node, event['at'])
    return why_dropped(state, item)


def why_ignored(tracker, asked, number, at):
    """Why what was asked changes nothing."""
    if asked['do'] == 'track' and tracker.newest is not None and asked['index'] <= tracker.newest[0]:
        return Cause('the set of event %d was not tracked: its index %d is not above %d, which was tracked at entry %d'
                     % (number, asked['index'], *tracker.newest))
    if asked['do'] == 'overwrite':
        said = '; '.join(unchanged(tracker, key) for key, _ in asked['peers']) or 'its list of peers is empty'
        return Cause('the overwrite of event %d changed no address: %s' % (number, said))
    if asked['do'] == 'block':
        cause = not_blocked(tracker, asked['key'], at)
        return cause and Cause('the block of event %d is no new one: %s' % (number, cause))
    return None


def unchanged(tracker, key):
    """Why an overwrite leaves the address of a key as it is."""
    if key == tracker.rules['key']:
        return 'key %d is the own key of the node' % key
    if key not in tracker.addresses:
        return 'key %d is in no set that is tracked' % key
    return 'key %d has that address already' % key


def not_blocked(tracker, key, at):
    if key == tracker.rules['key']:
        return 'key %d is the own key of the node' % key
    return 'key %d is blocked until %d, since entry %d' % (key, *tracker.blocks[key]) if tracker.is_blocked(key, at) else None


def why_dropped(state, item):
    """A question of a handshake that has ended."""
    asked = item.get('acceptable') or item.get('listen')
    one = state.handshakes.get(asked['handshake']) if isinstance(asked, dict) else None
    if one is None or one.ended is None:
        return None
    return Cause('no answer was put: handshake %d ended at entry %d' % (one.number, one.ended), one.ended)


def not_free(tracker, key, at):
    """Why a key is reserved for nobody now: it is the own one, not tracked, blocked or reserved already."""
    if key == tracker.rules['key']:
        return Cause('key %d is the own key of the node' % key)
    if not tracker.is_tracked(key):
        return Cause('key %d is in no set that is tracked' % key)
    if tracker.is_blocked(key, at):
        return Cause('key %d is blocked until %d, since entry %d' % (key, *tracker.blocks[key]))
    if key in tracker.holders:
        return Cause('key %d is reserved since entry %d' % (key, tracker.holders[key]))
    return None


def cooling(tracker, key, at):
    granted, entry = tracker.grants.get(key, (None, None))
    if granted is None or granted + tracker.rules['peer_connection_cooldown'] <= at:
        return None
    return Cause('key %d was granted at entry %d, and its cooldown ends at %d'
                 % (key, entry, granted + tracker.rules['peer_connection_cooldown']))


def why_refused(state, node, key, at, one, listens):
    """Why a handshake's peer may not connect, or is not reserved for it."""
    tracker = state.trackers[node]
    cause = not_free(tracker, key, at)
    source, address = one.source['ip'], tracker.addresses.get(key)
    if cause is None and not tracker.rules['bypass_ip_check'] and (address is None or ip_of(address) != source):
        known = 'no address of it is known' if address is None else 'it dials from %s' % ip_text(ip_of(address))
        return Cause('key %d came from %s, and %s' % (key, ip_text(source), known))
    return cause or (cooling(tracker, key, at) if listens else None)


def why_no_dial(state, node, key, at):
    tracker = state.trackers[node]
    cause = not_free(tracker, key, at) or cooling(tracker, key, at)
    if cause is None and not tracker.is_primary(key):
        return Cause('key %d is primary in no set that is tracked' % key)
    return cause or undialable(tracker, key)


def undialable(tracker, key):
    """Why an address may not be dialed, where all else is as it should be."""
    address = tracker.addresses[key]
    ingress = address.get('symmetric') or address['ingress']
    if 'host' in ingress:
        return Cause('key %d is dialed by the name "%s", and allow_dns is false' % (key, ingress['host']))
    return Cause('key %d is dialed at %s, which is not global, and allow_private_ips is false' % (key, ip_text(ingress['ip'])))


def why_nobody(state, node, at):
    """Why nobody is to be dialed."""
    tracker = state.trackers[node]
    keys = sorted({key for _, primary, secondary, _ in tracker.sets for key in primary + secondary} - {tracker.rules['key']})
    if not keys:
        return Cause('nobody is to be dialed: no set that is tracked has another key')
    return Cause('nobody is to be dialed: %s' % '; '.join(why_unlisted(tracker, key, at) for key in keys))


def why_unlisted(tracker, key, at):
    """Why a key of a set is not listed for a dial."""
    cause = not_free(tracker, key, at) or (None if tracker.is_primary(key) else Cause('key %d is primary in no set' % key))
    if cause:
        return cause.text
    granted, entry = tracker.grants.get(key, (None, None))
    wait = tracker.rules['peer_connection_cooldown']
    if granted is None or granted + wait + wait // 2 <= at or may_be_dialed(tracker, key) is False:
        return undialable(tracker, key).text
    if at < granted + wait or may_be_dialed(tracker, key):
        return 'key %d is listed again once the time since its grant at entry %d is over' % (key, entry)
    return 'of key %d no cause is told' % key


def may_be_dialed(tracker, key):
    """Whether the address of a key may be dialed; None, where that goes by whether it is global."""
    address = tracker.addresses[key]
    ingress = address.get('symmetric') or address['ingress']
    if 'host' in ingress:
        return tracker.rules['allow_dns']
    return tracker.rules['allow_private_ips'] or None


def why_answer(state, entry, event):
    """An `answer` or a `next`: it was taken, or does not wait yet."""
    question = event['question']
    node, asked = state.events[question]['node'], state.events[question]
    if entry.reply == 'gone':
        return Cause('the answer was taken by event %d' % state.answered[question])
    if node in state.stopped and not entry.takes:
        return Cause('nothing comes any more of event %d: %s' % (question, stopped(state, node).text))
    if entry.reply == {'peer_set': None}:
        return why_no_set(state, node, asked, entry)
    if question not in state.taken_calls:
        waiting = [name for name, item in state.queues.line('tracker:%d' % node)]
        before = next(place for place, name in enumerate(waiting) if name[0] == question)
        return Cause('the tracker of node %d has not taken event %d: it waits in tracker:%d%s'
                     % (node, question, node, ', behind %s' % count_of(before, 'message') if before else ''))
    queue = {'subscribe': 'updates', 'blocked': 'blocked', 'peer_set': 'answer'}[asked['do']]
    return Cause(state.queues.nothing_waits(next((one for one in state.queues.put_last if one.split(':')[0] == queue
                                                  and int(one.split(':')[-1]) == question), '%s:%d' % (queue, question))))


def why_no_set(state, node, asked, entry):
    """No set of this index was kept when the tracker took the question."""
    return Cause('no set of the index %d was kept at node %d at entry %d, which took the question'
                 % (asked['index'], node, entry.takes[0][0]))
