"""Why a message was sent to fewer than it was for, or to nobody; and what becomes of its copies at the router and after it."""
from limiter import quota_text
from why_words import Cause, count_of, listed_keys, not_registered, stopped


def nobody(state, event, channel, node):
    """Why a message is for nobody."""
    if event['to'] != 'all':
        return Cause('its list of keys is empty')
    told = state.peers_told.get((node, channel))
    if told is None:
        return Cause('it is for all, and channel %d was told of no list of peers before' % channel)
    return Cause('it is for all, and the newest list of peers, of entry %d, is empty' % told[0])


def refused_by_quota(state, event, keys):
    """Which keys the quota of a channel refuses, in words, and when it admitted each last."""
    node, channel = event['node'], event['channel']
    quota = state.channels[node, channel][1]
    parts = []
    for key in sorted(set(keys)):
        last = state.limiter(quota, 'send', node, channel, key).last
        parts.append('key %d last at event %d' % (key, last) if last is not None else 'key %d at this event' % key)
    return 'the quota of channel %d (%s) admitted %s' % (channel, quota_text(quota), ', '.join(parts))


def left_out(offered, admitted):
    """The keys that were offered and not admitted, each as often as it was left out."""
    rest = list(admitted)
    return [key for key in offered if not (key in rest and not rest.remove(key))]


def admitted_of(state, event, offered):
    """The keys that the quota would admit, of which none counts."""
    quota = state.channels[event['node'], event['channel']][1]
    arrivals, found = {}, []
    for key in offered:
        limiter = state.limiter(quota, 'send', event['node'], event['channel'], key)
        arrival = max(arrivals.get(key, limiter.arrival), event['at']) + quota['period']
        if arrival <= event['at'] + quota['burst'] * quota['period']:
            arrivals[key] = arrival
            found.append(key)
    return found


def full_router(state, node):
    count, most = state.queues.count('router:%d' % node), state.router_capacity(node)
    return Cause('router:%d holds %s, as many as it may' % (node, count_of(most, 'message'))) if count >= most else None


def too_large(state, event, node):
    size, most = len(event['bytes']) // 2, state.configurations[node]['max_message_size']
    return Cause('it has %s, and max_message_size of node %d is %d' % (count_of(size, 'byte'), node, most))


def why_sent(state, entry, event):
    """A `send`, in the order in which it looks."""
    node, channel = event['node'], event['channel']
    if entry.reply == 'gone':
        return not_registered(state, node, channel)
    offered = state.offered(event, channel, node)
    admitted = admitted_of(state, event, offered)
    refused = left_out(offered, admitted)
    if offered and not admitted:
        return Cause('the message was sent to nobody: %s' % refused_by_quota(state, event, refused))
    if 'message_too_large' in entry.reply:
        return too_large(state, event, node)
    if not offered:
        return Cause('the message was sent to nobody: %s' % nobody(state, event, channel, node).text)
    if node in state.stopped:
        return Cause('the message was sent to nobody: %s' % stopped(state, node).text)
    if entry.reply['sent'] == [] and node in state.started:
        full = full_router(state, node)
        return full and Cause('the message was sent to nobody: %s' % full.text)
    if refused:
        return Cause('no copy for %s: %s' % (listed_keys(refused), refused_by_quota(state, event, refused)))
    return None


def why_checked(state, entry, event):
    """A `check`, likewise."""
    node, channel = event['node'], event['channel']
    if entry.reply == 'gone':
        return not_registered(state, node, channel)
    offered = state.offered(event, channel, node)
    refused = left_out(offered, admitted_of(state, event, offered))
    if refused:
        return Cause('%s not admitted: %s' % (listed_keys(refused), refused_by_quota(state, event, refused)))
    return None if offered else Cause('nobody is admitted: %s' % nobody(state, event, channel, node).text)


def why_send_checked(state, entry, event):
    check = event['check']
    node = state.events[check]['node']
    if check not in state.checks:
        return Cause('check %d admitted nobody' % check, check)
    if check in state.spent:
        return Cause('check %d was spent by event %d' % (check, state.spent[check]))
    if isinstance(entry.reply, dict) and 'message_too_large' in entry.reply:
        return too_large(state, event, node)
    if entry.reply == {'outcome': 'closed'}:
        return stopped(state, node)
    if entry.reply == {'outcome': 'rejected'}:
        return full_router(state, node)
    return None if state.checks[check] else Cause('it has no copies: check %d admitted nobody' % check, check)


def why_recv(state, entry, event):
    """A `recv` or a `close` of a channel."""
    node, channel = event['node'], event['channel']
    if entry.reply == 'gone':
        closed = state.closed.get((node, channel))
        if closed is not None:
            return Cause('the reader of channel %d of node %d was dropped by event %d' % (channel, node, closed))
        return not_registered(state, node, channel)
    none = state.queues.nothing_waits('channel:%d:%d' % (node, channel))
    return Cause(none if entry.reply == 'pending' else '%s, and %s' % (none, stopped(state, node).text))
