"""What a picture says of an entry, in words: its act, its reply, and each item that it put."""
import json

from journey import copies_carried, node_of
from stopping import stops_node
from why import is_refusal
from why_words import ip_text

CONTROL = '#5b6470'
DROPPED = '#c0262d'
REFUSED = '#b45309'
PING = '#777'
MOST_OF_AN_ITEM = 26


def short(words, most):
    return words if len(words) <= most else words[:most - 1] + '…'


def peers_text(peers):
    """The keys of a peer set, each role after the other, or that there is none."""
    return 'none' if not isinstance(peers, dict) else '%s, %s' % (peers.get('primary'), peers.get('secondary'))


def limited_text(refuses):
    """Which quotas refuse who arrived: that of the address, that of its subnet, or both."""
    by = [name for name, refused in zip(('address', 'subnet'), refuses) if refused]
    return 'limited by %s' % ('both' if len(by) == 2 else ''.join(by))


def reply_text(reply):
    if isinstance(reply, dict) and len(reply) == 1:
        (name, value), = reply.items()
        if name == 'message' and isinstance(value, dict):
            return 'message from key %s' % value.get('from')
        if name == 'update' and isinstance(value, dict):
            return 'update %s' % value.get('index')
        if name == 'peer_set':
            return 'peer set %s' % peers_text(value)
        if name in ('outcome', 'ended'):
            return str(value)
        if name == 'limited' and isinstance(value, list):
            return limited_text(value)
        return '%s %s' % (name, value)
    return str(reply)


def refuses(reply):
    """Whether a reply says that nothing came of the event: that it is gone, pending, idle, false or the like."""
    return isinstance(reply, (str, dict)) and is_refusal(reply)


def event_text(event):
    """The act of a script's event and what it names."""
    if not isinstance(event.get('do'), str):
        return ''
    asked = [event[name] for name in ('question', 'link', 'check') if name in event]
    if asked:
        return '%s of event %s: ' % (event['do'], asked[0])
    begun = [event[name] for name in ('attempt', 'handshake') if name in event]
    plain = 'start that does not bind' if event.get('bind') is False else event['do']
    act = '%s of event %s' % (plain, begun[0]) if begun else plain
    return 'node %s %s: ' % (event['node'], act) if 'node' in event else '%s: ' % act


def end_text(event, reply):
    """What ends at an entry, a connection or its node; nothing, where neither does."""
    if isinstance(reply, dict) and 'ended' in reply:
        return 'connection ended: %s' % reply['ended']
    return 'node stopped' if stops_node(event) and reply == 'ok' else None


def is_ping(queue, item):
    """Whether a put is a ping that is written to a link, which no copy has, or one that is held."""
    return item == 'ping' or (queue.startswith('link:') and isinstance(item, dict) and item.get('copy', queue) is None)


def plain_text(value):
    """A value as JSON has it, and a text without its quotes."""
    return value if isinstance(value, str) else json.dumps(value, ensure_ascii=False)


def is_address(value):
    return isinstance(value, list) and len(value) in (4, 16) and all(isinstance(part, int) and 0 <= part < 256 for part in value)


def named_text(name, value):
    """An item that is an object: its name, and what a reader looks for in it."""
    if isinstance(value, dict):
        value = value.get('key', value.get('peers', value))
    if name == 'addresses' and isinstance(value, list):
        return 'addresses: %d' % len(value)
    return '%s %s' % (name, plain_text(value))


def content_of(queue, item):
    """What an item is, shortly."""
    if is_ping(queue, item):
        return 'ping'
    if isinstance(item, dict):
        if 'content' in item:
            return 'message to nobody'
        if 'link' in item and 'key' in item:
            return 'arrival of key %s' % item['key']
        return ', '.join(named_text(*part) for part in item.items())
    if isinstance(item, list) and item and all(map(is_address, item)):
        return ', '.join(map(ip_text, item)) if len(item) < 3 else '%d addresses' % len(item)
    return plain_text(item)


def queue_text(queue):
    """A queue without its node, beside whose line it is told."""
    kind, *rest = queue.split(':')
    return ' '.join([kind, *rest[node_of(queue) is not None:]]) if kind != 'link' else queue


def says_false(item):
    return item is None or item is False or isinstance(item, dict) and any(value is False or value is None for value in item.values())


def item_label(queue, item):
    """What is told of a put that carries no copy, and in which colour; nothing of one that does."""
    if copies_carried(item):
        return None
    words = '%s → %s' % (short(content_of(queue, item), MOST_OF_AN_ITEM), queue_text(queue))
    if is_ping(queue, item):
        return words, PING
    if item in ('kill', 'refused'):
        return words, DROPPED
    return words, REFUSED if says_false(item) else CONTROL
