"""How each value of a script is written: one sample by its name, and a value as it stood there."""
import json

SOCKET = '{"ip":[10,0,0,2],"port":3000}'
PEERS = '[[2,{"symmetric":%s}]]' % SOCKET
QUOTA = '{"burst":1,"period":1000000000}'
SAMPLES = {
    'configs': '[{"key":1,"preset":"local","max_peers_per_set":2,"max_message_size":1024,"mailbox_size":4}]',
    'script': '[{"at":0,"do":"start","node":0}]',
    'key': '1',
    'preset': '"local"',
    'max_peers_per_set': '2',
    'max_message_size': '1024',
    'mailbox_size': '4',
    'allowed_handshake_rate_per_ip': QUOTA,
    'allowed_handshake_rate_per_subnet': QUOTA,
    'at': '0',
    'do': '"start"',
    'node': '0',
    'bind': 'true',
    'channel': '7',
    'quota': QUOTA,
    'burst': '1',
    'period': '1000000000',
    'bytes': '"68656c6c6f"',
    'priority': 'false',
    'to': '"all"',
    'one': '2',
    'some': '[2,3]',
    'check': '4',
    'conn': '24',
    'index': '0',
    'primary': PEERS,
    'secondary': PEERS,
    'peers': PEERS,
    'symmetric': SOCKET,
    'egress': SOCKET,
    'ingress': SOCKET,
    'ip': '[10,0,0,2]',
    'host': '"two.example"',
    'port': '3000',
    'question': '2',
    'attempt': '12',
    'addresses': '[%s]' % SOCKET,
    'from': '{"ip":[10,0,0,1],"port":40000}',
    'link': '13',
    'ok': 'true',
    'handshake': '16',
}
# What may stand at a name in several forms.
FORMS = {'to': ('"all"', '{"one":2}', '{"some":[2,3]}')}
MOST_SHOWN = 60


def either(words):
    """One of these, as words."""
    return ' or '.join(filter(None, [', '.join(words[:-1]), words[-1]]))


def as_sample(name):
    """How the value at this name is written, in the middle of a sentence."""
    return ', as %s' % SAMPLES[name] if name in SAMPLES else ''


def as_member(name):
    """How an object has this name, as the end of a sentence."""
    forms = FORMS.get(name, [SAMPLES[name]] if name in SAMPLES else [])
    return ', as in %s' % either(['"%s":%s' % (name, form) for form in forms]) if forms else ''


def text_of(value):
    """The text of a value of JSON, in which nothing stands between its parts."""
    if value.kind == 'object':
        return '{%s}' % ','.join('%s:%s' % (json.dumps(name), text_of(held)) for name, _, held in value.held)
    if value.kind == 'array':
        return '[%s]' % ','.join(map(text_of, value.held))
    return value.held if value.kind == 'number' else json.dumps(value.held)


def as_it_stood(value):
    """What stood there, as the end of a sentence; its front alone, where it is long."""
    text = text_of(value)
    return ', not %s' % (text if len(text) <= MOST_SHOWN else text[:MOST_SHOWN] + ' ..')
