"""The forms of addresses, and of peers with theirs."""
from samples import SOCKET
from words import U16, a_text, an_array, an_object, whole


def an_ip(field):
    numbers = an_array(field)
    if len(numbers) not in (4, 16):
        raise field.fault('an address has 4 or 16 numbers, as [10,0,0,2]; these are %d' % len(numbers))
    for number in numbers:
        whole(number, 0, 255)


def a_port(field):
    whole(field, 0, U16)


def a_socket(field):
    an_object(field, ['ip', 'port'])
    an_ip(field.at_name('ip'))
    a_port(field.at_name('port'))


def some_sockets(field):
    for item in an_array(field):
        a_socket(item)


def an_ingress(field):
    """Where a peer is dialed: an address, or a name that is looked up."""
    an_object(field, ['ip', 'host', 'port'])
    if not field.has('host'):
        a_socket(field)
        return
    an_object(field, ['host', 'port'])
    a_text(field.at_name('host'))
    a_port(field.at_name('port'))


def an_address(field):
    """A peer's address: one for both ways, or one for each."""
    an_object(field, ['symmetric', 'egress', 'ingress'])
    if field.has('symmetric'):
        an_object(field, ['symmetric'])
        a_socket(field.at_name('symmetric'))
    elif field.has('egress') or field.has('ingress'):
        a_socket(field.at_name('egress'))
        an_ingress(field.at_name('ingress'))
    else:
        raise field.due('either {"symmetric":%s} or {"egress":%s,"ingress":%s}' % (SOCKET, SOCKET, SOCKET))


def some_peers(field):
    """A list of peers: their keys, of which none repeats."""
    keys = set()
    for pair in an_array(field):
        parts = an_array(pair) if pair.value.kind == 'array' else []
        if len(parts) != 2:
            raise pair.due('an array of a key and an address', ', as [2,{"symmetric":%s}]' % SOCKET)
        key = whole(parts[0])
        an_address(parts[1])
        if key in keys:
            raise parts[0].fault('key %d stands in this list before' % key)
        keys.add(key)
    return keys
