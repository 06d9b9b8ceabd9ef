"""The values of a script's events: sockets, addresses, peers, quotas, bytes, durations."""
import ipaddress
from fractions import Fraction

MILLISECOND = 1_000_000
SECOND = 1_000_000_000


class BadSource(Exception):
    """What a source asks for makes no script, and why."""


def duration(seconds=0, milliseconds=0, nanoseconds=0):
    """A duration in nanoseconds, exactly: 0.1 is a tenth. What is no whole number of nanoseconds is refused."""
    found = Fraction(str(seconds)) * SECOND + Fraction(str(milliseconds)) * MILLISECOND + Fraction(str(nanoseconds))
    if found.denominator != 1 or found < 0:
        raise BadSource('%s s, %s ms and %s ns are no whole number of nanoseconds' % (seconds, milliseconds, nanoseconds))
    return int(found)


def quota(burst, period=SECOND):
    return {'burst': burst, 'period': period}


def socket(said):
    """A socket of a text, `10.0.0.2:3000` or `[2001:db8::2]:3000`, or as the format has it."""
    if isinstance(said, dict):
        return said
    ip, colon, port = said.rpartition(':')
    try:
        return {'ip': list(ipaddress.ip_address(ip.strip('[]')).packed), 'port': int(port)}
    except ValueError:
        raise BadSource('%r is no socket; write 10.0.0.2:3000, or [2001:db8::2]:3000' % said) from None


def name(host, port=3000):
    """An ingress that is looked up."""
    return {'host': host, 'port': port}


def address(said=None, egress=None, ingress=None):
    """The address of a peer: one socket for both ways, or one for each."""
    if egress is None and ingress is None:
        return said if isinstance(said, dict) else {'symmetric': socket(said)}
    return {'egress': socket(egress), 'ingress': socket(ingress)}


def egress_of(where):
    return where['symmetric'] if 'symmetric' in where else where['egress']


def ingress_of(where):
    return where['symmetric'] if 'symmetric' in where else where['ingress']


def some_bytes(said):
    """Bytes in hexadecimal; of a text those of its UTF-8."""
    return (said.encode('utf-8') if isinstance(said, str) else bytes(said)).hex()


def key_of(peer):
    """The key of a node, or a key."""
    return getattr(peer, 'key', peer)


def a_peer(peer):
    """A peer with its address: a node, or a pair of a key or a node and an address."""
    if hasattr(peer, 'key'):
        return [peer.key, peer.address]
    key, where = peer
    return [key_of(key), address(where)]


def some_peers(peers):
    return [a_peer(peer) for peer in peers]


def recipients(to):
    """Whom a message is for: 'all', a node or a key, or a list of these."""
    if to == 'all' or isinstance(to, dict):
        return to
    if isinstance(to, (list, tuple)):
        return {'some': [key_of(one) for one in to]}
    return {'one': key_of(to)}
