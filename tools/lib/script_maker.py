"""Makes a script: its nodes, its channels and its events, which go by the values that the acts answer."""
from script_node import Node
from script_text import script_text
from script_values import SECOND, BadSource, duration, quota, some_bytes
from script_waits import note

REQUIRED = ['preset', 'max_peers_per_set', 'max_message_size', 'mailbox_size']
OPTIONAL = [
    'tracked_peer_sets', 'send_batch_size', 'ping_frequency', 'allow_private_ips', 'allow_dns', 'bypass_ip_check',
    'peer_connection_cooldown', 'block_duration', 'max_concurrent_handshakes', 'allowed_handshake_rate_per_ip',
    'allowed_handshake_rate_per_subnet', 'handshake_timeout', 'dial_timeout', 'dial_frequency',
]


class Event:
    """An event of a script, which stands for its number wherever that is due."""

    def __init__(self, script, number, said):
        self.script = script
        self.number = number
        self.said = said

    @property
    def at(self):
        """Its moment in nanoseconds."""
        return self.said['at']


class Channel:
    """A channel with the quota that the nodes register for it, unless they name another."""

    def __init__(self, number, quota):
        self.number = number
        self.quota = quota


class Script:
    """The nodes and the events so far. What is named here counts in the configuration of each node that names no other."""

    def __init__(self, **configuration):
        self.configuration = configuration
        self.nodes = []
        self.events = []
        self.moment = 0
        self.is_on_a_way = False

    # ---- nodes, channels, moments

    def node(self, key, address=None, **configuration):
        """A node with this key. Its address is 10.0.0.1:3000 for the first, 10.0.0.2:3000 for the second, and so on, if left out."""
        said = {**self.configuration, **configuration}
        missing = [name for name in REQUIRED if name not in said]
        unknown = [name for name in said if name not in REQUIRED + OPTIONAL]
        if missing or unknown:
            raise BadSource('the configuration of key %s %s `%s`' % (
                key, 'lacks' if missing else 'has the unknown name', (missing or unknown)[0]))
        place = len(self.nodes)
        if address is None and place > 254:
            raise BadSource('node %d has an address of its own: name it' % place)
        ordered = {name: said[name] for name in REQUIRED + list(said)}
        self.nodes.append(Node(self, place, {'key': key, **ordered}, address or '10.0.0.%d:3000' % (place + 1)))
        return self.nodes[-1]

    def channel(self, number, burst=1, period=SECOND):
        return Channel(number, quota(burst, period))

    def at(self, moment):
        """The moment in nanoseconds of the events from here on."""
        if moment < self.moment:
            raise BadSource('the moment %d is before that of the events so far, %d' % (moment, self.moment))
        self.moment = moment

    def wait(self, seconds=0, milliseconds=0, nanoseconds=0):
        """The moment goes on by this."""
        self.at(self.moment + duration(seconds, milliseconds, nanoseconds))

    # ---- events

    def event(self, do, seed=None, **names):
        """Any event: its act, and the names of that act; one that Python keeps for itself has a `_` behind it, as `from_`."""
        said = {'at': self.moment}
        if seed is not None:
            said['seed'] = seed
        said['do'] = do
        said.update((name.rstrip('_'), self.plain(value)) for name, value in names.items())
        self.events.append(Event(self, len(self.events), said))
        note(self, self.events[-1])
        return self.events[-1]

    def plain(self, value):
        """A value as JSON has it: an event, a node and a channel are their numbers."""
        if isinstance(value, (Event, Node)) and value.script is not self:
            raise BadSource('a value of another script stands here')
        if isinstance(value, (Event, Channel)):
            return value.number
        if isinstance(value, Node):
            return value.place
        if isinstance(value, (list, tuple)):
            return [self.plain(one) for one in value]
        if isinstance(value, dict):
            return {name: self.plain(one) for name, one in value.items()}
        return value

    def send_checked(self, check, bytes, priority=False):
        return self.event('send_checked', check=check, bytes=some_bytes(bytes), priority=priority)

    def answer(self, question):
        return self.event('answer', question=question)

    def next(self, question):
        return self.event('next', question=question)

    def finish(self, link, ok=True):
        return self.event('finish', link=link, ok=ok)

    def cut(self, link):
        return self.event('cut', link=link)

    # ---- what is made of it

    def text(self):
        return script_text([node.configuration for node in self.nodes], [event.said for event in self.events])

