"""What a node's tracker knows before an entry: its sets, addresses, blocks and reservations."""


def keys_of(peers):
    return [key for key, _ in peers]


def ip_of(address):
    """The address from which a peer dials."""
    return (address.get('symmetric') or address.get('egress'))['ip']


class Tracker:
    """A tracker, by the messages that it took, each with the entry at which it did."""

    def __init__(self, configuration):
        self.rules = configuration
        self.sets = []
        self.newest = None
        self.addresses = {}
        self.blocks = {}
        self.holders = {}
        self.grants = {}

    def is_tracked(self, key):
        return any(key in primary or key in secondary for _, primary, secondary, _ in self.sets)

    def is_primary(self, key):
        return any(key in primary for _, primary, _, _ in self.sets)

    def end_lives(self):
        """What is known of a key ends where it is neither tracked nor reserved."""
        for known in (self.addresses, self.grants):
            for key in [key for key in known if not self.is_tracked(key) and key not in self.holders]:
                del known[key]

    def track(self, event, entry):
        if self.newest is not None and event['index'] <= self.newest[0]:
            return
        given = {**dict(event.get('secondary', [])), **dict(event['primary'])}
        self.newest = event['index'], entry
        self.sets.append((event['index'], keys_of(event['primary']), keys_of(event.get('secondary', [])), entry))
        self.sets = self.sets[-self.rules['tracked_peer_sets']:]
        self.give({key: address for key, address in given.items() if key != self.rules['key']})
        self.end_lives()

    def give(self, addresses):
        for key, address in addresses.items():
            if self.is_tracked(key) or key in self.holders:
                self.addresses[key] = address

    def block(self, key, at, entry):
        if key != self.rules['key'] and not self.is_blocked(key, at):
            self.blocks[key] = at + self.rules['block_duration'], entry

    def is_blocked(self, key, at):
        return key in self.blocks and at < self.blocks[key][0]

    def unblock(self, at):
        self.blocks = {key: block for key, block in self.blocks.items() if at < block[0]}

    def grant(self, key, at, entry):
        self.holders[key] = entry
        self.grants[key] = at, entry

    def release(self, key):
        self.holders.pop(key, None)
        self.end_lives()

    def take(self, item, events, at, entry):
        """Does what a message asks that it took."""
        event = events[item['call']] if 'call' in item else {}
        if event.get('do') == 'track':
            self.track(event, entry.number)
        elif event.get('do') == 'overwrite':
            self.give({key: address for key, address in event['peers'] if key != self.rules['key']})
        elif event.get('do') == 'block':
            self.block(event['key'], at, entry.number)
        elif 'release' in item:
            self.release(item['release'])
        for _, told in entry.puts:
            if isinstance(told, dict) and (told.get('dial') or told.get('listen') is True):
                self.grant(told['dial']['key'] if told.get('dial') else item['listen']['key'], at, entry.number)
