"""What a run has come to before an entry, read off the entries and events before it."""
from actors import Attempt, Connection, Dialer, Handshake, Link
from limiter import Limiter
from presets import whole_configuration
from queue_state import Queues
from stopping import stops_node, that_run
from tracker_state import Tracker


def recipients_of(to):
    """The keys that a message names, or None for all."""
    return None if to == 'all' else [to['one']] if 'one' in to else to['some']


class RunState:
    """The state of a run, which steps from entry to entry."""

    def __init__(self, configurations, events):
        self.configurations = [whole_configuration(one) for one in configurations]
        self.events = events
        self.queues = Queues()
        self.started = {}
        self.stopped = {}
        self.channels = {}
        self.closed = {}
        self.peers_told = {}
        self.checks = {}
        self.spent = {}
        self.connections = {}
        self.routes = {}
        self.unrouted = {}
        self.attempts = {}
        self.handshakes = {}
        self.links = {}
        self.dialers = {}
        self.addresses = {}
        self.limiters = {}
        self.trackers = [Tracker(one) for one in self.configurations]
        self.answered = {}
        self.taken_calls = {}
        self.replies = {}
        self.served = {}

    def limiter(self, quota, *name):
        """The limiter of this name."""
        return self.limiters.setdefault(name, Limiter(quota))

    def taken(self, entry):
        """The items that an entry takes."""
        return [self.item(name) for name in entry.takes]

    def item(self, name):
        return self.queues.standing[self.queues.home[name]][name]

    def offered(self, event, channel, node):
        """The keys for which a message or a check is."""
        keys = recipients_of(event['to'])
        return self.peers_told.get((node, channel), (None, []))[1] if keys is None else keys

    def admit(self, event, number, keys):
        """The keys of these that the quota of a channel admits, which it counts."""
        node, channel = event['node'], event['channel']
        quota = self.channels[node, channel][1]
        found = []
        for key in keys:
            limiter = self.limiter(quota, 'send', node, channel, key)
            if limiter.admits(event['at']):
                limiter.count(event['at'], number)
                found.append(key)
        return found

    def router_capacity(self, node):
        held = sum(capacity for (one, _), (_, _, capacity) in self.channels.items() if one == node)
        return self.configurations[node]['mailbox_size'] + held

    def step(self, entry):
        """Goes over an entry."""
        event = self.events[entry.number]
        items = self.taken(entry)
        act = getattr(self, 'did_' + event['do'], None)
        if act:
            act(entry, event, items)
        self.replies[entry.number] = entry.reply
        self.queues.step(entry)
        for queue, item in entry.puts:
            kind, *names = queue.split(':')
            if kind == 'peers':
                self.peers_told[int(names[0]), int(names[1])] = entry.number, item

    def is_up(self, node):
        """Whether a node has started, and has not stopped."""
        return node in self.started and node not in self.stopped

    def did_register(self, entry, event, _):
        if entry.reply == 'gone':
            return
        self.channels[event['node'], event['channel']] = entry.number, event['quota'], entry.reply['capacity']

    def did_start(self, entry, event, _):
        if stops_node(event):
            self.did_stop(entry, event, _)
        elif entry.reply == 'ok':
            self.started[event['node']] = entry.number
            self.dialers[event['node']] = Dialer(event['at'])

    def did_stop(self, entry, event, _):
        """Its attempts, handshakes and connections end, and its ends of links are dropped."""
        if entry.reply != 'ok':
            return
        node = event['node']
        self.stopped[node] = entry.number
        for one in [one for actors in (self.attempts, self.handshakes, self.connections) for one in that_run(actors, node)]:
            one.ended = entry.number
            one.reason = 'its node stopped'
        for link in self.links.values():
            for side, holder in (('out', link.node), ('in', link.to)):
                if holder == node:
                    link.dropped.setdefault(side, entry.number)

    def did_send(self, entry, event, _):
        if entry.reply != 'gone':
            self.admit(event, entry.number, self.offered(event, event['channel'], event['node']))

    def did_check(self, entry, event, items):
        self.did_send(entry, event, items)
        if isinstance(entry.reply, dict) and 'checked' in entry.reply:
            self.checks[entry.number] = entry.reply['checked']

    def did_send_checked(self, entry, event, _):
        if event['check'] in self.checks:
            self.spent.setdefault(event['check'], entry.number)

    def did_close(self, entry, event, _):
        if entry.reply == 'ok':
            self.closed[event['node'], event['channel']] = entry.number

    def did_router(self, entry, event, items):
        for item in items:
            if 'ready' in item:
                self.routes[event['node'], item['ready']['key']] = item['ready']['conn'], entry.number
            elif 'release' in item:
                self.routes.pop((event['node'], item['release']), None)
                self.unrouted[event['node'], item['release']] = entry.number

    def did_spawner(self, entry, event, items):
        for item in items:
            link = self.links[item['spawn']['link']]
            side = 'out' if link.node == event['node'] else 'in'
            self.connections[entry.number] = Connection(entry.number, event['node'], item['spawn']['key'], link.number, side)

    def did_send_step(self, entry, event, items):
        one = self.connections.get(event['conn'])
        if one and entry.reply == 'ok':
            frequency = self.configurations[one.node]['ping_frequency']
            if one.begun is None:
                one.begun = entry.number
            elif one.running is None:
                one.running, one.counted = entry.number, event['at']
            elif one.counted + frequency <= event['at']:
                one.counted = event['at']
        self.ended_connection(entry, one)

    def did_recv_step(self, entry, event, items):
        one = self.connections.get(event['conn'])
        if one and entry.reply == 'ok' and not any(queue.startswith('held:') for queue, _ in entry.puts):
            for item in items:
                name, quota = self.metered(one, item)
                if quota:
                    self.limiter(quota, 'link', one.number, name).count(event['at'], entry.number)
        self.ended_connection(entry, one)

    def metered(self, one, item):
        """What counts for an item that came over a connection, and its quota."""
        if item == 'ping' or isinstance(item, dict) and item.get('copy', 0) is None:
            return 'ping', {'burst': 1, 'period': max(1, self.configurations[one.node]['ping_frequency'] // 2)}
        channel = item['channel'] if 'channel' in item else self.channel_of(item['copy'])
        return channel, self.channels.get((one.node, channel), (0, None, 0))[1]

    def channel_of(self, copy):
        """The channel on which a copy was sent."""
        event = self.events[copy[0]]
        return self.events[event['check']]['channel'] if 'check' in event else event['channel']

    def ended_connection(self, entry, one):
        if one and isinstance(entry.reply, dict) and 'ended' in entry.reply:
            one.ended, one.reason = entry.number, entry.reply['ended']
            self.links[one.link].dropped[one.side] = entry.number

    def did_tracker(self, entry, event, items):
        tracker = self.trackers[event['node']]
        if entry.reply != 'ok':
            return
        if not items:
            tracker.unblock(event['at'])
        for item in items:
            self.served[entry.number] = item
            if 'call' in item:
                self.taken_calls[item['call']] = entry.number
            tracker.take(item, self.events, event['at'], entry)

    def did_answer(self, entry, event, _):
        if isinstance(entry.reply, dict):
            self.answered[event['question']] = entry.number

    def did_dialer(self, entry, event, items):
        if entry.reply != 'ok':
            return
        node, item = event['node'], items[0] if items else None
        pace = self.configurations[node]
        self.dialers[node].step(entry, item, event, pace)
        if isinstance(item, dict) and item.get('dial'):
            self.attempts[entry.number] = Attempt(entry.number, node, item['dial'], event['at'] + pace['dial_timeout'])

    def did_attempt(self, entry, event, items):
        one, item = self.attempts.get(event['attempt']), items[0] if items else None
        if one is None or entry.reply != 'ok':
            return
        if item == 'linked':
            one.linked = entry.number
            one.deadline = min(one.deadline, event['at'] + self.configurations[one.node]['handshake_timeout'])
        elif any('spawn' in told or 'release' in told for _, told in entry.puts):
            one.ended, one.end = entry.number, item
            if any('release' in told for _, told in entry.puts) and one.answered in self.links:
                self.links[one.answered].dropped['out'] = entry.number
        else:
            one.has_address = True

    def did_resolve(self, entry, event, _):
        if entry.reply == 'ok':
            self.attempts[event['attempt']].resolved = entry.number

    def did_refuse(self, entry, event, _):
        if entry.reply == 'ok':
            self.attempts[event['attempt']].answered = entry.number

    def did_connect(self, entry, event, items):
        self.did_refuse(entry, event, items)
        if entry.reply == 'ok' and len(entry.puts) == 2:
            self.links[entry.number] = Link(entry.number, event['node'], event['attempt'], event['to'])

    def did_finish(self, entry, event, _):
        if entry.reply == 'ok' and event['link'] in self.links:
            self.links[event['link']].finished = entry.number

    def did_cut(self, entry, event, _):
        if entry.reply == 'ok' and event['link'] in self.links:
            self.links[event['link']].cut = entry.number

    def did_listener(self, entry, event, items):
        item = items[0] if items else None
        if isinstance(item, list):
            self.addresses[event['node']] = entry.number, item
        if not isinstance(item, dict):
            return
        self.passed_gates(entry, event, item)
        link = self.links[item['link']]
        if entry.reply == 'admitted':
            link.handshake = entry.number
            deadline = event['at'] + self.configurations[event['node']]['handshake_timeout']
            self.handshakes[entry.number] = Handshake(entry.number, event['node'], item, deadline)
        else:
            link.turned_away = link.dropped['in'] = entry.number

    def gates(self, node, ip):
        """The limiters of an address and of its subnet."""
        rules = self.configurations[node]
        subnet = ip[:3] if len(ip) == 4 else ip[:6]
        return (self.limiter(rules['allowed_handshake_rate_per_ip'], 'address', node, *ip),
                self.limiter(rules['allowed_handshake_rate_per_subnet'], 'subnet', node, len(ip), *subnet))

    def passed_gates(self, entry, event, item):
        """Counts an arrival for the two quotas, where it came to them."""
        if entry.reply in ('private', 'unregistered'):
            return
        refused = entry.reply['limited'] if isinstance(entry.reply, dict) else [False, False]
        for limiter, refuses in zip(self.gates(event['node'], item['from']['ip']), refused):
            if not refuses:
                limiter.count(event['at'], entry.number)

    def did_handshake(self, entry, event, items):
        one, item = self.handshakes.get(event['handshake']), items[0] if items else None
        if one is None or entry.reply != 'ok':
            return
        if item == {'acceptable': True}:
            one.accepted = entry.number
        elif item == {'finished': True}:
            one.finished = entry.number
        else:
            one.ended, one.end = entry.number, item
            if not any('spawn' in told for _, told in entry.puts):
                self.links[one.link].dropped['in'] = entry.number
