"""What may wait at a node, as far as its events show: it is no more than this. The ways of script_ways.py ask that."""
from presets import PRESETS
from script_form import ACT_FORMS

QUESTIONS = ('track', 'overwrite', 'block', 'peer_set', 'subscribe', 'blocked')
# Those after which peers may come from other addresses, and connections may be killed.
CHANGES = ('track', 'overwrite', 'block')
# Acts after which the tracker may have a message more.
ASKERS = ('dialer', 'handshake', 'attempt')


class Mailbox:
    """How many messages wait at most: those that came, and the releases of the connections that may have ended."""

    def __init__(self):
        self.came = 0
        self.releases = set()

    def most(self):
        return self.came + len(self.releases)

    def take(self):
        if self.came:
            self.came -= 1
        elif self.releases:
            self.releases.pop()


class Waits:
    """A node: what may wait for its parts, whom it tracks, and what became of its dials and its connections."""

    def __init__(self, node):
        self.node = node
        self.configuration = {**PRESETS.get(node.configuration['preset'], {}), **node.configuration}
        self.channels = set()
        self.sent_on = set()
        self.longest = 0
        self.is_up = False
        self.has_stopped = False
        self.router = Mailbox()
        self.tracker = Mailbox()
        self.is_changing = False
        self.was_changed_by_hand = False
        self.has_news = False
        self.arrivals = 0
        self.spawns = 0
        self.blocks = {}
        self.index = None
        self.sets = []
        self.was_dialed_by_hand = False
        self.dialed_at = None
        self.steps = {}
        self.peers = {}
        self.ended = set()
        self.links = {}
        self.cut = set()
        self.granted_at = {}

    def asked(self, do, said):
        """A question comes: to the set that is tracked, or to the addresses or the blocks."""
        self.tracker.came += 1
        if do == 'track':
            self.track(said['index'], dict(said['primary']), dict(said.get('secondary', [])))
        elif do == 'overwrite':
            for one in self.sets:
                one.update((key, address) for key, address in said['peers'] if key in one)
        elif do == 'block':
            self.blocks[said['key']] = None
        if do in CHANGES:
            self.is_changing = True
            self.was_changed_by_hand |= not self.node.script.is_on_a_way

    def sends(self, channel, size):
        self.router.came += 1
        self.sent_on.add(channel)
        self.longest = max(self.longest, size)

    def track(self, index, primary, secondary):
        """Of sets that rise and are not too large the newest are kept."""
        count = len({*primary, *secondary, self.node.key})
        if count <= self.configuration['max_peers_per_set'] and (self.index is None or index > self.index):
            self.index = index
            self.sets = [*self.sets, primary][-self.configuration['tracked_peer_sets']:]

    def tracked(self):
        """The primary peers of the sets that are kept, each with its newest address."""
        return {key: address for one in self.sets for key, address in one.items()}

    def has_due_blocks(self, at):
        return any(end is not None and end <= at for end in self.blocks.values())

    def tracker_step(self, at):
        """Where blocks have ended they end, and nothing is taken; else the oldest message is."""
        if self.has_due_blocks(at):
            self.blocks = {key: end for key, end in self.blocks.items() if end is None or end > at}
            self.has_news = True
            return
        self.has_news |= self.is_changing
        self.tracker.take()
        if not self.tracker.most():
            self.is_changing = False
            last = at + self.configuration['block_duration']
            self.blocks = {key: last if end is None else end for key, end in self.blocks.items()}

    def listener_step(self):
        """The newest addresses are taken before who arrived, of whom the tracker is asked."""
        self.tracker.came += self.arrivals > 0
        self.arrivals -= not self.has_news and self.arrivals > 0
        self.has_news = False

    def connection_step(self, do, conn):
        """The first step of the sending half tells the router and the tracker; the second takes an answer, and each other may end it."""
        self.steps[conn] = self.steps.get(conn, 0) + (do == 'send_step')
        if do == 'send_step' and self.steps[conn] == 1:
            self.router.came += 1
            self.tracker.came += 1
        elif (do == 'recv_step' or self.steps[conn] > 2) and may_end(self.node, conn, do):
            self.ended.add(conn)
            self.router.releases.add(conn)
            self.tracker.releases.add(conn)

    def linked(self, do, link):
        """What the end of an exchange, or the cut of a link, leaves."""
        if do == 'finish':
            self.spawns += 1
        else:
            self.cut.add(link)

    def turned(self, is_on):
        """The node starts, which it does not once it has stopped; or it stops, and its connections end."""
        if is_on and not self.has_stopped:
            self.is_up = True
            self.router.came += len(self.channels)
        elif not is_on:
            self.is_up, self.has_stopped = False, True
            self.ended.update(self.peers.values())

    def acted(self, do, said):
        """What an act of the node leaves."""
        if do == 'register':
            self.channels.add(said['channel'])
        elif do in ('start', 'stop'):
            self.turned(do == 'start' and said.get('bind', True))
        elif do == 'send':
            self.sends(said['channel'], len(said['bytes']) // 2)
        elif do == 'router':
            self.router.take()
        elif do == 'tracker':
            self.tracker_step(said['at'])
        elif do == 'listener':
            self.listener_step()
        elif do == 'spawner':
            self.spawns -= self.spawns > 0
        elif do in QUESTIONS:
            self.asked(do, said)
        elif do in ('send_step', 'recv_step'):
            self.connection_step(do, said['conn'])
        self.was_dialed_by_hand |= do == 'dialer' and not self.node.script.is_on_a_way
        self.tracker.came += do in ASKERS


def may_end(node, conn, do):
    """Whether a step may end a connection: of one that no way made; where its tracker may have killed it; where the peer sent what this
    node cannot take; and where the other end may have ended, or the link was cut."""
    peer = next((peer for peer, name in node.waits.peers.items() if name == conn), None)
    if peer is None:
        return True
    here, there = node.waits, peer.waits
    is_untakable = not there.sent_on <= here.channels or there.longest > here.configuration['max_message_size']
    is_broken = there.peers[node] in there.ended or here.links[conn] in here.cut
    return here.was_changed_by_hand or do == 'recv_step' and is_untakable or is_broken


def said_at(script, number):
    """What an event says, if there is one of this number."""
    return script.events[number].said if isinstance(number, int) and number < len(script.events) else {}


def waits_at(script, place):
    """What waits at a node, if there is one at this place."""
    return script.nodes[place].waits if isinstance(place, int) and place < len(script.nodes) else None


def note(script, event):
    """Notes what an event leaves at its nodes. One that lacks a name of its act leaves nothing."""
    said, do = event.said, event.said['do']
    if not set(ACT_FORMS.get(do, ['none'])) <= set(said):
        return
    if do in ('finish', 'cut'):
        linked = said_at(script, said['link'])
        for waits in filter(None, (waits_at(script, linked.get('node')), waits_at(script, linked.get('to')))):
            waits.linked(do, said['link'])
    if do == 'connect' and waits_at(script, said['to']):
        waits_at(script, said['to']).arrivals += 1
    if do == 'send_checked':
        said, do = {**said_at(script, said['check']), 'bytes': said['bytes']}, 'send'
    if waits_at(script, said.get('node')):
        waits_at(script, said['node']).acted(do, said)
