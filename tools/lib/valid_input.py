"""Valid input: the configurations and the events that may not be asked for. The first is the one that the program tells."""
from samples import either
from words import U64

MOST_BYTES = 16_777_200
MOST_TOLD = 5

# Which acts ask what these two take.
ASKED_BY = {'answer': ('peer_set',), 'next': ('subscribe', 'blocked')}

# How acts of two nodes name them.
TWO_NODES = {'connect': ('node', 'to')}


def with_article(word):
    return '%s %s' % ('an' if word[0] in 'aeiou' else 'a', word)


def configuration_fault(one, numbers):
    """Why a configuration is not valid, if it is not: sizes that a link and a count take, and a key of its own."""
    if one.said['max_message_size'] > MOST_BYTES:
        return one.fault('max_message_size', 'a link takes messages of at most %d bytes' % MOST_BYTES)
    sets = one.said['tracked_peer_sets']
    if one.said['max_peers_per_set'] * sets > U64:
        return one.fault('max_peers_per_set', 'the peers of %d retained sets cannot be counted in 64 bits' % sets)
    key = one.said['key']
    if key in numbers:
        return one.fault('key', 'key %d is that of configuration %d too; each node has a key of its own' % (key, numbers[key]))
    return None


def configuration_faults(configurations):
    """Each configuration that is not valid."""
    numbers, found = {}, []
    for one in configurations:
        fault = configuration_fault(one, numbers)
        found += [fault] if fault else []
        numbers.setdefault(one.said['key'], one.number)
    return found


class Past:
    """What the events so far have asked for."""

    def __init__(self, script):
        self.configurations = script.configurations
        self.events = script.events
        self.moment = 0
        self.started = {}
        self.capacities = [{} for _ in self.configurations]
        self.done = {}

    def node_fault(self, event, name):
        number, count = event.said[name], len(self.configurations)
        if number < count:
            return None
        return event.fault(name, 'there is no node %d: the script has %d configuration%s, and counts them from 0'
                           % (number, count, '' if count == 1 else 's'))

    def register_fault(self, event):
        node, channel = event.said['node'], event.said['channel']
        if node in self.started:
            return event.fault('node', 'node %d was started before, by event %d; channels are registered before the start'
                               % (node, self.started[node]))
        held = self.capacities[node]
        if channel in held:
            return event.fault('channel', 'channel %d is registered at node %d already; once is enough' % (channel, node))
        configuration = self.configurations[node].said
        capacity = configuration['max_peers_per_set'] * configuration['tracked_peer_sets'] * event.said['quota']
        if capacity > U64 or configuration['mailbox_size'] + sum(held.values()) + capacity > U64:
            return event.fault('quota', 'the messages that the channels of node %d hold cannot be counted in 64 bits' % node)
        held[channel] = capacity
        return None

    def start_fault(self, event):
        node = event.said['node']
        if node in self.started:
            return event.fault('node', 'node %d was started before, by event %d; a node starts once' % (node, self.started[node]))
        self.started[node] = event.number
        return None

    def naming_fault(self, event, name, due):
        """Why the event that this one names may not be named: it does not come before, or it is none of these acts."""
        number = event.said[name]
        kinds = ' or '.join(map(with_article, due))
        if number >= event.number:
            return event.fault(name, 'event %d does not come before this one; %s is due here%s'
                               % (number, kinds, self.which_may(event, due)))
        act = self.events[number].act
        if act not in due:
            return event.fault(name, 'event %d is %s, not %s%s' % (number, with_article(act), kinds, self.which_may(event, due)))
        return None

    def which_may(self, event, due):
        """The last few events before this one that it may name, as the end of a sentence."""
        node = event.said.get('node')
        found = sorted(number for act in due for number in self.done.get((act, node), [])[-MOST_TOLD:])[-MOST_TOLD:]
        if not found:
            return '; none%s stands before this one' % ('' if node is None else ' of node %d' % node)
        return '; it may name event %s' % either(list(map(str, found)))

    def own_fault(self, event, name, actor):
        """Why the event that this one names may not be named: it is no step before of this actor of the same node."""
        fault = self.naming_fault(event, name, [actor])
        if fault:
            return fault
        node, number = event.said['node'], event.said[name]
        owner = self.events[number].said['node']
        if node != owner:
            return event.fault(name, 'event %d is a step of the %s of node %d, not node %d%s'
                               % (number, actor, owner, node, self.which_may(event, [actor])))
        return None

    def connection_fault(self, event):
        return self.own_fault(event, 'conn', 'spawner')

    def attempt_fault(self, event):
        return self.own_fault(event, 'attempt', 'dialer')

    def handshake_fault(self, event):
        return self.own_fault(event, 'handshake', 'listener')

    def check_fault(self, event):
        return self.naming_fault(event, 'check', ['check'])

    def link_fault(self, event):
        return self.naming_fault(event, 'link', ['connect'])

    def question_fault(self, event):
        return self.naming_fault(event, 'question', ASKED_BY[event.act])

    def note(self, event):
        """Keeps the event by its act, and by its act and its node."""
        for node in {None, event.said.get('node')}:
            self.done.setdefault((event.act, node), []).append(event.number)

    def moment_fault(self, event):
        at, before = event.said['at'], self.moment
        self.moment = at
        if at < before:
            return event.fault('at', 'the moment %d is before that of the event before, %d; moments never go back' % (at, before))
        return None

    def node_faults(self, event):
        names = [name for name in TWO_NODES.get(event.act, ('node',)) if name in event.said]
        return [fault for fault in (self.node_fault(event, name) for name in names) if fault]

    def act_fault(self, event):
        judge = {'register': self.register_fault, 'start': self.start_fault, 'send_step': self.connection_fault,
                 'recv_step': self.connection_fault, 'answer': self.question_fault, 'next': self.question_fault,
                 'attempt': self.attempt_fault, 'resolve': self.attempt_fault, 'connect': self.attempt_fault,
                 'refuse': self.attempt_fault, 'handshake': self.handshake_fault, 'finish': self.link_fault,
                 'cut': self.link_fault, 'send_checked': self.check_fault}.get(event.act)
        return judge(event) if judge else None

    def fault_of(self, event):
        """Why this event may not be asked for, if it may not. It is noted in either case, for those after it."""
        found = [self.moment_fault(event), *self.node_faults(event)]
        if len(found) == 1:
            found.append(self.act_fault(event))
        self.note(event)
        return next(filter(None, found), None)


def event_faults(script):
    """Each event that is not valid."""
    past = Past(script)
    return [fault for fault in map(past.fault_of, script.events) if fault]
