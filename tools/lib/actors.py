"""The connections, attempts, handshakes, links and dialers of a run, as far as they are."""


class Connection:
    """A connection, by the step of the spawner that made it."""

    def __init__(self, number, node, key, link, side):
        self.number = number
        self.node = node
        self.key = key
        self.link = link
        self.side = side
        self.begun = None
        self.running = None
        self.counted = None
        self.ended = None
        self.reason = None

    def frames(self):
        """The queue of the frames that come to it."""
        return 'link:%d:%s' % (self.link, 'in' if self.side == 'out' else 'out')


class Attempt:
    """An attempt to dial, by the step of the dialer that began it."""

    def __init__(self, number, node, grant, deadline):
        self.number = number
        self.node = node
        self.key = grant['key']
        self.ingress = grant['ingress']
        self.has_address = 'ip' in grant['ingress']
        self.deadline = deadline
        self.resolved = None
        self.answered = None
        self.linked = None
        self.ended = None
        self.end = None


class Handshake:
    """A handshake, by the step of the listener that began it."""

    def __init__(self, number, node, arrival, deadline):
        self.number = number
        self.node = node
        self.key = arrival['key']
        self.link = arrival['link']
        self.source = arrival['from']
        self.deadline = deadline
        self.accepted = None
        self.finished = None
        self.ended = None
        self.end = None


class Link:
    """A link, by the `connect` that made it: who dialed, by which attempt, at whom it arrived, what became of the arrival, which of
    its ends were dropped, and by which event it was cut."""

    def __init__(self, number, node, attempt, to):
        self.number = number
        self.node = node
        self.attempt = attempt
        self.to = to
        self.handshake = None
        self.turned_away = None
        self.finished = None
        self.dropped = {}
        self.cut = None

    def can_be_cut(self):
        """Whether it was not cut, and one of its ends stands."""
        return self.cut is None and len(self.dropped) < 2


class Dialer:
    """A dialer: when it asked whom to dial, for what it waits, how many keys it has yet to dial, and its deadline."""

    def __init__(self, at):
        self.deadline = at
        self.asked_at = at
        self.asking = None
        self.keys = 0

    def step(self, entry, item, event, pace):
        """What a step makes of it that took this item, or none."""
        at, frequency = event['at'], pace['dial_frequency']
        asked = next((told for _, told in entry.puts if isinstance(told, dict)), {})
        if isinstance(item, dict) and 'dialable' in item:
            self.told(item['dialable'], frequency, pace['peer_connection_cooldown'])
        elif item is None and 'dial' in asked:
            self.deadline = at + frequency
        self.asking = entry.number if asked else None
        if 'dial' in asked:
            self.keys -= 1
        elif asked:
            self.asked_at = at

    def told(self, answer, frequency, cooldown):
        """Whom it may dial, and when to ask again."""
        self.keys = len(answer['peers'])
        soon, late = self.asked_at + frequency, self.asked_at + cooldown
        if self.keys:
            self.deadline = soon
        else:
            again = late if answer['next'] is None else int(answer['next'])
            self.deadline = min(max(again, soon), max(late, soon))
