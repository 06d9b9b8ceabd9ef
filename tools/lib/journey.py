"""The way of each copy through the queues, read off a report."""

NODE_QUEUES = frozenset('''
    router tracker spawner arrivals update dialer attempt handshake peers ready control high low held channel
'''.split())


def node_of(queue):
    """The node that a queue belongs to; a link has none."""
    kind, number, *rest = queue.split(':')
    return int(number) if kind in NODE_QUEUES and (kind != 'control' or rest) else None


def copies_carried(item):
    """The names of the copies that an item carries."""
    if not isinstance(item, dict):
        return []
    content = item.get('content')
    if isinstance(content, dict):
        send, to = content.get('send'), content.get('to')
        return [(send, place) for place in range(len(to))] if isinstance(send, int) and isinstance(to, list) else []
    copy = item.get('copy')
    is_name = isinstance(copy, list) and len(copy) == 2 and all(isinstance(part, int) for part in copy)
    return [tuple(copy)] if is_name else []


class Journey:
    """A copy: who sent it, for whom, on which channel, each queue that it entered and at which entry, and its fate."""

    def __init__(self, name, fate):
        self.name = name
        self.fate = fate
        self.steps = []
        self.sender = None
        self.sender_key = None
        self.channel = None
        self.recipient = None

    def add(self, entry, queue, item):
        self.steps.append((entry, queue))
        content = item.get('content')
        if isinstance(content, dict):
            self.sender = node_of(queue)
            self.channel = content.get('channel')
            self.recipient = content['to'][self.name[1]]
        elif 'from' in item:
            self.sender_key = item['from']

    def add_send(self, entry, event):
        """What a send or its check tells of a copy that entered no queue, and the script's event, where it is at hand."""
        told = entry.reply if isinstance(entry.reply, dict) else {}
        keys = told.get('sent', told.get('checked'))
        if self.recipient is None and isinstance(keys, list) and self.name[1] < len(keys):
            self.recipient = keys[self.name[1]]
        if self.sender is None and isinstance(event.get('node'), int):
            self.sender = event['node']
        if self.channel is None:
            self.channel = event.get('channel')

    def end_entry(self):
        """The entry at which it ended, if it did."""
        return self.fate[2] if len(self.fate) == 3 else None

    def end_text(self):
        if self.fate[0] == 'waiting':
            return 'waits in %s' % self.fate[1]
        if self.fate[0] == 'delivered':
            return 'delivered at %d' % self.fate[2]
        return 'dropped at %d: %s' % (self.fate[2], self.fate[1])


def asked_by(report, events, send):
    """The entry and the event that say whom a send is to: its own, or those of the check that it names."""
    event = events[send] if send < len(events) else {}
    check = event.get('check')
    if isinstance(check, int) and 0 <= check < min(send, len(report.entries)):
        return report.entries[check], events[check]
    return report.entries[send], event


def journeys(report, events):
    """The journeys of all copies, in order of send and place."""
    found = {name: Journey(name, fate) for name, fate in report.copies.items()}
    for entry in report.entries:
        for queue, item in entry.puts:
            for name in copies_carried(item):
                if name in found:
                    found[name].add(entry.number, queue, item)
    for (send, _), journey in found.items():
        journey.add_send(*asked_by(report, events, send))
    return [found[name] for name in sorted(found)]
