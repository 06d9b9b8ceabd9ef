"""What stands in each queue before an entry, and where each item that left it went."""
from collections import OrderedDict


class Queues:
    """For each queue the items that stand in it, oldest first, and what was put and has gone."""

    def __init__(self):
        self.standing = {}
        self.put_last = {}
        self.gone_last = {}
        self.home = {}

    def line(self, queue):
        """The items that stand in a queue, each with its name."""
        return list(self.standing.get(queue, {}).items())

    def count(self, queue):
        return len(self.standing.get(queue, ()))

    def step(self, entry):
        """What an entry takes, ends and puts."""
        for name in entry.takes + [end[1] for end in entry.ends if end[0] == 'item']:
            queue = self.home[name]
            self.standing[queue].pop(name, None)
            self.gone_last[queue] = entry.number
        for place, (queue, item) in enumerate(entry.puts):
            name = entry.number, place
            self.home[name] = queue
            self.standing.setdefault(queue, OrderedDict())[name] = item
            self.put_last[queue] = entry.number

    def nothing_waits(self, queue):
        """That nothing stands there, with the last that was taken of it or put there."""
        if queue not in self.put_last:
            return 'nothing waits in %s: nothing was put there yet' % queue
        return 'nothing waits in %s: the last item left it at entry %d' % (queue, self.gone_last[queue])
