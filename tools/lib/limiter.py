"""A quota, as a run applies it: `burst` at once, and one more for each whole `period` since."""


def span_text(nanoseconds):
    for unit, size in (('s', 1_000_000_000), ('ms', 1_000_000)):
        if nanoseconds and nanoseconds % size == 0:
            return '%d %s' % (nanoseconds // size, unit)
    return '%d ns' % nanoseconds


def quota_text(quota):
    return 'burst %d, period %s' % (quota['burst'], span_text(quota['period']))


class Limiter:
    """What one quota has admitted: the moment until which it is used up, and the event that it admitted last."""

    def __init__(self, quota):
        self.quota = quota
        self.arrival = 0
        self.last = None

    def admits(self, at):
        return max(self.arrival, at) + self.quota['period'] <= at + self.quota['burst'] * self.quota['period']

    def count(self, at, event):
        """Notes that it admitted one at this moment, by this event."""
        self.arrival = max(self.arrival, at) + self.quota['period']
        self.last = event

    def retry(self):
        """The moment from which it admits one again."""
        return max(0, self.arrival + self.quota['period'] - self.quota['burst'] * self.quota['period'])
