"""Moments and durations in words."""

SECOND = 1000000000
MOST_IN_NANOSECONDS = 1000000


def duration_text(nanoseconds):
    """Seconds without the noughts at their end; where there are few, nanoseconds."""
    if 0 < nanoseconds < MOST_IN_NANOSECONDS:
        return '{:,} ns'.format(nanoseconds)
    rest = ('%09d' % (nanoseconds % SECOND)).rstrip('0')
    return '%d%s s' % (nanoseconds // SECOND, '.' + rest if rest else '')


def later_text(before, after):
    return '%s later' % duration_text(after - before)
