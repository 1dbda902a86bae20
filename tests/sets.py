"""Sets of counts, docs/RULES.md, section 7: for the other scripts here. A show is its drive, the layouts that are used, the sessions that are used. It
shares nothing with the proved code, which goes by the time of a round where this goes by the counts."""
import functools
from limits import worst_time

def times(show, counts):
    """U of each session's count; L is their sum."""
    (_, cylinder), layouts, sessions = show
    return [worst_time(cylinder, layouts[x[3]], m) for x, m in zip(sessions, counts)]

def needed(show, counts):
    """The smallest buffers that take the counts."""
    (block, _), _, sessions = show
    return [(m + 1) * block + x[1] for x, m in zip(sessions, counts)]

def feasible(show, counts):
    return all(size <= x[2] for x, size in zip(show[2], needed(show, counts)))

def raised(show, counts):
    """Each count, or the least that is ahead of its rate where it is not."""
    unit, whole = show[0][0] * 10**6, sum(times(show, counts))
    return [max(m, x[0] * whole // unit + 1) for x, m in zip(show[2], counts)]

@functools.lru_cache(maxsize=None)
def settled(drive, layouts, sessions):
    """The counts from 1 on, raised while they fit and until they stay. No feasible workahead-augmenting set has a count below these, whichever turn it is.
    Sessions of one rate and one layout have one count: a turn is taken for each such kind, and not for each session."""
    (block, cylinder), unit = drive, drive[0] * 10**6
    kinds = sorted({(x[0], x[3]) for x in sessions})
    most = [min((x[2] - x[1]) // block - 1 for x in sessions if (x[0], x[3]) == kind) for kind in kinds]
    many = [sum((x[0], x[3]) == kind for x in sessions) for kind in kinds]
    rows = [(rate, n, layouts[i]) for (rate, i), n in zip(kinds, many)]
    counts = [1] * len(kinds)
    while all(map(int.__le__, counts, most)):
        whole = 0
        for (_, n, y), m in zip(rows, counts):
            whole += n * worst_time(cylinder, y, m)
        more = [max(m, row[0] * whole // unit + 1) for row, m in zip(rows, counts)]
        if more == counts:
            return [counts[kinds.index((x[0], x[3]))] for x in sessions]
        counts = more
    return None

def smallest(show):
    """The least feasible workahead-augmenting set, or None."""
    drive, layouts, sessions = show
    counts = settled(tuple(drive), tuple(map(tuple, layouts)), tuple(map(tuple, sessions)))
    return counts and counts[:]

def holds(show, counts):
    return all(m >= 1 for m in counts) and feasible(show, counts) and raised(show, counts) == counts
