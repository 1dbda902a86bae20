"""The limits of docs/RULES.md, section 2, which of them a show breaks first, and the worst time of section 3: for the other scripts here. It shares
nothing with the proved code."""

LAYOUTS, SESSIONS = 8, 16
WIDEST = 2**30    # the largest buffer

class Refused(Exception):
    """Its arguments are the number and the place."""

    def __str__(self):
        return 'refused %d %d' % self.args

def within(value, least, most):
    return least <= value <= most

def drive_ok(block, cylinder):
    return within(block, 512, 65536) and block % 512 == 0 and within(cylinder, 1, 65536)

def layout_ok(longest, track, time, rotation):
    return within(longest, 0, 10**6) and within(track, 0, longest) and within(time, 1, 10**6) and within(rotation, 0, 10**6)

def session_ok(laid, rate, cushion, buffer, layout):
    return within(rate, 1, 10**8) and within(cushion, 1, 2**24) and within(buffer, 1, WIDEST) and layout < laid

def counts_ok(laid, playing):
    return within(laid, 1, LAYOUTS) and playing <= SESSIONS

def test_counts(laid, playing):
    if not counts_ok(laid, playing):
        raise Refused(2, 0)

def fault(drive, layouts, sessions):
    """The number and the place of the first of 5, 6 and 7, or None. The lists are the places that are used."""
    if not drive_ok(*drive):
        return 5, 0
    for i, y in enumerate(layouts):
        if not layout_ok(*y):
            return 6, i
    for i, x in enumerate(sessions):
        if not session_ok(len(layouts), *x):
            return 7, i
    return None

def test_limits(drive, layouts, sessions):
    no = fault(drive, layouts, sessions)
    if no is not None:
        raise Refused(*no)

def worst_time(cylinder, layout, n):
    longest, track, time, rotation = layout
    full, part = divmod(n, cylinder)
    return longest + n * time + (full + (1 if part else 0)) * track + 2 * rotation
