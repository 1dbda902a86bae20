"""The reasons and loads of tests/reasons.py, held to what is worked out by other means, and to the verdicts in tests/data, which came from elsewhere."""
import reason_shows
from fractions import Fraction
from dice import Dice
from given import table
from limits import WIDEST, fault
from made_shows import buffered, changed
from reasons import reason, tenths, widest, work
from script_words import file_of
from sets import needed, raised, smallest, times
from show_files import read
from texts import explained

def sustained(show):
    """Whether any counts are workahead-augmenting, no buffer asked. If the sum is under its limit then a round of at most K x A x 1,000,000 µs sustains
    itself, with K the sum over the sessions of (weight + N x what is paid once + (N - 1) x track); so a round that is longer than that never settles."""
    (block, cylinder), layouts, sessions = show
    rows = [layouts[x[3]] for x in sessions]
    bound = sum(cylinder * (time + longest + 2 * rotation) + cylinder * track for longest, track, time, rotation in rows) * block * 10**6
    counts = [1] * len(sessions)
    while sum(times(show, counts)) <= bound:
        more = raised(show, counts)
        if more == counts:
            return True
        counts = more
    return False

def drawn(dice, drive, longest, time, rate):
    """A show with numbers up to these, and the largest buffers."""
    layouts = []
    for _ in range(dice.between(1, 4)):
        seek = dice.between(0, longest)
        layouts.append((seek, dice.between(0, seek), dice.between(1, time), dice.between(0, longest)))
    sessions = [(dice.between(1, rate), 1, WIDEST, dice.between(0, len(layouts) - 1)) for _ in range(dice.between(0, 6))]
    return drive, layouts, sessions

def tiny(dice):
    """A block of a few millionths of a byte: outside the limits, and so small that every bound is soon reached. Half of them load the drive to a hundred per
    cent, or as near to it as can be."""
    drive = Fraction(dice.between(1, 60), 10**6), dice.between(1, 4)
    drive, layouts, sessions = drawn(dice, drive, 3, 6, 4)
    if dice.between(0, 1):
        drive = Fraction(max(1, work((drive, layouts, sessions))[0] // drive[1] + dice.between(-1, 1)), 10**6), drive[1]
    return drive, layouts, sessions

def common(dice, full=False):
    """A show within the limits, some of its buffers a byte or a block too small. A full one loads the drive to just under a hundred per cent."""
    block, cylinder = 512 * dice.between(1, 128), (1, 2, 7, 64, 3000)[dice.between(0, 4)]
    drive, layouts, sessions = drawn(dice, (block, cylinder), 10**6 if full else (1000, 30_000)[dice.between(0, 1)], 3000, block * dice.between(1, 200))
    asked, whole = work((drive, layouts, sessions))
    rates = [max(1, x[0] * whole // asked) if full else x[0] for x in sessions]
    show = drive, layouts, [(min(10**8, r), dice.between(1, 5 * block), WIDEST, x[3]) for r, x in zip(rates, sessions)]
    counts = smallest(show)
    if counts is None:
        return buffered(show, [dice.between(1, WIDEST) for _ in sessions])
    sizes = [size + (-1, 0, 0, 1, -block, block)[dice.between(0, 5)] for size in needed(show, counts)]
    return buffered(show, [min(WIDEST, max(1, size)) for size in sizes])

def whole_load(dice):
    """Overload by the sum is that no counts will do, whatever the buffers."""
    for k in range(600):
        show = tiny(dice) if k < 500 else common(dice)
        asked, whole = work(show)
        if k >= 500 and 50 * abs(asked - whole) < whole:
            continue    # within two per cent of the whole load a show this large takes too long
        if (asked >= whole) == sustained(show):
            yield 'the whole load: %s' % (show,)

def enough(show, place, size):
    """That the size is just what the session needs, and what is said once it has it."""
    own, wide = [x[2] for x in show[2]], [WIDEST] * len(show[2])
    if smallest(buffered(show, changed(wide, place, size - 1))) is not None or smallest(buffered(show, changed(wide, place, size))) is None:
        yield 'not just enough: %s' % (show,)
    after = reason(buffered(show, changed(own, place, size)))
    if after[0] not in ('none', 'buffer') or after[0] == 'buffer' and after[1] <= place:
        yield 'still %s: %s' % (after, show)

def share(show):
    """The load, as a share of the drive: the time that a second of each session takes."""
    (block, cylinder), layouts, sessions = show
    return sum(Fraction(x[0], block * 10**6) * (layouts[x[3]][2] + Fraction(layouts[x[3]][1], cylinder)) for x in sessions)

def reasons(show):
    """One reason, and what it says is so; none exactly for a show that is accepted."""
    if not tenths(show) <= 1000 * share(show) < tenths(show) + 1:
        yield 'not loaded so: %s' % (show,)
    why, *rest = reason(show)
    over, fits = share(show) >= 1, smallest(show) is not None
    wide = not over and smallest(widest(show)) is not None
    facts = {'none': fits, 'overload': over, 'beyond': not over and not wide, 'buffer': wide and not fits}
    if [word for word, true in facts.items() if true] != [why]:
        yield 'not just %s: %s' % (why, show)
    if why == 'buffer':
        yield from enough(show, *rest)

def outcome(line):
    """Of a reason, or of the calculator's first line: accepted, or how it is refused."""
    if line.startswith('refused'):
        return line
    return 'accepted' if line == 'none' or line.startswith('accepted') else 'refused 8 0'

def differences():
    dice = Dice(77)
    yield from whole_load(dice)
    for show in [common(dice, k % 4 == 0) for k in range(400)] + reason_shows.shows():
        assert fault(*show) is None
        yield from reasons(show)
    verdicts = dict(table('verdicts.txt'))
    for name, text, _ in table('reads.txt'):
        data = file_of(text)
        said, told = explained(data).split('\n')[0], verdicts[name].split('\\n')[0]
        if outcome(said) != outcome(told):
            yield 'verdicts.txt %s: %s, not %s' % (name, said, told)
        if not said.startswith('refused'):
            yield from reasons(read(data)[0])
