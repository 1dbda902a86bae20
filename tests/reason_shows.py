"""Shows at, just under and just over each border between the reasons (tests/reasons.py), the same in every run: for the scripts that make cases."""
import itertools
from dice import Dice
from limits import WIDEST
from made_shows import X, Z, alike, buffered, changed
from sets import needed, smallest

FASTEST, SECOND = 10**8, 10**6    # the most of a rate, of a time

def whole(drive):
    return drive[0] * drive[1] * 10**6

# ---- shows by the sum of R x weight, where a weight is N x block time + one-track seek

def layout(cylinder, weight, longest, rotation):
    """A layout of this weight, from N up to N x 1,000,000 + 1,000,000."""
    time = min(SECOND, weight // cylinder)
    track = weight - cylinder * time
    return max(track, longest), track, time, rotation

def alone(drive, total, longest=0, rotation=0):
    """One session with this sum, if it has a divisor that will do; of those that are soon found, that with the highest rate."""
    _, cylinder = drive
    found = [d for d in range(1, 200_001) if total % d == 0]
    rates = [r for r in found + [total // d for d in found] if r <= FASTEST and cylinder <= total // r <= cylinder * SECOND + SECOND]
    return (drive, [layout(cylinder, total // max(rates), longest, rotation)], [(max(rates), 1, WIDEST, 0)]) if rates else None

def together(dice, drive, count, total, longest=SECOND, rotation=SECOND):
    """Two sessions or more with this sum. The last has rate 1, and a layout that makes it come out even. Long seeks, so that few turns are taken near the whole
    load."""
    cylinder = drive[1]
    share = (total - cylinder) // (count - 1)
    weights = []
    for _ in range(min(7, count - 1)):
        least = max(cylinder, share // FASTEST + 1)
        weights.append(min(cylinder * SECOND + SECOND, max(least, share // dice.between(10**6, 10**7))))
    rates, rest = [], total
    for i in range(count - 1):
        rates.append(min(FASTEST, max(1, (rest - cylinder) // (count - 1 - i) // weights[i % 7])))
        rest -= rates[-1] * weights[i % 7]
    if not cylinder <= rest <= cylinder * SECOND + SECOND:
        return None
    layouts = [layout(cylinder, w, longest, rotation) for w in weights + [rest]]
    sessions = [(r, dice.between(1, 10**6), WIDEST, i % 7) for i, r in enumerate(rates)] + [(1, 1, WIDEST, len(weights))]
    return drive, layouts, sessions

def summing(dice, drive, count, total):
    return alone(drive, total, SECOND, SECOND) if count == 1 else together(dice, drive, count, total)

DRIVES = [(512, 1), (51_200, 10), (65_536, 64), (1024, 3), (32_768, 65_536), (65_536, 65_536)]

def even(dice):
    """An even hundred per cent, and one unit of the sum under it and over it."""
    for drive, count, off in itertools.product(DRIVES, (1, 2, 3, 16), (-1, 0, 1)):
        yield summing(dice, drive, count, whole(drive) + off)
    for block, cylinder, off in itertools.product((512, 1024, 32_768, 51_200, 65_536), (1, 2, 10), (-1, 0, 1)):
        show = alone((block, 1), whole((block, 1)) + off)    # no seeks: just under the whole load accepted, with a count of 1
        yield show and buffered(((block, cylinder), *show[1:]), [10**6])

TENTHS = [1, 2, 3, 9, 10, 11, 99, 100, 101, 250, 499, 500, 501, 998, 999, 1000, 1001, 1002, 1003, 1999, 2000, 9999, 10_000]
LARGE = [10**k for k in range(5, 9)] + [123_456_789, 2**30, 2**31, 2**32 - 1, 2**32, 2**32 + 1, 5 * 10**9]

def rounded(dice):
    """Each side of a tenth of a per cent."""
    for k, tenth in enumerate(TENTHS):
        drive = DRIVES[k % 6]
        for count, off in itertools.product((1, 2 + k % 15), (-1, 0, 1)):
            yield summing(dice, drive, count, whole(drive) * tenth // 1000 + off)
    for tenth, off in itertools.product(LARGE, (-1, 0, 1)):
        yield together(dice, (512, 1), 16, 512_000 * tenth + off)

def wide_sums(dice):
    """Sums, and thousandfold sums, about 2^63 and 2^64 and their multiples: what is left of them in 64 bits would be a small load."""
    for drive in DRIVES[4:]:
        offs = -1, 0, 1, whole(drive) // 2, whole(drive) - 1, whole(drive)
        for twos, off in itertools.product((2**63, 2**64, 3 * 2**63, 2**65, 3 * 2**64, 5 * 2**64), offs):
            yield together(dice, drive, 16, twos + off)
    for drive, twos, off in itertools.product(DRIVES[1:], (2**63, 2**64), (0, 1, 1000)):
        yield together(dice, drive, 16, (twos + off) // 1000 + 1)
    for (cylinder, rate), off in itertools.product(((4295, 65_536), (4295, 65_537), (65_536, 999_999), (65_536, 10**6), (65_536, 1_000_001)), (-1, 0, 1)):
        yield (65_536, cylinder), [layout(cylinder, 2**32 + off, 20_000, 5000)], [(rate, 1, 10**6, 0)]    # weights about 2^32, loads about the whole
    worst, least = (SECOND,) * 4, (0, 0, 1, 0)
    for drive, count in itertools.product([(512, 1), (512, 65_536), (65_536, 1), (65_536, 65_536)], (1, 2, 3, 16)):
        yield drive, [worst], [(FASTEST, 2**24, WIDEST, 0)] * count
        yield drive, [worst], [(FASTEST, 2**24, 1, 0)] * count
        yield drive, [least], [(1, 1, WIDEST, 0)] * count

# ---- beyond the largest buffer

def far(place, cushion, own):
    """A light load: one quick session, fifteen that play hardly anything but take their time. The quick one needs more than 16,000 blocks."""
    layouts = [(0, 0, 1, 0)] + [(690_000 + 5000 * i, 100, 20 + i, 3000) for i in range(7)]
    slow = [(1 + 977 * i, 1 + i, WIDEST, 1 + i % 7) for i in range(15)]
    sessions = slow[:place] + [(FASTEST, cushion, own, 0)] + slow[place:]
    return (65_536, 10), layouts, sessions

def beyond():
    """The quick session just does with the largest buffer; with its own a byte smaller; with its cushion a byte larger; and then with its own small."""
    for place in range(16):
        show = far(place, 1, WIDEST)
        cushion = WIDEST - needed(show, smallest(show))[place] + 1
        yield far(place, cushion, WIDEST)
        yield far(place, cushion, WIDEST - 1)
        yield far(place, cushion + 1, WIDEST)
        yield far(place, cushion + 1, 1 + place)
        yield buffered(far(place, cushion + 1, 1), [WIDEST if i == place else 1 + i for i in range(16)])

def most():
    """One session at a high load: the buffer that its count needs is just the largest, or a byte more."""
    for block, time, step in itertools.product((512, 4096, 65_536), (78, 90, 97), (1, 2, 7)):
        time = max(1, block * time // 10_000 + (block == 512))
        count = WIDEST // block - 1 - step
        once = (count - 1) * (block * 10**6 - FASTEST * time) // FASTEST    # the least count M with M x (D - R x time) > R x once is no larger
        if not 1 <= once <= 3 * SECOND:
            continue
        rotation = (once + 2) // 3
        show = (block, 10), [(once - 2 * rotation, 0, time, rotation)], [(FASTEST, 1, WIDEST, 0)]
        cushion = WIDEST - needed(show, smallest(show))[0] + 1
        for more, own in ((0, WIDEST), (0, WIDEST - 1), (1, WIDEST), (1, 1)):
            yield show[0], show[1], [(FASTEST, cushion + more, own, 0)]

# ---- a buffer that is too small

def mixed():
    """Shows of sixteen sessions, all different, with the largest buffers: of a middling load, and of a high one."""
    layouts = [X, (15_000, 700, 3000, 4000), (3000, 0, 8000, 8333), (40_000, 9000, 1000, 100)]
    rates = [90_000 + 17_000 * (7 * i % 16) for i in range(16)]
    yield (51_200, 10), layouts, [(r, 1 + 5000 * (i * i % 11), WIDEST, i % 4) for i, r in enumerate(rates)]
    yield (51_200, 10), layouts, [(2 * r, 1 + 5000 * (i * i % 11), WIDEST, 1 + 2 * (i % 2)) for i, r in enumerate(rates)]

def short():
    """Each session the lowest that is short, by a byte or by much, others above it short too or not. Where the lowest comes up short only in the last turn, and
    a higher one in the first, the search with the show's own buffers ends before it comes to the lowest."""
    for show in mixed():
        sizes = needed(show, smallest(show))
        wide = [WIDEST] * 16
        yield show
        yield buffered(show, sizes)
        yield buffered(show, [1] * 16)
        for i in range(16):
            less = [size - 1 for size in sizes]
            yield buffered(show, changed(sizes, i, less[i]))
            yield buffered(show, changed(wide, i, less[i]))
            yield buffered(show, changed(wide, i, sizes[i]))
            yield buffered(show, changed(wide, i, 1))
            yield buffered(show, sizes[:i] + less[i:])
            yield buffered(show, sizes[:i] + [less[i]] + [1] * (15 - i))
            if i < 15:
                yield buffered(show, changed(changed(wide, i, less[i]), 15 - i // 3 if i < 12 else 15, 1))
                yield buffered(show, changed(changed(sizes, i, less[i]), 15, 2 * show[0][0] + show[2][15][1] - 1))

def pairs():
    """Two sessions, each with a buffer for its count in any turn, or a byte less."""
    show = alike(X, 2, WIDEST)[0], [X, Z], [(2_000_000, 7, WIDEST, 0), (1_500_000, 9, WIDEST, 1)]
    last = smallest(show)
    steps = sorted({1, 2, 3, *(m * k // 4 for m in last for k in (1, 2, 3)), *last})
    sides = [[(m + 1) * show[0][0] + x[1] - less for m in steps if m <= top for less in (0, 1)] for x, top in zip(show[2], last)]
    for first, second in itertools.product(*sides):
        yield buffered(show, [first, second])

def full(dice):
    """p6, p7 and rates about theirs, with buffers of every size: none or buffer up to 511,000, then beyond, and overload from 512,000 on, whatever the
    buffers."""
    rates, sizes = (506_880, 511_000, 511_900, 511_999, 512_000, 512_001, 512_512, 527_360), (1, 102_400, 102_401, 158_310_400, 158_310_401, WIDEST)
    for rate, size in itertools.product(rates, sizes):
        drive, layouts, sessions = alike(Z, 10, size)
        yield drive, layouts, changed(sessions, dice.between(0, 9), (rate, 1, size, 0))

def drawn(dice):
    """Shows of any kind, with buffers about what is needed."""
    for k in range(140):
        block = 512 * dice.between(1, 128)
        drive = block, (1, 2, 10, 64, 5000)[dice.between(0, 4)]
        count = dice.between(1, 16)
        share = (50, 300, 800, 950, 990, 1005, 1100)[k % 7]
        show = together(dice, drive, count + 1, whole(drive) * share // 1000 + dice.between(-1000, 1000), dice.between(0, 50_000), dice.between(0, 9000))
        counts = show and len(show[2]) <= 16 and smallest(show)
        if counts:
            sizes = [size + (0, 0, 1, block, -1, -block)[dice.between(0, 5)] for size in needed(show, counts)]
            show = buffered(show, [min(WIDEST, max(1, size)) for size in sizes])
        if show and len(show[2]) <= 16:
            yield show

def shows():
    dice = Dice(1998)
    parts = even(dice), rounded(dice), wide_sums(dice), beyond(), most(), short(), pairs(), full(dice), drawn(dice)
    return [show for part in parts for show in part if show is not None]
