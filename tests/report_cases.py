"""Files that are reported on and explained: those in tests/data, then files made here. Cases for tests/rehearsal_cases.py."""
import itertools
import reason_shows
from dice import Dice
from given import table
from limits import WIDEST
from made_files import BAD_LAYOUT, BAD_SESSION, Made, noted
from made_shows import X, Z, alike, buffered, changed
from script_words import file_of
from sets import needed, smallest
from show_files import encode, hexed

UNIT = 512 * 10**6    # of blocks of 512 bytes: what a count is multiplied with, where it is compared with R x L

def showing(drive, layouts, sessions, note=b''):
    return encode((drive, layouts, sessions), note)

def stored():
    for _, text, _ in table('reads.txt'):
        yield file_of(text)

# ---- lengths, counts, refusals

LIGHT = (4096, 32), [X] * 7 + [Z], [(1000 * i + 1000, 100, 1_000_000, i % 8) for i in range(16)]

def lengths():
    longest = encode(LIGHT, noted(1024))
    yield from (b'', b'\0', longest[-19:], longest[-20:], longest[:20], bytes(20), longest, longest + b'\0', b'\0' + longest, longest + longest[:172],
                bytes(172) + longest)

def playing():
    drive, layouts, sessions = LIGHT
    for count in range(17):
        yield showing(drive, layouts, sessions[:count], noted(count))

def refusals():
    """2 to 5 and 8; 6 and 7 at every place, with and without offenders above."""
    drive, layouts, sessions = LIGHT
    for laid, playing in ((0, 1), (9, 1), (65535, 1), (1, 17), (1, 65535)):
        made = Made(1, 1, noted(700))
        made.laid, made.playing = laid, playing
        yield made.file()
    for first, second in ((32, 15), (31, 16), (48, 32), (2**32 - 1, 16)):
        made = Made(1, 1, noted(9))
        made.first, made.second = first, second
        yield made.file()
    yield showing(drive, layouts, sessions[:2], noted(1025))
    for wrong in ((511, 32), (4096, 0), (66_048, 65_537)):
        yield showing(wrong, layouts, sessions)
    for i in range(8):
        yield showing(drive, changed(layouts, i, BAD_LAYOUT[i % 5]), sessions)
        yield showing(drive, layouts[:i] + [BAD_LAYOUT[i % 5]] * (8 - i), changed(sessions, 0, BAD_SESSION[i % 6]))
    for i in range(16):
        yield showing(drive, layouts, changed(sessions, i, BAD_SESSION[i % 6]))
        yield showing(drive, layouts, sessions[:i] + [BAD_SESSION[i % 6]] * (16 - i))
    yield showing(*alike(Z, 10))
    yield showing(*alike(X, 1, 102_400))

# ---- each column on both sides of each power of ten

def sides(least, most):
    """The power of each, and the number: one less, or just that."""
    return [(k, 10**k - less) for k in range(least, most + 1) for less in (1, 0)]

def layout(once, block):
    """A layout whose operations cost so much once and so much for each block."""
    rotation = min(10**6, once // 2)
    return once - 2 * rotation, 0, block, rotation

def counted(count, cushion, buffer):
    """One session with this smallest count: the least M for which M x (512 - 94 x 4) > 94 x the fixed time."""
    return (512, 10), [layout(-(-(count - 1) * 136 // 94), 4)], [(94 * 10**6, cushion, buffer, 0)]

def counts():
    for _, count in sides(1, 6):
        yield showing(*counted(count, 1, WIDEST))

def buffers():
    """The smallest buffer is the one that there is; and it is a byte more."""
    for _, size in sides(4, 9):
        count = size // 512 - 2
        cushion = size - 512 * (count + 1)
        yield showing(*counted(count, cushion, size))
        yield showing(*counted(count, cushion + 1, size))

def short_times():
    """U and L of one session; L of sixteen."""
    for _, time in sides(1, 6):
        yield showing((512, 10), [(time // 2, 0, time - time // 2, 0)], [(1, 1, WIDEST, 0)])
    for _, time in sides(2, 7):
        part = time // 16
        yield showing((512, 10), [(0, 0, part, 0), (0, 0, time - 15 * part, 0)], [(1, 1, WIDEST, 0)] * 15 + [(1, 1, WIDEST, 1)])

def timed(k, time):
    """A session that takes this time, for a count that the others' fixed times call for: as long as they can be, so that the count is just not larger."""
    block = 511_980 if k == 12 else 10**min(5, k - 4)
    rate, count = UNIT // (block + 20), time // block - 1
    once = time - count * block
    others = (count * (UNIT - rate * block) - 1) // rate - once
    rest = others // 15 - ((time + others) // UNIT + 1)
    return (512, 10), [layout(once, block), layout(rest, 1)], [(rate, 1, WIDEST, 0)] + [(1, 1, WIDEST, 1)] * 15

def times():
    for k, time in sides(7, 12):
        yield showing(*timed(k, time))

def rounds():
    """L of sixteen that are alike. One microsecond lies between 10^k - 1 and a round that is the next that there is."""
    for k, less in ((k, less) for k in range(8, 14) for less in (1, 0)):
        scale, count = 10**max(0, 10 - k), 625 * 10**max(0, k - 10)
        spare = min(4000, 2_500_000 // count)
        block, once = 10**6 // scale - spare, spare * count
        yield showing((512, 10), [layout(once, block), layout(once - less, block)], [(32 * scale, 1, WIDEST, 0)] * 15 + [(32 * scale, 1, WIDEST, 1)])

# ---- why

def shorts():
    """The buffer that is needed has each number of digits; and each clip is the one that is short of it."""
    for _, size in sides(4, 9):
        count = size // 512 - 2
        yield showing(*counted(count, size - 512 * (count + 1), max(1, size // 2)))
    for show in (counted(1, 1, 1), counted(1, 511, 1024), *reason_shows.most()):
        yield showing(*show)
    for show in reason_shows.mixed():
        sizes = needed(show, smallest(show))
        for i in range(16):
            yield showing(*buffered(show, changed(sizes, i, sizes[i] - 1)), noted(i))
            yield showing(*buffered(show, sizes[:i] + [1] * (16 - i)))
            yield showing(*buffered(show, sizes[:i] + [sizes[i] - 1] + [1] * (15 - i)))

def beyonds():
    for show in itertools.islice(reason_shows.beyond(), 0, None, 7):
        yield showing(*show)
    for rate in (511_900, 511_999, 512_000, 512_001, 513_536, 527_360):
        drive, layouts, sessions = alike(Z, 10, 158_310_401)
        yield showing(drive, layouts, changed(sessions, 9, (rate, *sessions[9][1:])))

def loads():
    """The load on each side of each power of ten, from 0.0 to 625,000,000.0 per cent; of one clip, and of sixteen."""
    drive, dice = (512, 1), Dice(5)
    for _, tenth in [*sides(0, 9), (0, 5), (0, 15), (0, 105), (0, 990), (0, 1001), (0, 1003), (0, 1009), (0, 1010), (0, 2**32 - 1), (0, 2**32), (0, 5 * 10**9)]:
        for count, off in ((1, 0), (2, -1), (16, 0), (16, -1)):
            total = 512_000 * tenth + off
            show = total >= count and reason_shows.summing(dice, drive, count, total)
            if show:
                yield showing(*show)
    for show in itertools.islice(reason_shows.wide_sums(dice), 0, None, 3):
        if show:
            yield showing(*show)
    for cylinder, count, rate in itertools.product((1, 65_536), (1, 16), (1, 10**8 - 1, 10**8)):
        yield showing((512, cylinder), [(10**6,) * 4], [(rate, 2**24, WIDEST, 0)] * count)
        yield showing((65_536, cylinder), [(0, 0, 1, 0)], [(rate, 1, WIDEST, 0)] * count)

# ---- large

def longest():
    """593 bytes of text, after 673,335 turns: counts of seven digits, times of thirteen, a round of fourteen, buffers of ten."""
    yield showing((1024, 1), [(720_000, 66_664, 10**6, 10**6)], [(60, 2**24, WIDEST, 0)] * 16)

def heavy():
    """3,056,065 turns: the load is one part in 512,000,000 under a hundred per cent, and a turn brings one block more to one of two sessions."""
    yield showing((512, 10), [layout(2500, 835_355), layout(2500, 835_123)], [(300, 1, WIDEST, 0), (313, 1, WIDEST, 1)])

PARTS = stored, lengths, playing, refusals, counts, buffers, short_times, times, rounds, shorts, beyonds, loads, longest, heavy

def lines():
    for part in PARTS:
        yield 'case report-' + part.__name__.replace('_', '-')
        for data in part():
            yield from ('report ' + hexed(data), 'explain ' + hexed(data))
