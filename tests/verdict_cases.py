"""Shows in memory that are decided, and asked for the reason and the load, with counts that are tried: those in tests/data, then shows made here. Cases for
tests/rehearsal_cases.py. The smallest sets serve here too, for counts and buffers that just do and just do not."""
import itertools
import reason_shows
from dice import Dice
from given import table
from limits import LAYOUTS, SESSIONS, counts_ok, fault
from made_files import BAD_LAYOUT, BAD_SESSION, FULL, PAST
from made_lines import shown
from made_shows import AMPLE, X, Z, alike, buffered, changed
from memory import NONE, Memory, rows
from run_rules import joined
from script_words import file_of
from sets import needed, smallest
from show_files import encode, hexed, number
from show_files import rows as rows_at

DICE = Dice(2024)
TURNS = itertools.count()

# ---- the counts that are tried

def near(counts, turn):
    """The counts, or others near them: by turns each kind, at each place."""
    if not counts:
        return []
    place = turn // 8 % len(counts)
    return [counts, changed(counts, place, counts[place] - 1), [m + 1 for m in counts], changed(counts, place, 0), changed(counts, place, PAST),
            changed(counts, place, counts[place] + 1), [DICE.between(1, 2 * m) for m in counts], [m + DICE.between(0, 2) for m in counts]][turn % 8]

def filling(show):
    """The most that fits each buffer, or 1."""
    (block, _), _, sessions = show
    return [max(1, (x[2] - x[1]) // block - 1) for x in sessions]

def given(show, sound, turn):
    """Of a show outside its limits any counts; else others near those that do, and mostly something in the places that are not looked at."""
    if not sound:
        return [DICE.between(0, PAST) for _ in range(SESSIONS)]
    counts = smallest(show)
    tried = near(filling(show) if counts is None else counts, turn)
    return tried + [DICE.between(0, PAST) for _ in range(SESSIONS - len(tried) if turn % 3 else 0)]

# ---- a show and the questions about it

def put(show, laid=None, playing=None, rest=NONE, counts=None):
    """`laid` and `playing` stand for the counts that the show has, `rest` in the places that are not used. A show that a file can hold is given by the file,
    unless that is longer."""
    drive, layouts, sessions = show
    laid = len(layouts) if laid is None else laid
    playing = len(sessions) if playing is None else playing
    sound = counts_ok(laid, playing) and fault(*show) is None
    tried = given(show, sound, next(TURNS)) if counts is None else counts
    ways = [shown(Memory((*drive, laid, playing), *rows(layouts, sessions, rest, rest)))]
    if sound and rest == NONE:
        ways.append('show ' + hexed(encode(show, b'')))
    return min(ways, key=len), 'decide', 'try ' + joined(tried), 'why', 'load'

def tight(show):
    """The show as it is; and, where it is accepted, with the buffers that are needed, and with one of them a byte short."""
    yield put(show)
    counts = smallest(show)
    if counts:
        sizes, place = needed(show, counts), DICE.between(0, len(counts) - 1)
        yield put(buffered(show, sizes), rest=FULL)
        yield put(buffered(show, changed(sizes, place, sizes[place] - 1)))

# ---- the shows that came from elsewhere

def stored():
    """The files that are not refused by the file alone; of too many rows, those that there are places for."""
    for _, text, expected in table('reads.txt'):
        if expected in ('refused 1 0', 'refused 3 0', 'refused 4 0'):
            continue
        data = file_of(text)
        end = len(data) - 20
        laid, playing = number(data, end + 8, 2), number(data, end + 10, 2)
        first, second = end - 16 * (laid + playing), end - 16 * playing
        if first < 0:
            continue
        drive = number(data, end, 4), number(data, end + 4, 4)
        yield put((drive, rows_at(data, first, min(laid, LAYOUTS)), rows_at(data, second, min(playing, SESSIONS))), laid, playing)

# ---- the worked numbers, and each side of them

def worked():
    yield put(alike(X, 3), counts=[1] * 3)
    for size in (102_399, 102_400, 102_401, 102_402, 153_600, 153_601):
        yield put(alike(X, 1, size), counts=[1])
        yield put(alike(X, 1, size), counts=[2])
    yield from tight(alike(X, 3))
    for longest in (27_999, 28_000, 28_001):
        yield put(alike((longest, 2000, 10000, 5000), 2), counts=[1] * 2)
        yield from tight(alike((longest, 2000, 10000, 5000), 2))
    for size in (1_433_600, 1_433_601, 1_484_800, 1_484_801, AMPLE):
        yield put(alike(Z, 9, size), counts=[27] * 9)
        yield put(alike(Z, 9, size), counts=[28] * 9)
    for size in (1, 102_401, 1_484_801, 158_310_401, AMPLE, 2**30):
        yield put(alike(Z, 10, size))
    for place, rate in itertools.product((0, 4, 9), (505_000, 506_880, 506_881, 511_999, 512_001)):
        drive, layouts, sessions = alike(Z, 10)
        yield from tight((drive, layouts, changed(sessions, place, (rate, 1, AMPLE, 0))))

def nobody():
    for laid in (1, 8):
        for rest in (NONE, FULL):
            yield put(((51200, 10), [X] * laid, []), rest=rest)
    yield put(((65536, 65536), [(10**6,) * 4] * 8, []), rest=(1, 1, 1, 0))

# ---- limits

def offenders():
    """Each layout and each session is the lowest offender, with and without others above it."""
    drive, layouts, sessions = (4096, 32), [X] * 8, [(1000, 100, 1_000_000, 7)] * 16
    for i in range(LAYOUTS):
        bad = BAD_LAYOUT[i % 5]
        yield put((drive, changed(layouts, i, bad), sessions))
        yield put((drive, layouts[:i] + [bad] * (8 - i), changed(sessions, 0, BAD_SESSION[i % 6])))
    for i in range(SESSIONS):
        bad = BAD_SESSION[i % 6]
        yield put((drive, layouts, changed(sessions, i, bad)))
        yield put((drive, layouts, sessions[:i] + [bad] * (16 - i)))
    for lies in (8, 9, 255, 65_536, PAST):
        yield put((drive, layouts, changed(sessions, lies % 16, (1000, 100, 1_000_000, lies))))
    for wrong in ((0, 32), (511, 32), (513, 32), (66_048, 32), (4096, 0), (4096, 65_537), (PAST, PAST)):
        yield put((wrong, layouts, sessions))

def counted():
    """Counts at their limits and past them; the largest numbers stand where nothing is looked at."""
    drive, sessions = (4096, 32), [(1000, 100, 1_000_000, 0)] * 16
    for laid in (0, 1, 8, 9, 16, 256, 65_537, 2**31, PAST):
        yield put((drive, [X] * min(laid, 8), sessions), laid, rest=FULL)
    for playing in (0, 1, 15, 16, 17, 32, 256, 65_552, 2**31, PAST):
        yield put((drive, [X], sessions[:playing]), 1, playing, rest=FULL)
    yield put((drive, [X] * 8, sessions), PAST, PAST)

def faulty(faults):
    laid = 9 if 2 in faults else 2
    drive = (4096, 0 if 5 in faults else 32)
    layouts = [X, (5, 6, 5, 5) if 6 in faults else Z]
    sessions = [(1000, 100, 1 if 8 in faults else 1_000_000, 1), (1000, 100, 1_000_000, 2 if 7 in faults else 1)]
    yield put((drive, layouts, sessions), laid)

def every_fault():
    """Every choice of faults: the first of them in the order 2, 5, 6, 7, 8."""
    for count in range(6):
        for faults in itertools.combinations((2, 5, 6, 7, 8), count):
            yield from faulty(faults)

# ---- at the border: the drive's whole load, sum of R x (N x time + track), against N x A x 1,000,000

def layout(dice, drive, base):
    """Of N x time + track the base's N-fold is a divisor, so that the load can come out even; unless that asks for too long a seek."""
    track = drive[1] * base * dice.between(0, 2)
    track = track if track <= 100_000 else dice.between(0, 5000)
    return track + dice.between(0, 30_000), track, base * dice.between(1, 4), dice.between(0, 8000)

def rates(dice, weights, whole):
    """Rates whose weighted sum is the whole, or as little under it as can be."""
    parts = [dice.between(1, 100) for _ in weights]
    found = [max(1, whole * part // (sum(parts) * w)) for part, w in zip(parts, weights)]
    rest = whole - sum(r * w for r, w in zip(found[:-1], weights))
    return found[:-1] + [max(1, rest // weights[-1])]

def loaded(dice, count, share, off):
    """A show whose load is so many thousandths, and `off` bytes a second over that; the last session is on a layout that makes it even."""
    block = 512 * dice.between(1, 128)
    base = [b for b in (10, 20, 50, 100, 500, 1000, 2500, 10_000) if block <= 100 * b][dice.between(0, 1)]
    drive = block, (1, 2, 7, 10, 64, 3000)[dice.between(0, 5)]
    layouts = [(dice.between(0, 30_000), 0, base, dice.between(0, 8000))] + [layout(dice, drive, base) for _ in range(dice.between(0, 7))]
    places = [dice.between(0, len(layouts) - 1) for _ in range(count - 1)] + [0]
    weights = [drive[1] * layouts[i][2] + layouts[i][1] for i in places]
    found = rates(dice, weights, drive[1] * block * 10**6 * share // 1000)
    found[-1] = max(1, found[-1] + off)
    most = dice.between(50, 2000)
    cushions = [dice.between(1, (3 * block, 2**24)[dice.between(0, 1)]) for _ in places]
    return drive, layouts, [(r, y, min(2**30, (most + 1) * block + y), i) for r, y, i in zip(found, cushions, places)]

LOADS = [(1000, 0), (1000, 1), (1000, -1)] + [(share, 0) for share in (999, 990, 970, 930, 880, 800, 700, 500, 300, 100, 10)]

def border():
    dice = Dice(31)
    for k, (share, off) in enumerate(LOADS * 7):
        yield from tight(loaded(dice, 1 + 5 * k % 16, share, off))

# ---- large numbers

def extremes():
    """A rate times a round that passes 64 bits; the longest times, the largest counts."""
    worst, least = (10**6,) * 4, (0, 0, 1, 0)
    for block, cylinder, count in itertools.product((512, 65_536), (1, 65_536), (1, 2, 16)):
        drive = block, cylinder
        yield put((drive, [worst], [(10**8, 1, 2**30, 0)] * count), counts=[PAST] * 16)
        yield put((drive, [worst], [(1, 2**24, 2**30, 0)] * count), counts=[PAST] * 16)
        yield put((drive, [worst, least], [(10**8, 1, 2**30, 1)] + [(1, 1, 2**30, 0)] * (count - 1)))
        yield from tight((drive, [worst], [(1, 2**24, 2**30, 0)] * count))
        yield from tight((drive, [least], [(block * 10**6 // (20 * count) if block == 512 else 10**8, 7, 2**30, 0)] * count))
    for longest in (0, 1, 10_000, 10**6):
        yield put(((512, 1), [(longest, longest, 10**6, longest)], [(10**8, 1, 2**30, 0)]))

def largest():
    """The most that a buffer takes, 2,097,150 blocks of 512 bytes beside a cushion of 512: as the smallest count, and as a given one."""
    for longest, cushion in itertools.product((640_250, 640_251, 640_254, 640_255), (512, 513)):
        layouts = [(0, 0, 1, 0), (10**6, 0, 1, 10**6), (longest, 0, 1, 10**6)]
        yield put(((512, 10), layouts, [(10**8, cushion, 2**30, 0)] + [(1, 1, 2**30, i) for i in (1, 1, 2)]))
    for count, cushion in itertools.product((2_097_149, 2_097_150, 2_097_151, 2_097_152), (512, 513)):
        yield put(((512, 10), [(0, 0, 1, 0)], [(1000, cushion, 2**30, 0)]), counts=[count])

def heavy():
    """Sixteen sessions that take about a hundred thousand turns, one of them in vain: the load is an even hundred per cent."""
    for under, blocks in ((640, 2_097_151), (0, 150_000)):
        sessions = [(32_000_000 - under + 1000 * (2 * i - 15), 1, min(2**30, 512 * blocks), 0) for i in range(16)]
        yield put(((512, 10), [(1, 0, 1, 0)], sessions))

# ---- each side of each reason

def reasons():
    for show in reason_shows.shows():
        yield put(show)

PARTS = worked, nobody, stored, offenders, counted, every_fault, border, extremes, largest, heavy, reasons

def lines():
    for part in PARTS:
        for k, asked in enumerate(part()):
            yield from ('case %s-%d' % (part.__name__.replace('_', '-'), k), *asked)
