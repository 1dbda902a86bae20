"""Files that are read and shows that are written: those in tests/data, then others, at each limit and damaged in each way. Cases for
tests/rehearsal_cases.py."""
from dice import Dice
from given import table
from limits import LAYOUTS, SESSIONS
from made_files import BAD_LAYOUT, BAD_SESSION, DRIVES, FULL, LAYOUT, PAST, SESSION, Made, noted
from made_lines import case, shown
from memory import NONE
from show_files import hexed

def read(name, data):
    return case(name, 'file ' + hexed(data))

def write(name, made, room=None, rest=NONE):
    return case(name, shown(made.memory(rest)), 'write %s %d' % (hexed(made.note), made.length() if room is None else room))

def both(name, made, rest=NONE):
    return read('r-' + name, made.file()) + write('w-' + name, made, rest=rest)

def stored():
    for name, text, _ in table('reads.txt'):
        yield from case(name, 'file ' + text)
    for name, show, note, room, _ in table('writes.txt'):
        yield from case(name, 'memory ' + show, 'write %s %s' % (note, room))

def sizes():
    """Every layout count and every session count; written with the largest numbers in the places above."""
    for layouts in range(1, LAYOUTS + 1):
        for sessions in (2 * layouts - 2, 2 * layouts - 1):
            yield from both('size-%d-%d' % (layouts, sessions), Made(layouts, sessions, noted(layouts * sessions)), rest=FULL)
    for layouts, sessions in ((1, 16), (8, 0), (8, 16)):
        yield from both('size-%d-%d' % (layouts, sessions), Made(layouts, sessions), rest=(9, 99, 0, 77))

def last():
    """The largest number, where nothing is looked at, is the last of the hundred; the others there are zeros."""
    memory = Made(1, 1).memory()
    memory.sessions[-1] = [0, 0, 0, PAST]
    yield from case('largest', shown(memory), 'write - 100')

def notes():
    for length in (0, 1, 2, 1023, 1024, 1025):
        yield from both('note-%d' % length, Made(1, 1, noted(length)))
    yield from both('longest', Made(8, 16, noted(1024)))
    yield from both('longest-and-1', Made(8, 16, noted(1025)))
    yield from read('r-one-layout-1428', Made(1, 0, noted(1392)).file())
    yield from read('r-one-layout-1429', Made(1, 0, noted(1393)).file())
    yield from both('note-all-ff', Made(2, 2, b'\xff' * 40))
    yield from both('note-a-file', Made(2, 2, Made(1, 1).file()))

# ---- limits

def limits():
    for field, value in DRIVES:
        made = Made(1, 1)
        made.drive[field] = value
        yield from both('drive-%s-%d' % ('AN'[field], value), made)
    for k, row in enumerate(LAYOUT):
        made = Made(2, 0)
        made.layouts[k % 2] = row
        yield from both('layout-%d' % k, made)
    for k, row in enumerate(SESSION):
        made = Made(3, 2)
        made.sessions[k % 2] = row
        yield from both('session-%d' % k, made)

def places():
    """Each layout and each session is the one offender."""
    for i in range(LAYOUTS):
        for k, row in enumerate(BAD_LAYOUT):
            made = Made(8, 0)
            made.layouts[i] = row
            yield from read('r-layout-at-%d-%d' % (i, k), made.file())
    for i in range(SESSIONS):
        for k in range(3):
            made = Made(1, 16)
            made.sessions[i] = BAD_SESSION[(3 * i + k) % 7]
            yield from read('r-session-at-%d-%d' % (i, k), made.file())
    for i in range(LAYOUTS):
        made = Made(8, 2)
        made.layouts[i] = BAD_LAYOUT[i % 5]
        yield from write('w-layout-at-%d' % i, made)
    for i in range(SESSIONS):
        made = Made(2, 16)
        made.sessions[i] = BAD_SESSION[i % 6]
        yield from write('w-session-at-%d' % i, made)

def several():
    """Two offenders: the lower; and one of each kind: the layout."""
    for low, high in ((0, 7), (2, 5), (6, 7)):
        made = Made(8, 4)
        made.layouts[low] = made.layouts[high] = (5, 6, 5, 5)
        yield from both('layouts-%d-%d' % (low, high), made)
    for low, high in ((0, 15), (3, 9), (14, 15)):
        made = Made(2, 16)
        made.sessions[low] = made.sessions[high] = (0, 9, 9, 0)
        yield from both('sessions-%d-%d' % (low, high), made)
    for i, j in ((7, 0), (0, 15), (7, 15)):
        made = Made(8, 16)
        made.layouts[i], made.sessions[j] = (5, 5, 0, 5), (9, 9, 9, 8)
        yield from both('layout-%d-session-%d' % (i, j), made)

# ---- the trailer

def counts():
    """Counts outside, with the distances that they ask for; and with rows that are there."""
    for laid in (0, 9, 16, 128, 255, 256, 257, 32769, 65535):
        made = Made(1, 1, noted(9))
        made.laid = laid
        yield from both('laid-%d' % laid, made)
        made.first, made.second = 32, 16
        yield from read('r-laid-%d-near' % laid, made.file())
    for playing in (17, 18, 32, 255, 256, 257, 32769, 65535):
        made = Made(1, 1, noted(9))
        made.playing = playing
        yield from both('playing-%d' % playing, made)
        made.first, made.second = 32, 16
        yield from read('r-playing-%d-near' % playing, made.file())
    yield from read('r-nine-layouts', Made(9, 0).file())
    yield from read('r-seventeen-sessions', Made(1, 17).file())
    for laid, playing in ((65537, 1), (1, 65537), (2**31, 0), (PAST, PAST), (1, PAST)):
        made = Made(1, 1)
        made.laid, made.playing = laid, playing
        yield from write('w-counts-%d-%d' % (laid, playing), made)
    for laid, playing in ((2, 0), (1, 2), (2, 1), (1, 0), (0, 2)):
        made = Made(1, 1, noted(40))
        made.laid, made.playing = laid, playing
        yield from read('r-counted-%d-%d' % (laid, playing), made.file())

def distances():
    for name, first, second in (('right', 80, 48), ('swapped', 48, 80), ('second-as-first', 80, 80), ('first-as-second', 48, 48),
                                ('none', 0, 0), ('by-layouts', 80, 32), ('from-the-end', 100, 68), ('rows', 5, 3), ('all', PAST, PAST)):
        made = Made(2, 3, noted(50))
        made.first, made.second = first, second
        yield from read('r-distance-' + name, made.file())
    for off in (1, -1, 4, -4, 16, -16, 32, 256, 65536, 2**24, 2**31, -81):
        for which in ('first', 'second'):
            made = Made(2, 3, noted(50))
            made.first, made.second = 80, 48
            setattr(made, which, getattr(made, which) + off)
            yield from read('r-distance-%s%+d' % (which, off), made.file())
    for layouts, sessions in ((1, 0), (8, 16), (1, 16), (8, 0)):
        made = Made(layouts, sessions)
        yield from read('r-trailer-of-%d-%d' % (layouts, sessions), made.file()[-20:])
        for cut in (1, 15, 16, 17):
            yield from read('r-trailer-of-%d-%d-less-%d' % (layouts, sessions, cut), made.file()[cut:])

def read_orders():
    """A file with the faults 1 to 7, from which the first is taken away again and again."""
    made = Made(4, 16, noted(1089))
    made.drive[0], made.layouts[3], made.sessions[2] = 0, (5, 6, 5, 5), (0, 9, 9, 0)
    made.laid, made.first, made.second = 0, 1, 1
    yield from read('r-order-1', made.file())
    made.note = noted(1025)
    yield from read('r-order-2', made.file())
    made.laid = None
    yield from read('r-order-3', made.file())
    made.first = made.second = None
    yield from read('r-order-4', made.file())
    made.note = noted(1024)
    yield from read('r-order-5', made.file())
    made.drive[0] = 512
    yield from read('r-order-6', made.file())
    made.layouts[3] = (6, 6, 5, 5)
    yield from read('r-order-7', made.file())
    made.sessions[2] = (9, 9, 9, 3)
    yield from read('r-order-none', made.file())

# ---- what a file may suffer

def cuts():
    data = Made(3, 4, noted(8)).file()
    for length in range(len(data) + 1):
        yield from read('r-front-cut-to-%d' % length, data[len(data) - length:])
        yield from read('r-back-cut-to-%d' % length, data[:length])
    yield from read('r-a-byte-more', data + b'\0')
    yield from read('r-a-trailer-more', data + data[-20:])

def flipped(data, bit):
    changed = bytearray(data)
    changed[bit // 8] ^= 1 << bit % 8
    return bytes(changed)

def flips():
    data = Made(1, 1, noted(3)).file()
    for bit in range(160):
        yield from read('r-trailer-flip-%d' % bit, flipped(data, 8 * (len(data) - 20) + bit))
    dice = Dice(77)
    for k in range(300):
        data = Made(dice.between(1, 4), dice.between(0, 4), noted(dice.between(0, 12)), seed=k).file()
        yield from read('r-flip-%d' % k, flipped(data, dice.between(0, 8 * len(data) - 1)))

# ---- writing: the buffer, and the order of refusals

def rooms():
    for layouts, sessions, length in ((1, 0, 0), (2, 3, 5), (8, 16, 0)):
        made = Made(layouts, sessions, noted(length))
        exact = made.length()
        for room in (0, 1, 19, exact - 20, exact - 16, exact - 1, exact, exact + 1, exact + 100):
            yield from write('w-room-%d-%d-%d' % (layouts, sessions, room), made, room)
    made = Made(8, 16, noted(1024))
    for room in (1427, 1429):
        yield from write('w-room-longest-%d' % room, made, room)
    yield from write('w-room-4096', Made(1, 0), 4096)

FAULTS = (2, 4, 5, 6, 7, 16)

def faulty(faults):
    made = Made(2, 2, noted(1025 if 4 in faults else 6))
    if 2 in faults:
        made.laid = 9
    if 5 in faults:
        made.drive[1] = 0
    if 6 in faults:
        made.layouts[1] = (5, 6, 5, 5)
    if 7 in faults:
        made.sessions[1] = (9, 9, 9, 2)
    name = 'w-faults-' + '-'.join(str(f) for f in faults)
    yield from write(name, made, made.length() - (16 in faults))

def write_orders():
    """Each fault alone, each two, and all of them from each one on."""
    for k, fault in enumerate(FAULTS):
        yield from faulty((fault,))
        for other in FAULTS[k + 1:]:
            yield from faulty((fault, other))
        if k < 4:
            yield from faulty(FAULTS[k:])
    made = Made(2, 2)
    made.playing = 17
    made.drive[0] = 0
    yield from write('w-faults-2-5-sessions', made, 0)

PARTS = stored, sizes, last, notes, limits, places, several, counts, distances, read_orders, cuts, flips, rooms, write_orders

def lines():
    for part in PARTS:
        yield from part()
