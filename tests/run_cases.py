"""Shows that are opened, refused or played: whole cycles, skips, clocks, limits. Cases for tests/rehearsal_cases.py."""
import itertools
from dice import Dice
from limits import SESSIONS
from made_files import BAD_LAYOUT, BAD_SESSION, PAST, Made, noted
from made_shows import X, Z, alike, changed
from run_rules import MICRO, PUT_MOST, SPAN_MOST
from run_scripts import (
    DICE, FAR, THREE, ask, asks, at_limit, begin, drain, filled, four, held, light, load, playing, poke, pokes, put, show_of, some_call, three, tight)
from show_files import encode

# ---- opening

def accepted():
    for count, laid in itertools.product((0, 1, 2, 3, 8, 15, 16), (1, 3, 8)):
        put('accepted-%d-%d' % (count, laid), light(count, laid), junk=laid > 1)
        three(count)
        four()
    _, _, sessions = alike(Z, 10)
    almost = (51_200, 10), [Z], changed(sessions, 9, (506_880, 1, 200_000_000, 0))
    shows = {'p2': alike(X, 1), 'p2-102401': alike(X, 1, 102_401), 'p3': alike(X, 3), 'p4': alike((28_000, 2000, 10_000, 5000), 2),
             'p5': alike(Z, 9, 1_484_801), 'p7': almost}
    for name, show in shows.items():
        put(name, show)
        asks('choose', 'slack')

def refused(name, data):
    begin('refused-' + name, data)
    ask('open')

def refused_files():
    """1 to 4."""
    longest = encode(light(16, 8), noted(1024))
    for data in (b'', longest[-19:], longest[-20:], b'\0' + longest):
        refused('length-%d' % len(data), data)
    for laid, playing in ((0, 1), (9, 1), (256, 1), (65535, 1), (1, 17), (1, 256), (1, 65535), (9, 17)):
        made = Made(1, 1, noted(9))
        made.laid, made.playing = laid, playing
        refused('counts-%d-%d' % (laid, playing), made.file())
    for first, second in ((32, 15), (31, 16), (33, 16), (32, 17), (48, 32), (16, 32), (PAST, 16)):
        made = Made(1, 1, noted(9))
        made.first, made.second = first, second
        refused('distances-%d-%d' % (first, second), made.file())
    refused('reaches-before', Made(1, 1).file()[1:])
    refused('note-1025', encode(light(1), noted(1025)))

def refused_shows():
    """5; 6 and 7 at each place, with an offender above; 8."""
    drive, layouts, sessions = light(16, 8)
    for wrong in ((0, 32), (511, 32), (513, 32), (66_048, 32), (4096, 0), (4096, 65_537), (PAST, PAST)):
        refused('drive-%d-%d' % wrong, encode((wrong, layouts[:1], sessions[:1]), b''))
    for i in range(8):
        refused('layout-%d' % i, encode((drive, (layouts[:i] + [BAD_LAYOUT[i % 5]] * 2)[:8], [BAD_SESSION[i % 6]]), b''))
    for i in range(SESSIONS):
        refused('session-%d' % i, encode((drive, layouts[:2], (light(i, 2)[2] + [BAD_SESSION[i % 6]] * 2)[:16]), b''))
    for name, show in (('p2', alike(X, 1, 102_400)), ('p5', alike(Z, 9, 1_484_800)), ('p6', alike(Z, 10))):
        refused(name, encode(show, b''))

def refused_for_all():
    """Every choice of faults: the first of them in the order 2, 5, 6, 7, 8."""
    for chosen in itertools.product((0, 1), repeat=5):
        counts, drive, layouts, sessions, buffer = chosen
        made = Made(2, 2)
        made.drive, made.layouts = (4096, 0 if drive else 32), [X, (5, 6, 5, 5) if layouts else Z]
        made.sessions = [(1000, 100, 1 if buffer else 1_000_000, 1), (1000, 100, 1_000_000, 2 if sessions else 1)]
        if counts:
            made.laid = 9
        refused('for-%d%d%d%d%d' % chosen, made.file())

def kept():
    """What is kept stays when another show is opened, also where that is refused."""
    put('kept', light(2))
    four()
    ask('save')
    for show in (THREE, alike(Z, 10)):
        ask('show', encode(show, b'').hex())
        if ask('open') == 'ok':
            ask('choose')
        ask('back')
        four()

# ---- the refusals of each call, alone and before the later ones

def in_order():
    put('refusals-in-order', THREE)
    for started in (0, 1):
        poke('started', started)
        for n in (0, 1, FAR):
            for i in (0, 2, 3, 15, 16, PAST, 2**32, FAR):
                ask('take', i, n)
        for d in (0, SPAN_MOST, SPAN_MOST + 1, 2**32, FAR):
            for call in ('pass', 'finish'):
                ask(call, d)
        ask('choose')
        for d in (SPAN_MOST + 1, FAR):
            ask('finish', d)
            ask('choose')
            ask('pass', d)
        ask('finish', SPAN_MOST)
        ask('finish', 0)
        for n in (held(0) + 1, FAR, 0, held(0), 1, 0):
            ask('take', 0, n)

# ---- whole cycles

def cycles():
    for count, more in (*itertools.product((1, 2, 3), (0, 2)), (8, 0)):
        put('cycles-%d-%d' % (count, more), show_of(DICE, count, more), junk=more > 0)
        load()
        ask('choose')
        ask('pass', 1000)
        ask('start')
        for part in (1, 2, 3) if count < 3 else (2,):
            for i in range(playing()):
                drain(i, held(i) // part)
            load()

def rounds():
    """Three on X, a block taken for each that comes: round after round, with no skip."""
    put('rounds', tight(alike(X, 3)))
    load()
    ask('start')
    for i in range(3):
        ask('take', i, 2 * 51_200)
    for _ in range(5 * 6):
        said = ask('choose')
        ask('pass', 500)
        ask('finish', 26_000)
        ask('take', int(said.split()[1]), 51_200)

# ---- at random

def plays():
    dice = Dice(77)
    for k, (count, calls) in enumerate(((1, 80), (2, 100), (3, 120), (5, 40), (16, 8))):
        put('play-%d' % count, show_of(dice, count, k % 3, (100, 400, 700)[k % 3]), junk=k % 2 > 0)
        for _ in range(calls // 4):
            some_call(dice)
        if ask('start') != 'ok':
            poke('started', 1)
        for _ in range(calls):
            some_call(dice)

# ---- skips

def skips():
    """Each place, each choice of full sessions, the whole count left and one block of it."""
    put('skips', THREE)
    pokes(*(filled(i, 0) for i in range(3)))
    ask('save')
    for place, left, full in itertools.product(range(3), (1, 2), itertools.product((False, True), repeat=3)):
        pokes(('place', place), ('left', left), *(filled(i) for i in range(3) if full[i]))
        ask('choose')
        ask('finish', 5)
        asks('choose', 'back')

def but_one():
    """Sixteen, all full but one, or all."""
    put('all-full-but-one', tight(light(16, 4)))
    poke('started', 1)
    pokes(*(('G', i, i) for i in range(16)))
    pokes(*(filled(i) for i in range(16)))
    ask('save')
    for place, i in itertools.product((0, 7, 15), range(16)):
        pokes(('place', place), filled(i, 0))
        ask('choose')
        ask('finish', 100)
        ask('back')
    for place in range(16):
        poke('place', place)
        ask('choose')

def amid():
    """A buffer that is full in the middle of an operation, and one from which a block, or less, is taken there."""
    put('amid', alike(X, 5, 400_000))    # the counts are 4
    poke('started', 1)
    for i in range(5):
        pokes(('P', 400_000, i), ('G', 1000 * i, i))
    ask('save')
    for place, blocks, n in itertools.product((0, 4), (1, 2, 3), (0, 51_199, 51_200, 51_201)):
        pokes(('place', place), filled(place, -51_200 * (blocks - 1)))
        for _ in range(blocks):
            ask('choose')
            ask('finish', 10)
        ask('take', place, n)
        ask('choose')
        ask('finish', 10)
        asks('choose', 'back')

def orders():
    """Other orders than that of the table, before the start and after."""
    for count in (2, 3, 8, 16):
        put('orders-%d' % count, show_of(DICE, count, 1))
        for order in ([(5 * k + 3) % count for k in range(count)], *([range(count)[::-1]] if count < 16 else [])):
            pokes(*(('O', named, k) for k, named in enumerate(order)), ('place', count - 1), ('left', 1))
            ask('save')
            for _ in range(count + 4):
                ask('choose')
                ask('finish', 7)
            if count < 8:
                load()
                poke('started', 1)
                for i in range(0, count, 2):
                    ask('take', i, held(i))
                load()
            ask('back')

def larger_counts():
    """Counts that are larger than the smallest and do as well."""
    for count in (1, 3):
        put('larger-counts-%d' % count, alike(X, count, 51_200 * 7))
        pokes(*(('M', 4 + i % 2, i) for i in range(count)))
        load()
        ask('start')
        for i in range(count):
            drain(i, held(i))
        load()

# ---- the limit on P

def put_limit():
    """At each place, with and without a skip before it, on both sides of the limit; the later ones are not asked."""
    put('limit-on-P', alike(X, 3, 160_000))
    poke('started', 1)
    ask('save')
    for place, skipped, off in itertools.product(range(3), range(3), (-1, 0, 1, 51_200)):
        arrived = (place + skipped) % 3
        pokes(('place', place), ('left', 1), *at_limit(arrived, off), *at_limit((arrived + 1) % 3, 1), *(filled((place + k) % 3) for k in range(skipped)))
        ask('choose')
        ask('finish', 3)
        asks('choose', 'back')

def full_at_limit():
    """Nobody has room: idle, wherever P is. Then a byte is taken: 14."""
    put('full-at-the-limit', alike(X, 3, 160_000))
    poke('started', 1)
    for i in range(3):
        pokes(('P', PUT_MOST, i), ('G', PUT_MOST - 108_801, i))
    poke('left', 1)
    for n in (0, 1, 108_800):
        ask('take', 1, n)
        ask('choose')
        four(2)

def up_to_limit():
    """Block after block to the limit, and to the last byte below it."""
    for off in (-102_400, -102_401, -102_399):
        put('up-to-the-limit%d' % off, alike(X, 1))
        pokes(('started', 1), *at_limit(0, off))
        for _ in range(5):
            ask('choose')
            ask('finish', 20_000)
        ask('take', 0, held(0))
        four()

# ---- clocks

def clocks():
    put('clocks', alike(X, 3))
    ask('pass', SPAN_MOST)
    pokes(('started', 1), *(('P', 51_200, i) for i in range(3)), ('G', 1))
    ask('save')
    for d in (0, 1, 1, 0, 1, SPAN_MOST):    # p10
        ask('pass', d)
    for d, n in itertools.product((124, 125, 126, SPAN_MOST, SPAN_MOST + 1, 0), (63, 64, 65)):    # 125 µs are 64 bytes
        ask('back')
        ask('take', 1, n)
        ask('choose')
        ask('pass', d)
        ask('finish', d)

def long_clocks():
    """The largest rate, the longest time, the most bytes: the clock comes close to the end of 64 bits."""
    put('long-clocks', ((65_536, 65_536), [(0, 0, 1, 0)], [(10**8, 1, 2**30, 0), (1, 1, 2**30, 0)]))
    pokes(('started', 1), *((field, PUT_MOST, i) for i in range(2) for field in ('P', 'G')))
    ask('save')
    most = PUT_MOST * MICRO
    for clock in (0, most - 10**17 - 1, most - 10**17, most - 10**17 + 1, most - 10**9, most - 1, most, most + 1):
        for d in (SPAN_MOST, SPAN_MOST - 1, 1):
            pokes(('C', clock, 0), ('C', clock, 1))
            ask('pass', d)
            ask('pass', d)
            ask('back')

RUNS = (accepted, refused_files, refused_shows, refused_for_all, kept, in_order, cycles, rounds, plays, skips, but_one, amid, orders, larger_counts, put_limit,
        full_at_limit, up_to_limit, clocks, long_clocks)
