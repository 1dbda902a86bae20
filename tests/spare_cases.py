"""Spare time, the start, and what plays on after it: cases for tests/rehearsal_cases.py."""
import itertools
from dice import Dice
from limits import SESSIONS
from made_files import PAST
from made_shows import X, Z, alike
from run_rules import MICRO, PUT_MOST
from run_scripts import DICE, FAR, ask, asks, drain, held, light, load, playing, poke, pokes, put, run, show_of, three, tight
from sets import times

# ---- what is asked, and what is changed for it

def stand():
    """The workahead of each session, and the slack."""
    for i in range(playing()):
        ask('workahead', i)
    ask('slack')

def leads(*by):
    """P so that each session is so many bytes ahead of its cushion."""
    pokes(*(('P', run().sessions[i][1] + n, i) for i, n in enumerate(by)))

def cycle(rounds=1):
    """Reads, each block taken as it comes, for so many rounds."""
    for _ in range(rounds * sum(run().counts())):
        said = ask('choose')
        ask('finish', DICE.between(0, 9000))
        if said.startswith('read'):
            i = int(said.split()[1])
            ask('take', i, min(held(i), run().block()))

SWIFT = (4096, 4), [(900, 30, 200, 100), (400, 0, 100, 0), (100, 100, 50, 7)]

def swift(*layouts, rate=MICRO):
    """At this rate a byte is a µs, and the counts differ, as the times do."""
    drive, used = SWIFT
    return drive, used, [(rate, 10 + 3 * i, 10**6, layout) for i, layout in enumerate(layouts)]

# ---- the worked numbers

def worked():
    put('p8', alike(X, 3))
    leads(79_872, 30_720, 56_320)
    stand()
    ask('save')
    for i in range(3):
        poke('P', run().states[i][1] - 1, i)
        stand()
        ask('start')
        ask('back')
    asks('start', 'slack', 'start', 'choose', 'slack', 'start')
    put('p9-p10', alike(X, 3))
    pokes(('started', 1), ('P', 1), ('G', 1))
    for d in (0, 1, 1, 1):
        ask('pass', d)
        stand()
    for clock in (0, 1, 2, 511_999, 512_000, 512_001):
        poke('C', clock)
        stand()

# ---- rounding

RATES = 1, 3, 7, 512_000, 99_999_999, 10**8

def rounding():
    """A microbyte on either side of each multiple of R, ahead and behind."""
    put('rounding', ((65_536, 65_536), [(0, 0, 1, 0)], [(rate, 1000, 2**30, 0) for rate in RATES]))
    pokes(('started', 1), *((field, 10**6, i) for i in range(len(RATES)) for field in ('P', 'G')))
    for k, off in itertools.product((-3, -1, 0, 1, 1000), (-1, 0, 1)):
        pokes(*(('C', 999_000 * MICRO - k * rate - off, i) for i, rate in enumerate(RATES)))
        stand()

def farthest():
    """The most and the least that a workahead can be."""
    put('farthest', ((65_536, 65_536), [(0, 0, 1, 0)], [(1, 1, 2**30, 0), (1, 2**24, 2**30, 0), (10**8, 2**24, 2**30, 0)]))
    stand()
    poke('started', 1)
    for put_by, clock in ((PUT_MOST, 0), (PUT_MOST, PUT_MOST * MICRO), (PUT_MOST - 1, 1), (1, MICRO)):
        pokes(*((field, value, i) for i in range(3) for field, value in (('P', put_by), ('G', put_by), ('C', clock))))
        stand()

# ---- the order, and slack about 0

def ties():
    """Each way in which three can stand to one another, and some of four; the order before the start does not count."""
    three_ways = itertools.product((5000, 5001, 5002), repeat=3)
    four_ways = set(itertools.permutations((7000, 7001, 7001, 9000)))
    for show, ways in ((swift(0, 1, 2), three_ways), (swift(2, 0, 1, 2), sorted(four_ways))):
        put('ties-%d' % len(show[2]), show)
        pokes(*(('O', playing() - 1 - k, k) for k in range(playing())))
        ask('save')
        for by in ways:
            leads(*by)
            asks('slack', 'start', 'choose', 'back')

def ranked(order, off, tight_at):
    """Bytes ahead so that the sessions come in this order; the one at `tight_at` has `off` to spare, the others more."""
    spent = times(run().show(), run().counts())
    due = dict(zip(order, itertools.accumulate(spent[i] for i in order)))
    by = {i: due[i] + 2 for i in order}
    by[order[tight_at]] -= 2 - off
    return [by[i] for i in sorted(order)]

def borders():
    """Slack of -1, 0 and 1, at each place of each order; with larger counts too, and the cycle elsewhere before the start."""
    put('borders', swift(0, 1, 2))
    for larger in (0, 1):
        pokes(*(('M', run().states[i][0] + larger * (i + 1), i) for i in range(3)))
        ask('save')
        for order, k, off in itertools.product(itertools.permutations(range(3)), range(3), (-1, 0, 1)):
            leads(*ranked(order, off, k))
            if k == 1:
                pokes(('place', 2), ('left', 1))
            asks('slack', 'start', 'choose', 'back')

def one_byte():
    """From far behind to ahead, a byte at a time."""
    put('one-byte', alike(X, 1))
    for by in (0, 1, 42_000 * 512 // 1000 - 1, 42_000 * 512 // 1000, 42_000 * 512 // 1000 + 1):
        leads(by)
        stand()
        ask('start')

# ---- the refusals of each, alone and before the later ones

def spare_in_order():
    put('spare-in-order', swift(1, 0, 2))
    ask('save')
    for started, under, by in itertools.product((0, 1), (False, True), ((0, 0, 0), (9000, 8000, 9999))):
        leads(*by)
        poke('started', started)
        if under:
            ask('choose')
        stand()
        for i in (2, 3, 15, 16, PAST, 2**32, FAR):
            ask('workahead', i)
        for change in (('started', started), ('left', 0)):
            poke(*change)
            three()
            ask('start')
        ask('back')

def spare_of_none():
    for laid in (1, 3):
        put('spare-of-none-%d' % laid, light(0, laid), junk=True)
        pokes(('O', 5), ('M', 7), ('P', 99))
        for started in (0, 1):
            poke('started', started)
            three()
        poke('place', 1)
        three()

# ---- unused places

def unused():
    """Whatever stands there, it is not looked at, and stays."""
    for count in (1, 2, 5, 15):
        put('unused-%d' % count, swift(*(i % 3 for i in range(count))), junk=True)
        leads(*(20_000 + (7 * i + 3) % count for i in range(count)))
        above = range(count, SESSIONS)
        pokes(*(('O', (PAST, 0, k, 1)[k % 4], k) for k in above), *((field, FAR, k) for k in above for field in ('P', 'C') if k % 5 == 0 or k == count))
        poke('M', PAST, count)
        stand()
        asks('start', 'choose', 'slack')

# ---- sixteen

def of_sixteen():
    """Each less ahead than the one before it, all alike, some alike: a whole cycle in the order of the start. And loaded until nobody has room."""
    leading = {'falling': [4000 - 9 * i for i in range(16)], 'alike': [4000] * 16, 'mixed': [4000 + DICE.between(0, 5) for _ in range(16)]}
    for name, by in leading.items():
        put('sixteen-' + name, swift(*(i % 3 for i in range(16)), rate=10**5))    # the counts are 1
        leads(*by)
        asks('slack', 'start')
        cycle()
        ask('slack')
    put('sixteen-loaded', tight(light(16, 4)))
    load()
    stand()
    asks('start', 'choose')
    ask('pass', 1000)
    ask('slack')

# ---- loaded, started, played

def started():
    """Loaded until nobody has room, started, and played in the new order, with the spare time all along."""
    dice = Dice(15)
    for k, count in enumerate((1, 2, 3, 4)):
        put('started-%d' % count, show_of(dice, count, 1 + k % 3), junk=k % 2 > 0)
        stand()
        ask('start')
        load()
        ask('start' if k % 2 else 'slack')
        ask('start')
        cycle(2)
        for _ in range(2):
            for i in range(count):
                drain(i, held(i))
                ask('slack')
            stand()
            load()
        ask('start')

def part_loaded():
    """A start asked after each block, until it is granted; never with a read under way."""
    unlike = (51_200, 10), [X, Z], [(512_000, 70_000, 2**30, 0), (100_000, 1, 2**30, 1), (512_000, 1, 2**30, 1)]
    for name, show in (('alike', alike(X, 3)), ('unlike', unlike)):
        put('part-loaded-' + name, tight(show))
        while ask('start') != 'ok':
            ask('choose')
            ask('start')
            ask('finish', 1000)
            ask('slack')
        cycle(3)
        stand()

def settled():
    """The order of the start stays, whatever the workaheads come to."""
    put('settled', swift(0, 1, 2, 1))
    leads(9000, 8000, 8000, 7000)
    ask('start')
    for i in (0, 2):
        ask('take', i, 5000)
        ask('pass', 5000)
        stand()
        cycle()
        stand()

SPARE = worked, rounding, farthest, ties, borders, one_byte, spare_in_order, spare_of_none, unused, of_sixteen, started, part_loaded, settled
