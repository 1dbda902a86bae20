"""Damaged run records, and sound ones beside them: both sides of each border of refusal 19, for tests/rehearsal_cases.py."""
import itertools
from dice import Dice
from limits import LAYOUTS, SESSIONS
from made_files import PAST
from made_shows import X, Z
from run_rules import MICRO, PUT_MOST, SPAN_MOST
from run_scripts import (
    DICE, FAR, THREE, TURNS, ask, at_limit, bad_four, buffer_of, filled, four, held, largest, light, load, playing, poke, pokes, put, run, show_of, some_call,
    state, three, tight, tried)
from scripts import HEAD, ROWS

OF_RUN = (*ROWS['states'], 'O')
OF_SESSIONS = (*OF_RUN, *ROWS['sessions'])

# ---- what is changed: lists of changes, worked out of the run

def of_states(i):
    _, put_by, taken, _ = run().states[i]
    size, block = buffer_of(i), run().block()
    for at in (PUT_MOST, PUT_MOST + 1):
        yield ('P', at, i), ('G', at, i)
        yield ('P', at, i), ('G', at - size, i), ('C', 0, i)
    yield ('P', PUT_MOST, i), ('G', PUT_MOST + 1, i)
    for at in (0, 1, taken + size, taken + size + 1, FAR, FAR - block + 1):
        yield (('P', at, i),)
    for at in (0, 1, put_by, put_by + 1, FAR):
        yield ('G', at, i), ('C', 0, i)
    for at in (0, 1, taken * MICRO, taken * MICRO + 1, FAR):
        yield (('C', at, i),)
    yield ('G', 1, i), ('C', MICRO, i)
    yield ('G', 1, i), ('C', MICRO + 1, i)
    yield ('started', 0), ('G', 0, i), ('C', 0, i)

def of_counts(i):
    count, size = state(i, 0), buffer_of(i)
    most = (size - run().sessions[i][1]) // run().block() - 1
    for m in (0, count - 1, count + 1, most, most + 1, PAST):
        yield (('M', m, i),)

def of_reads(i):
    size, block = buffer_of(i), run().block()
    place = run().order.index(i)
    here = ('place', place), ('left', 1), ('under', i), ('started', 1)
    yield (('under', i),)
    yield here
    yield (*here, ('place', (place + 1) % playing()))
    for by in (0, 1):
        yield (*here, filled(i, by))
        yield (*here, *at_limit(i, by))
        yield (*here, ('G', PUT_MOST - size, i), ('P', PUT_MOST - block + by, i), ('C', 0, i))

def of_cycle():
    count = playing()
    for k, named in itertools.product(range(count), (0, 1, count - 1, count, SESSIONS, PAST)):
        yield (('O', named, k),)
    yield tuple(('O', (k + 1) % count, k) for k in range(count))
    yield tuple(('O', k + 1, k) for k in range(count))
    for place in (0, 1, count - 1, count, SESSIONS, PAST):
        yield ('place', place), ('left', 1)
        yield ('place', place), ('left', 1), ('under', -1)
    for left in (0, 1, run().whole(run().place), run().whole(run().place) + 1, PAST):
        yield (('left', left),)
    for i in (count, SESSIONS, PAST):
        yield (('under', i),)
    yield (('under', -1),)
    for started in (0, 1):
        yield (('started', started),)

def of_show():
    for field, values in (('A', (0, 511, 513, 512, 66_048, PAST)), ('N', (0, 1, 65_536, 65_537)), ('lc', (0, 8, 9, PAST)),
                          ('sc', (0, playing() - 1, playing() + 1, SESSIONS, SESSIONS + 1, PAST))):
        for value in values:
            yield ((field, value),)
    for i in range(run().head[2]):
        longest = run().layouts[i][0]
        for field, values in (('l.far', (10**6 + 1,)), ('l.one', (longest, longest + 1)), ('l.blk', (0, 1, 10**6 + 1)), ('l.rot', (0, 10**6 + 1))):
            for value in values:
                yield ((field, value, i),)

def of_sessions(i):
    for field, values in (('s.R', (0, 1, 10**8, 10**8 + 1)), ('s.Y', (0, 1, 2**24, 2**24 + 1)), ('s.B', (0, held(i) - 1, held(i), 2**30, 2**30 + 1)),
                          ('s.lay', (0, run().head[2], PAST))):
        for value in values:
            yield ((field, value % 2**32, i),)

def of_unused():
    """No damage, whatever it is."""
    above = [(field, playing(), SESSIONS) for field in OF_SESSIONS] + [(field, run().head[2], LAYOUTS) for field in ROWS['layouts']]
    for field, first, places in above:
        yield ((field, largest(field), DICE.between(first, places - 1)),)
    yield tuple((field, largest(field), i) for field, first, places in above for i in (first, places - 1))

# ---- the runs that are changed so

CALLS = itertools.cycle((('pass', 1), ('take', 0, 0), ('choose',), ('finish', 1), ('workahead', 0), ('slack',), ('start',)))

def touched(*changes):
    """The kept run with fields changed, under one of the calls by turns; then as it was."""
    pokes(*changes)
    ask(*next(CALLS))
    ask('back')

def damages(sessions, of_others=touched):
    """What is changed is worked out of the run as it is, which is kept; so the lists come first."""
    ask('save')
    others, own = [*of_show(), *of_unused()], [of_cycle()] + [of(i) for i in sessions for of in (of_states, of_counts, of_reads, of_sessions)]
    own = list(itertools.chain(*own))
    for changes in others:
        of_others(*changes)
    for changes in own:
        tried(*changes)

UNLIKE = (51_200, 10), [X, Z], [(512_000, 1, 220_000, 0), (400_000, 700, 250_000, 1), (512_000, 51_200, 205_000, 0)]

def damaged():
    put('damaged', UNLIKE)
    ask('choose')
    ask('finish', 0)
    damages([0, 2], tried)
    poke('started', 1)
    load()
    for i in range(3):
        ask('take', i, 90_000 + i)
        ask('pass', 1000)
    ask('choose')
    ask('finish', 40)
    damages([1])
    ask('choose')
    damages([0])

def sixteen():
    """The last of sixteen, and orders that name a session twice far apart."""
    put('damaged-of-sixteen', tight(light(16, 8)))
    pokes(('started', 1), *(('P', 900, i) for i in range(16)), *(('G', 800, i) for i in range(16)))
    ask('save')
    orders = [(('O', named, k),) for k, named in ((0, 15), (15, 0), (7, 8), (15, 14), (15, 16), (0, 16))]
    for changes in [*of_states(15), *of_counts(15), *of_reads(15), *of_sessions(15), *orders, (('O', 15, 0), ('O', 0, 15))]:
        touched(*changes)

def every_order():
    """Each order that three places can hold."""
    put('every-order', THREE)
    ask('save')
    for order in itertools.product(range(3), repeat=3):
        tried(*(('O', named, k) for k, named in enumerate(order)))

def twice():
    """Damage, and what each call is refused for besides."""
    put('damaged-and-refused', THREE)
    ask('save')
    for change in (('left', 0), ('place', 3), ('M', 0), ('G', 1), ('under', 1), ('A', 0), ('lc', 0), ('s.R', 0), ('O', 1)):
        poke(*change)
        bad_four()
        three(SESSIONS)
        ask('back')

OF_NONE = (('place', 1), ('place', PAST), ('left', 1), ('left', PAST), ('under', 0), ('under', PAST), ('under', -1), ('sc', 1), ('sc', 17), ('lc', 0),
           ('lc', 9), ('A', 513), ('N', 0), ('l.blk', 0), ('l.one', 10**6), ('M', 5), ('P', FAR), ('G', 1), ('C', 1), ('O', 3), ('s.R', 7))

def empty():
    for laid, changes in ((8, ()), (1, OF_NONE)):
        put('empty-%d' % laid, light(0, laid), junk=True)
        for started in (0, 1):
            poke('started', started)
            four()
            bad_four()
            three()
            ask('finish', SPAN_MOST)
            ask('save')
            for change in changes:
                tried(change)

# ---- every field at every place

def every_place():
    """Each is told in its place, as a used one and as an unused one."""
    put('every-place', light(16))
    ask('save')
    for field in OF_RUN:
        pokes(*((field, largest(field) - i, i) for i in range(SESSIONS)))
        for count in (16, 0, 15, 1, 17, PAST):
            poke('sc', count)
            ask('slack')
        ask('back')

# ---- damage at random

ALONE = 'place', 'left', 'under', 'started'

def value_at(field, i):
    for name, fields in ROWS.items():
        if field in fields:
            return getattr(run(), name)[i][fields.index(field)]
    if field in HEAD:
        return run().head[HEAD.index(field)]
    return run().order[i] if field == 'O' else getattr(run(), field)

def near(dice, value):
    return (0, 1, value + 1, max(value, 1) - 1, 2 * value, PAST, dice.between(0, FAR), dice.between(0, 20))[dice.between(0, 7)]

def some_poke(dice):
    fields = ((*HEAD, *OF_SESSIONS, *ROWS['layouts'], *ALONE), (*OF_RUN, *ALONE))[dice.between(0, 1)]
    field, i = fields[dice.between(0, len(fields) - 1)], dice.between(0, playing() - 1) % LAYOUTS
    if field == 'started':
        return field, dice.between(0, 1)
    if field == 'under':
        return field, dice.between(-1, 17)
    return field, near(dice, value_at(field, i)) % (largest(field) + 1), i

def fuzzed():
    dice = Dice(5)
    for count in (1, 2, 3, 4):
        put('fuzzed-%d' % count, show_of(dice, count, 2))
        load()
        ask('start')
        for _ in range(10):
            some_call(dice)
        for _ in range(12):
            ask('save')
            pokes(*(some_poke(dice) for _ in range(dice.between(1, 2))))
            four(dice.between(0, count), dice.between(0, 1000), dice.between(0, 9000))
            ask(*next(TURNS))
            ask('back')
            some_call(dice)

DAMAGE = damaged, sixteen, every_order, twice, empty, every_place, fuzzed
