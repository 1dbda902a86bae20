"""Scripts that the program `rehearsal` is run on, and the run that they are on: for the scripts that make its cases. The answers of tests/scripts.py follow
each line, so that the next one can go by the run."""
import itertools
from dice import Dice
from limits import LAYOUTS, SESSIONS
from made_shows import X, alike, buffered
from run_rules import G, P, PUT_MOST, SPAN_MOST
from scripts import LISTED, Desk
from sets import needed, smallest
from show_files import encode, hexed

FAR = 2**64 - 1
DICE = Dice(1991)
DESK = Desk()
TURNS = itertools.cycle((('workahead', 0), ('slack',), ('start',)))

# ---- lines

def ask(*words):
    """Hands back what must be answered."""
    line = ' '.join(str(word) for word in words)
    print(line)
    return DESK.answer(line)

def begin(name, data):
    """A new case, with a show file."""
    if DESK.case:
        ask('end')
    ask('case', name)
    ask('show', hexed(data))

def put(name, show, junk=False):
    """A new case, and the show opened in it."""
    begin(name, encode(show, b''))
    if junk:
        ask('junk')
    return ask('open')

def largest(field):
    return FAR if field in ('P', 'G', 'C') else 2**32 - 1

def poke(field, value, index=0):
    ask('poke', field, *([index] if field in LISTED else []), value)

def pokes(*changes):
    for change in changes:
        poke(*change)

def asks(*calls):
    """Calls that are given nothing, and what is kept and put back."""
    for call in calls:
        ask(call)

def four(session=0, d=1, n=0):
    """Each call once that plays."""
    ask('pass', d)
    ask('take', session, n)
    ask('choose')
    ask('finish', d)

def bad_four():
    """The calls with what each is refused for by itself."""
    four(SESSIONS, SPAN_MOST + 1, FAR)

def three(session=0):
    """Each call once that is about spare time."""
    ask('workahead', session)
    ask('slack')
    ask('start')

def tried(*changes):
    """The kept run with fields changed, under each call that plays and one of the others by turns; then as it was."""
    pokes(*changes)
    four()
    ask(*next(TURNS))
    ask('back')

# ---- what is in the run

def run():
    return DESK.case.run

def playing():
    return run().playing()

def state(i, field):
    return run().states[i][field]

def held(i):
    return state(i, P) - state(i, G)

def buffer_of(i):
    return run().sessions[i][2]

# ---- changes of the run that are worked out of it: field, value, place

def filled(i, by=1):
    """P that leaves the session by so many bytes without room for a block."""
    return 'P', state(i, G) + buffer_of(i) - run().block() + by, i

def at_limit(i, off):
    """P with all of it taken, so far past the last at which a block may come."""
    put_by = PUT_MOST - run().block() + off
    return ('P', put_by, i), ('G', put_by, i)

# ---- shows whose rounds have few blocks

def layout(dice):
    longest = dice.between(0, 30_000)
    return longest, dice.between(0, min(longest, 4000)), dice.between(50, 10_000), dice.between(0, 8000)

def session(dice, drive, layouts, share):
    """One that asks for so many thousandths of the drive."""
    place = dice.between(0, len(layouts) - 1)
    _, track, time, _ = layouts[place]
    whole = drive[0] * drive[1] * 10**6 // (drive[1] * time + track)
    return min(10**8, 1 + whole * share // 1000), dice.between(1, (20, 2 * drive[0])[dice.between(0, 1)]), 2**30, place

def drawn(dice, count, load):
    drive = 512 * dice.between(1, 128), (1, 2, 7, 10, 64)[dice.between(0, 4)]
    layouts = [layout(dice) for _ in range(dice.between(1, LAYOUTS))]
    return drive, layouts, [session(dice, drive, layouts, dice.between(1, 2 * load) // count) for _ in range(count)]

def show_of(dice, count, more, load=400):
    """A show that is accepted; each buffer takes its count, and `more` blocks or less besides."""
    while True:
        show = drawn(dice, count, load)
        counts = smallest(show)
        if counts is not None and sum(counts) <= (3 * count if count < SESSIONS else count) + 4:
            return buffered(show, [size + dice.between(0, show[0][0] * more) for size in needed(show, counts)])

def tight(show):
    return buffered(show, needed(show, smallest(show)))

THREE = tight(alike(X, 3))    # counts 2, 2, 2; a buffer takes three blocks

def light(count, laid=1):
    """Small rates and ample buffers: the counts are 1."""
    return (4096, 32), [X] * laid, [(1000 + 10 * i, 100 + i, 1_000_000 + i, i % laid) for i in range(count)]

# ---- calls that go by the run

def load():
    """Reads until nobody has room."""
    while ask('choose').startswith('read'):
        ask('finish', DICE.between(0, 40_000))

def drain(i, n):
    ask('take', i, n)
    ask('pass', DICE.between(0, 200_000))

def some_take(dice):
    i = dice.between(0, playing() - 1)
    some, blocks = dice.between(0, held(i)), dice.between(0, 3) * run().block()
    kinds = [0, held(i), held(i) + 1, some, some, min(held(i), blocks), FAR]
    ask('take', i if dice.between(0, 19) else playing(), kinds[dice.between(0, 6)])

def some_time(dice):
    least, most = ((0, 0), (1, 1), (0, 1000), (0, 100_000), (0, 100_000), (0, SPAN_MOST), (SPAN_MOST, SPAN_MOST + 1))[dice.between(0, 6)]
    return dice.between(least, most)

def some_call(dice):
    kind = dice.between(0, 12)
    if kind > 9:
        ask(*(('workahead', dice.between(0, playing())), ('slack',), ('start',))[kind - 10])
    elif kind < 2:
        some_take(dice)
    elif kind == 2:
        ask('pass', some_time(dice))
    elif (run().under is None) == (dice.between(0, 11) > 0):
        ask('choose')
    else:
        ask('finish', some_time(dice))
