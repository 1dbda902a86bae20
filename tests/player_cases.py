"""Players' takes of one session's state. Cases for tests/rehearsal_cases.py."""
import itertools
from dice import Dice
from made_files import PAST
from run_rules import MICRO, PUT_MOST

FAR = 2**64 - 1
BUFFER = 6000
FIELDS = 'put', 'got', 'clock', 'rate', 'cushion', 'buffer', 'layout', 'started', 'n'
BELOW = 2**64, 2**64, 2**64, 2**32, 2**32, 2**32, 2**32, 2, 2**64
SOUND = dict(put=5000, got=2000, clock=7 * MICRO, rate=512_000, cushion=100, buffer=BUFFER, layout=0, started=1, n=1)
EARLY = {**SOUND, 'got': 0, 'clock': 0, 'started': 0}

def line(state, **changes):
    return 'player ' + ' '.join(str({**state, **changes}[field]) for field in FIELDS)

# ---- takes

def amounts():
    """On both sides of what is there."""
    for state, put, got in itertools.product((SOUND, EARLY), (1, 2000, 5000, PUT_MOST), (0, 1, 4999)):
        if got <= put and (state is SOUND or got == 0):
            for n in (0, 1, put - got - 1, put - got, put - got + 1, FAR):
                yield line(state, put=put, got=got, clock=0, buffer=PAST if put < PUT_MOST else 10, n=n % 2**64)

def held():
    """Nothing, all, and a byte more than the buffer takes."""
    for buffer, over, n in itertools.product((0, 1, BUFFER, PAST), (-1, 0, 1), (0, BUFFER)):
        if buffer + over >= 0:
            yield line(SOUND, put=2000 + buffer + over, buffer=buffer, n=n)
            yield line(EARLY, put=buffer + over, buffer=buffer, n=n)

# ---- damage

def limits():
    """P at its limit and past it, all of it taken and as little as may be."""
    for put, kept in itertools.product((PUT_MOST - 1, PUT_MOST, PUT_MOST + 1, 2**63, FAR), (0, 1, BUFFER, BUFFER + 1)):
        yield line(SOUND, put=put, got=put - kept, n=kept)

def overtaken():
    for got in (4999, 5000, 5001, 5000 + BUFFER, PUT_MOST, 2**63, FAR - 5000, FAR):
        for n in (0, FAR):
            yield line(SOUND, got=got, clock=0, n=n)

def clocks():
    for got, off, n in itertools.product((0, 1, 2000, 5000), (-1, 0, 1), (0, 1)):
        if got * MICRO + off >= 0:
            yield line(SOUND, got=got, clock=got * MICRO + off, n=n)
    for off in (-1, 0, 1):
        yield line(SOUND, put=PUT_MOST, got=PUT_MOST, clock=PUT_MOST * MICRO + off, n=0)
    for clock in (2**32, 2**63, FAR):
        yield line(SOUND, clock=clock)
    # 2^64 microbytes and more: a product of 64 bits would come out small
    for got in (2**64 // MICRO, 2**64 // MICRO + 1, 2**58):
        yield line(SOUND, put=got, got=got, clock=1, n=0)

def early():
    """Before the start G and C are 0."""
    for started, put, got, clock in itertools.product((0, 1), (0, 1, 5000), (0, 1), (0, 1, MICRO)):
        yield line(SOUND, started=started, put=put, got=got, clock=clock, n=0)

# ---- what is not looked at

def unseen():
    for state in (SOUND, EARLY):
        for field, value in itertools.product(('rate', 'cushion', 'layout'), (0, 10**8 + 1, PAST)):
            yield line(state, **{field: value})
        yield line(state, rate=0, cushion=0, layout=PAST, n=0)

def drawn():
    dice = Dice(8)
    for _ in range(30):
        got = dice.between(0, PUT_MOST)
        put = got + dice.between(0, 2 * BUFFER)
        yield line(SOUND, put=put, got=got, clock=dice.between(0, 2 * got * MICRO), n=dice.between(0, put - got + 1), started=dice.between(0, 7) and 1)

def widest():
    """The largest number in each place, and zeros before a number."""
    for field, limit in zip(FIELDS, BELOW):
        yield line(SOUND, **{field: limit - 1})
        yield line(SOUND, **{field: '0' * 25 + str(SOUND[field])})
    yield line(SOUND)

PARTS = amounts, held, limits, overtaken, clocks, early, unseen, drawn, widest

def lines():
    for part in PARTS:
        yield 'case player-' + part.__name__
        yield from part()
