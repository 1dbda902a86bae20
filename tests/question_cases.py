"""Questions where they stand beside other lines: after a file that was refused, after `junk`, amid the calls of a run, which they must not change. Cases for
tests/rehearsal_cases.py."""
import itertools
from made_files import BAD_LAYOUT, BAD_SESSION, FULL, Made, noted
from made_lines import case, shown
from made_shows import X, Z, alike, buffered
from memory import JUNK_LAYOUT, JUNK_SESSION, NONE, Memory, in_memory
from show_files import encode, hexed

TWO = alike(X, 2)
SMALL = alike(X, 1, 102_400)    # refused 8
OF_MEMORY = 'decide', 'why', 'load', 'worst 0 1', 'worst 1 11', 'worst 2 1', 'try 2,2', 'try 1,1', 'try -', 'write - 100', 'write 6E6f7465 88', 'write - 0'
PLAYER = 'player 5000 2000 7000000 512000 100 6000 0 1 1'

def read(show, note=b''):
    return 'show ' + hexed(encode(show, note))

def on_their_own(data):
    return ['%s %s' % (word, hexed(data)) for word in ('file', 'report', 'explain')] + [PLAYER]

# ---- a file that was refused, and what takes its place

def refused_files():
    """1 to 7; then a show in memory, and the file again."""
    good = Made(2, 2)
    good.drive, good.layouts, good.sessions = (4096, 32), [X, Z], [(1000, 100, 1_000_000, 1)] * 2
    faults = ({'note': noted(1409)}, {'laid': 9}, {'first': 63}, {'note': noted(1025)}, {'drive': (4096, 0)}, {'layouts': [X, BAD_LAYOUT[1]]},
              {'sessions': [good.sessions[0], BAD_SESSION[0]]})
    for number, changes in enumerate(faults, 1):
        wrong = Made(2, 2)
        vars(wrong).update({**vars(good), **changes})
        asked = OF_MEMORY if number in (1, 7) else ('decide', 'why', 'load', 'worst 9 1', 'try 1', 'write - 4096')
        yield from case('asked-refused-%d' % number, 'show ' + hexed(wrong.file()), *asked, 'junk', 'decide', *on_their_own(good.file()), 'open', 'why')
    yield from case('asked-refused-then-memory', 'show 00', 'decide', shown(in_memory(TWO)), *OF_MEMORY, 'show 00', *OF_MEMORY, read(SMALL), 'decide', 'why',
                    'open', 'load')

def replaced():
    """The last show or memory is the one that is asked about."""
    over = in_memory(alike(Z, 10))
    yield from case('asked-of-the-last', read(TWO), 'decide', shown(over), 'decide', 'why', 'load', read(SMALL), 'decide', 'why', shown(in_memory(TWO)),
                    'decide', 'try 2,2')
    yield from case('asked-after-open', read(TWO), 'open', shown(over), 'decide', 'choose', 'open', 'decide', read(TWO), 'why', 'open', 'load', 'choose')
    yield from case('note-not-kept', read(TWO, b'a note'), 'write - 100', 'write 61 100', 'open', 'write - 68')

# ---- nothing is looked at above the counts

def junk():
    for name, show in (('two', TWO), ('none', alike(X, 0)), ('small', SMALL), ('sixteen', alike(Z, 16, rate=1000))):
        yield from case('junk-asked-' + name, read(show), *OF_MEMORY, 'junk', *OF_MEMORY, 'open')
    for name, unused in (('full', (FULL, FULL)), ('good', (X, TWO[2][0])), ('zero', (NONE, NONE))):
        yield from case('memory-above-' + name, shown(in_memory(TWO, *unused)), *OF_MEMORY, 'open', 'slack', 'junk', *OF_MEMORY, 'open', 'slack')

def counted():
    """Counts outside their limits; junk has no place then, or each."""
    for head in ((51_200, 10, 0, 2), (51_200, 10, 9, 2), (51_200, 10, 2**32 - 1, 2), (51_200, 10, 1, 17), (51_200, 10, 1, 2**32 - 1), (0, 0, 0, 0)):
        table = in_memory(TWO)
        table.head = list(head)
        asked = 'decide', 'why', 'load', 'worst 0 1', 'try 2,2', 'write - 84', 'open'
        yield from case('memory-counts-%d-%d' % head[2:], shown(table), *asked, 'junk', *asked)

# ---- shows in memory that are opened

LATER = 'poke sc 3', 'poke M 0 2', 'poke M 1 2', 'poke M 2 2', 'poke O 2 2', 'poke left 2', 'slack'

def opened():
    """The show is kept as it was given, the unused places too: a third session that is there becomes one once the count says so."""
    calls = 'choose', 'finish 40', 'choose', 'pass 5', 'finish 7', 'slack', 'workahead 0', 'start', 'take 0 1'
    yield from case('memory-opened', shown(in_memory(TWO)), 'open', *calls, 'decide', 'end')
    for name, unused in (('good', (X, TWO[2][0])), ('junk', (JUNK_LAYOUT, JUNK_SESSION)), ('full', (FULL, FULL))):
        yield from case('memory-kept-' + name, shown(in_memory(TWO, *unused)), 'open', 'save', *LATER, 'decide', 'back', 'poke lc 2', 'slack', 'end')
    none, every = in_memory(alike(X, 0), FULL, FULL), in_memory(((512, 1), [(0, 0, 1, 0)] * 8, [(1, 1, 9999, 7)] * 16))
    yield from case('memory-of-none', shown(none), 'open', 'choose', 'slack', 'start', 'decide', 'try -', 'try 5', 'load', 'why', 'worst 0 1', 'end')
    yield from case('memory-of-all', shown(every), 'junk', 'open', 'choose', 'slack', 'decide', 'end')

def outside():
    """Opening, and each question, refused 2, 5, 6, 7 or 8: the first of every choice of faults."""
    for chosen in itertools.product((0, 1), repeat=5):
        counts, drive, layout, session, buffer = chosen
        table = Memory((4096, 0 if drive else 32, 9 if counts else 2, 2), [X, (5, 6, 5, 5) if layout else Z] + [JUNK_LAYOUT] * 6,
                       [(1000, 100, 1 if buffer else 1_000_000, 1), (1000, 100, 1_000_000, 2 if session else 1)] + [JUNK_SESSION] * 14)
        yield from case('memory-for-%d%d%d%d%d' % chosen, shown(table), 'open', 'decide', 'why', 'load', 'worst 2 1', 'try 1,1', 'write - 83')

# ---- amid a run

CALLS = ('choose', 'finish 100', 'choose', 'pass 9', 'finish 26000', 'choose', 'finish 5', 'slack', 'start', 'take 0 512', 'pass 700', 'workahead 1', 'choose',
         'slack')

def amid():
    """The same calls with no question between them, with one, with all; and after damage, which is none of the show in memory."""
    show = buffered(TWO, [153_601, 200_000])
    asked = [*OF_MEMORY, *on_their_own(encode(SMALL, b''))]
    yield from case('amid-none', read(show), 'open', *CALLS)
    yield from case('amid-one', read(show), 'open', *itertools.chain(*zip(CALLS, itertools.cycle(asked))))
    yield from case('amid-all', read(show), 'open', *itertools.chain(*((call, *asked) for call in CALLS[6:10])))
    damage = itertools.chain(*((line, 'decide', 'why', 'worst 0 2', 'try 2,2', 'slack') for line in ('poke A 0', 'poke s.R 0 0', 'poke sc 17', 'poke lc 0')))
    yield from case('amid-damage', read(show), 'open', 'save', *damage, 'back', 'decide', 'slack', *asked[9:12], 'choose')
    yield from case('amid-another', read(show), 'open', 'choose', read(SMALL), 'decide', 'finish 3', 'why', shown(in_memory(alike(Z, 10))), 'why', 'choose',
                    'save', 'load', 'finish 4', 'back', 'decide', 'finish 4', 'write - 100', 'slack')

# ---- with a file or a state of their own

def alone():
    """No show is needed; and of a long file it does not matter what comes late in it."""
    good = encode(TWO, b'')
    capitals = ['%s %s' % (word, good.hex().upper()) for word in ('file', 'report', 'explain')]
    yield from case('alone', PLAYER, *on_their_own(good), *on_their_own(b''), *capitals)
    for length in (1428, 1429, 4096 - len(good), 4096, 4097, 5000):
        yield from case('alone-%d' % (length + len(good)), 'file ' + hexed(bytes(length) + good))
    yield from case('alone-long', *on_their_own(bytes(1400) + good), *on_their_own(good + bytes(4200)))

def widest():
    """The largest numbers, zeros before a number, sixteen counts; the longest note and the largest room."""
    two, wide = shown(in_memory(TWO)), ','.join(['4294967295'] * 16)
    yield from case('widest', two, 'worst 18446744073709551615 4294967295', 'worst 1 4294967295', 'worst 01 007', 'worst 0 0', 'try 4294967295,4294967295',
                    'try ' + wide, 'try 02,002', 'try 2', 'try 0', 'try 2,2,' + ','.join(['0' * 30 + '1'] * 14))
    yield from case('widest-written', two, 'write - 4096', 'write - 0068', 'write %s 4096' % ('aB' * 4096), 'write %s 4096' % ('C0' * 1024), 'write - 00')
    yield from case('widest-memory', two.replace('51200', '0' * 30 + '51200'), 'decide', shown(Memory(FULL, [FULL] * 8, [FULL] * 16)), 'decide',
                    shown(Memory(NONE, [NONE] * 8, [NONE] * 16)), 'decide')

PARTS = refused_files, replaced, junk, counted, opened, outside, amid, alone, widest

def lines():
    for part in PARTS:
        yield from part()
