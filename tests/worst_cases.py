"""Worst times of sessions, and what they are refused for. Cases for tests/rehearsal_cases.py."""
from made_lines import shown
from made_shows import X, Z
from memory import JUNK_LAYOUT, JUNK_SESSION, Memory, rows

PLAY = 512_000, 1, 200_000_000, 0

def sample(head=(51_200, 10, 4, 6), layouts={}, sessions={}):
    """Four layouts and six sessions, with other rows at some places, and junk in the places above."""
    table = Memory(head, *rows([X] * 4, [PLAY] * 6, JUNK_LAYOUT, JUNK_SESSION))
    for i, row in layouts.items():
        table.layouts[i] = row
    for i, row in sessions.items():
        table.sessions[i] = row
    return table

def asked(table, i, n):
    return shown(table), 'worst %d %d' % (i, n)

def times():
    for cylinder in (1, 2, 10, 65_536):
        for layout in (X, Z, (12_345, 678, 9012, 345), (0, 0, 1, 0), (10**6,) * 4):
            yield shown(sample((51_200, cylinder, 4, 6), {0: layout}))
            for n in (1, cylinder - 1, cylinder, cylinder + 1, 2 * cylinder, 2 * cylinder + 1, 2_097_152, 2**32 - 1):
                yield 'worst 0 %d' % n

def drives():
    for drive in ((0, 10), (512, 1), (513, 10), (65_536, 65_536), (66_048, 10), (51_200, 0), (51_200, 65_537)):
        yield from asked(sample((*drive, 4, 6)), 5, 1)

def layouts():
    for row in ((0, 0, 1, 0), (10**6,) * 4, (1_000_001, 0, 1, 0), (5, 5, 1, 0), (5, 6, 1, 0), (5, 5, 0, 0), (5, 5, 1_000_001, 0), (5, 5, 1, 1_000_001)):
        yield from asked(sample(layouts={3: row}, sessions={5: (*PLAY[:3], 3)}), 5, 1)

def sessions():
    for row in ((1, 1, 1, 0), (10**8, 2**24, 2**30, 3), (0, 1, 1, 0), (10**8 + 1, 1, 1, 0), (1, 0, 1, 0), (1, 2**24 + 1, 1, 0), (1, 1, 0, 0),
                (1, 1, 2**30 + 1, 0), (1, 1, 1, 4), (1, 1, 1, 2**31)):
        yield from asked(sample(sessions={4: row}), 4, 1)

def counts():
    for laid, playing in ((0, 6), (1, 6), (4, 0), (5, 6), (8, 6), (9, 6), (4, 7), (4, 16), (4, 17), (9, 17)):
        yield from asked(sample((51_200, 10, laid, playing)), 0, 1)

def places():
    """No such session, alone and after each other fault."""
    yield shown(sample())
    yield from ('worst %d 1' % i for i in (5, 6, 16, 2**32, 2**64 - 1))
    late, lost, quick, long = {5: (0, 1, 1, 0)}, {3: (1, 1, 1, 9)}, {3: (0, 0, 0, 0)}, {1: (0, 1, 1, 0)}
    yield from asked(sample(sessions=late), 6, 1)
    yield from asked(sample(sessions={**late, **lost}), 0, 1)
    yield from asked(sample(layouts=quick, sessions={**late, **lost}), 0, 1)
    yield from asked(sample(layouts={**quick, **long}, sessions={**late, **lost}), 0, 1)
    yield from asked(sample((1, 10, 4, 6), {**quick, **long}, {**late, **lost}), 0, 1)
    yield from asked(sample((1, 10, 4, 17), {**quick, **long}, {**late, **lost}), 0, 1)

def full():
    """No place is unused."""
    yield shown(Memory((51_200, 10, 8, 16), [(30_000, 1000, 5000, 4000)] * 8, [(100, 1, 1000, 7)] * 16))
    yield from ('worst %d 1' % i for i in (0, 15, 16))

PARTS = times, drives, layouts, sessions, counts, places, full

def lines():
    for part in PARTS:
        yield 'case worst-' + part.__name__
        yield from part()
