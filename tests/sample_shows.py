#!/usr/bin/env python3
"""Writes the sample shows and the sample script in the folder shows, from numbers.

  tests/sample_shows.py
  tests/sample_shows.py --check     says whether the files there are what this writes
"""
import pathlib, sys
from given import end_check
from made_shows import X, Z, alike, changed
from show_files import encode

FOLDER = pathlib.Path(__file__).parent.parent / 'shows'

def ten(rate):
    """Ten on Z, the tenth at this rate. 506,880 leaves one part in a thousand of the drive, 511,999 one byte a second; 527,360 is three parts in a thousand too
    much."""
    drive, layouts, sessions = alike(Z, 10)
    return drive, layouts, changed(sessions, 9, (rate, *sessions[9][1:]))

def short(*places):
    """p3, with the buffers of these clips a byte short."""
    drive, layouts, sessions = alike(X, 3)
    return drive, layouts, [(x[0], x[1], 153_600 if i in places else x[2], x[3]) for i, x in enumerate(sessions)]

# Blocks of 64 KiB, 64 to a cylinder; 7,200 turns a minute. The outer tracks of a drive are the quick ones.
OUTER, MIDDLE, INNER = (18_000, 1_200, 546, 8_333), (18_000, 1_200, 728, 8_333), (18_000, 1_200, 1_092, 8_333)
WALL_NOTE = b'Wall, sixteen clips: 0 to 11 the tiles, 12 and 13 the side screens, 14 the main picture, 15 the sound.\n'

def wall():
    tiles = [(rate, rate // 2, 8_388_608, 0) for rate in (1_500_000, 1_250_000, 1_000_000) for _ in range(4)]
    sides = [(3_125_000, 1_562_500, 16_777_216, 1)] * 2
    rest = [(6_250_000, 3_125_000, 33_554_432, 0), (192_000, 96_000, 1_048_576, 2)]
    return (65_536, 64), [OUTER, MIDDLE, INNER], tiles + sides + rest

def evening():
    """A script: p3's clips with the smallest buffers, three blocks each. They are filled, the show starts, and the first clip plays for a tenth of a second."""
    show = encode(alike(X, 3, 153_601), b'')
    loads = ['choose', 'finish 26000'] * 9 + ['choose']
    plays = ['slack', 'start', 'take 0 51200', 'pass 100000', 'workahead 0', 'choose', 'finish 26000', 'slack']
    return '\n'.join(['case evening', 'show ' + show.hex(), 'open', *loads, *plays, 'end', '']).encode()

def files():
    return {'p3.show': encode(alike(X, 3), b''), 'p6.show': encode(alike(Z, 10), b''), 'p7.show': encode(ten(506_880), b''),
            'over.show': encode(ten(527_360), b''), 'beyond.show': encode(ten(511_999), b''), 'buffer.show': encode(short(1), b''),
            'buffers.show': encode(short(1, 2), b''), 'wall.show': encode(wall(), WALL_NOTE), 'empty.show': encode(alike(X, 0), b''),
            'evening.script': evening()}

def main():
    made = {FOLDER / name: data for name, data in files().items()}
    if sys.argv[1:] == ['--check']:
        there = {path for path in FOLDER.iterdir() if path.suffix in ('.show', '.script')}
        other = sorted(there ^ set(made)) + [path for path, data in made.items() if path.exists() and path.read_bytes() != data]
        end_check(('shows/%s: not as written here' % path.name for path in other), 'every sample is as written here')
    for path, data in made.items():
        path.write_bytes(data)

if __name__ == '__main__':
    main()
