"""Shows with notes, their files, whole and not, and rows at the limits: for the scripts that make cases."""
import struct
from dice import Dice
from memory import NONE, Memory, rows

PAST = 2**32 - 1
FULL = (PAST,) * 4    # a row

class Made:
    """A show and its note. The counts and the distances go by it, unless they are set."""
    def __init__(self, layouts, sessions, note=b'', seed=1):
        dice = Dice(seed + 1000 * layouts + sessions)
        self.drive = [512 * dice.between(1, 128), dice.between(1, 65536)]
        self.layouts = [self.layout(dice) for _ in range(layouts)]
        self.sessions = [self.session(dice, layouts) for _ in range(sessions)]
        self.note = note
        self.laid = self.playing = self.first = self.second = None

    def layout(self, dice):
        longest = dice.between(0, 10**6)
        return [longest, dice.between(0, longest), dice.between(1, 10**6), dice.between(0, 10**6)]

    def session(self, dice, layouts):
        return [dice.between(1, 10**8), dice.between(1, 2**24), dice.between(1, 2**30), dice.between(0, layouts - 1)]

    def counts(self):
        laid = len(self.layouts) if self.laid is None else self.laid
        return laid, len(self.sessions) if self.playing is None else self.playing

    def length(self):
        return len(self.note) + 16 * (len(self.layouts) + len(self.sessions)) + 20

    def file(self):
        laid, playing = self.counts()
        first = 16 * (laid + playing) if self.first is None else self.first
        second = 16 * playing if self.second is None else self.second
        body = b''.join(struct.pack('<4I', *row) for row in self.layouts + self.sessions)
        return self.note + body + struct.pack('<2I2H2I', *self.drive, laid, playing, first % 2**32, second % 2**32)

    def memory(self, rest=NONE):
        """The show in memory; `rest` stands in the places that are not used."""
        return Memory((*self.drive, *self.counts()), *rows(self.layouts, self.sessions, rest, rest))

def noted(length):
    return bytes((11 * i + length) % 256 for i in range(length))

# ---- each value of a field at its limit and just past it

DRIVES = [(0, v) for v in (0, 1, 256, 511, 512, 513, 1024, 65024, 65535, 65536, 65537, 66048, 131072, 2**31, 2**32 - 512, PAST)]
DRIVES += [(1, v) for v in (0, 1, 65535, 65536, 65537, 131072, 2**31, PAST)]
LAYOUT = [(0, 0, 1, 0), (10**6,) * 4, (10**6 + 1, 5, 5, 5), (5, 5, 5, 5), (5, 6, 5, 5), (0, 1, 5, 5), (5, 5, 0, 5), (5, 5, 10**6, 5),
          (5, 5, 10**6 + 1, 5), (5, 5, 5, 10**6), (5, 5, 5, 10**6 + 1), (PAST, 5, 5, 5), (5, PAST, 5, 5), (5, 5, PAST, 5), (5, 5, 5, PAST),
          (2**31, 5, 5, 5), (PAST, PAST, 5, 5)]
SESSION = [(1, 1, 1, 0), (10**8, 2**24, 2**30, 2), (0, 9, 9, 0), (10**8 + 1, 9, 9, 0), (9, 0, 9, 0), (9, 2**24 + 1, 9, 0), (9, 9, 0, 0),
           (9, 9, 2**30 + 1, 0), (9, 9, 9, 3), (9, 9, 9, 8), (9, 9, 9, 256), (9, 9, 9, 65536), (9, 9, 9, 2**31), (PAST, 9, 9, 0), (9, PAST, 9, 0),
           (9, 9, PAST, 0), (9, 9, 9, PAST)]
BAD_LAYOUT = [LAYOUT[k] for k in (2, 4, 6, 8, 10)]
BAD_SESSION = [SESSION[k] for k in (2, 3, 4, 5, 6, 7)] + [(9, 9, 9, 1)]
