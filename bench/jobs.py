"""The jobs of the bench: show files, and what is done with them."""
import pathlib, sys
sys.path.insert(0, str(pathlib.Path(__file__).parent.parent / 'tests'))
from made_shows import X, Z, alike, changed
from show_files import encode, hexed

WHOLE = 5_019_607    # bytes a second that a drive of section 5 with layout X does at most

def typical(clips):
    """Clips alike, which ask for three fifths of the drive."""
    return alike(X, clips, rate=WHOLE * 3 // 5 // clips)

def p7():
    drive, layouts, sessions = alike(Z, 10)
    return drive, layouts, changed(sessions, 9, (506_880, 1, 200_000_000, 0))

def saturated(short):
    """Sixteen clips which ask for all but so many bytes a second of the 5,120,000 that this drive does: the search takes 485 turns where 10,000 are left
    over, and 2,213,437 where it is 1."""
    rates = [320_000 + 1000 * (i - 8) for i in range(16)]
    rates[0] += 5_120_000 - sum(rates) - short
    return (512, 10), [(20 if short == 1 else 0, 0, 100, 0)], [(rate, 1, 2**30, 0) for rate in rates]

def overloaded():
    return alike(Z, 16)

def hexed_file(show, note=b''):
    return hexed(encode(show, note))
