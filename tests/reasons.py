"""Why a show within its limits is accepted or not, and how much of its drive it takes, docs/RULES.md, section 11: for the other scripts here. It shares nothing
with the proved code."""
from limits import WIDEST
from made_shows import buffered
from sets import needed, smallest

def work(show):
    """The sum over the sessions of R x (N x block time + one-track seek), and what it has to stay under."""
    (block, cylinder), layouts, sessions = show
    weights = [cylinder * time + track for _, track, time, _ in layouts]
    return sum(x[0] * weights[x[3]] for x in sessions), cylinder * block * 10**6

def widest(show):
    return buffered(show, [WIDEST] * len(show[2]))

def reason(show):
    """What is the matter, in a word; after `buffer` the lowest session that is short of it, and the least that it does with."""
    asked, whole = work(show)
    if asked >= whole:
        return ('overload',)
    counts = smallest(widest(show))
    if counts is None:
        return ('beyond',)
    short = [(i, size) for i, size in enumerate(needed(show, counts)) if size > show[2][i][2]]
    return ('buffer', *short[0]) if short else ('none',)

def tenths(show):
    """The load in tenths of a per cent, rounded down."""
    asked, whole = work(show)
    return 1000 * asked // whole
