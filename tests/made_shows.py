"""Shows made from numbers: for the scripts that make cases. A show is its drive, the layouts that are used, the sessions that are used."""

# The layouts of docs/RULES.md, section 5.
X, Z = (20000, 2000, 10000, 5000), (20000, 0, 10000, 5000)
AMPLE = 200_000_000

def changed(values, place, value):
    return values[:place] + [value] + values[place + 1:]

def alike(layout, count, buffer=AMPLE, rate=512_000):
    return (51200, 10), [layout], [(rate, 1, buffer, 0)] * count

def buffered(show, sizes):
    drive, layouts, sessions = show
    return drive, layouts, [(x[0], x[1], size, x[3]) for x, size in zip(sessions, sizes)]
