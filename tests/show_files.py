"""Show files, docs/RULES.md, section 6: for the other scripts here. A show is its drive, the layouts that are used, the sessions that are used. It shares
nothing with the proved code."""
from limits import Refused, test_counts, test_limits, within

FILE_LEAST, FILE_MOST, NOTE_MOST, TRAILER = 20, 1428, 1024, 20
ROW = 16

def test_note(length):
    if length > NOTE_MOST:
        raise Refused(4, 0)

def number(data, at, size):
    return int.from_bytes(data[at:at + size], 'little')

def rows(data, at, count):
    return [tuple(number(data, at + ROW * i + 4 * k, 4) for k in range(4)) for i in range(count)]

def read(data):
    """The show and the note; or refused 1 to 7, in this order."""
    if not within(len(data), FILE_LEAST, FILE_MOST):
        raise Refused(1, 0)
    end = len(data) - TRAILER
    drive = number(data, end, 4), number(data, end + 4, 4)
    laid, playing = number(data, end + 8, 2), number(data, end + 10, 2)
    to_layouts, to_sessions = number(data, end + 12, 4), number(data, end + 16, 4)
    test_counts(laid, playing)
    if to_layouts != ROW * (laid + playing) or to_sessions != ROW * playing or to_layouts > end:
        raise Refused(3, 0)
    first, second = end - to_layouts, end - to_sessions
    test_note(first)
    layouts, sessions = rows(data, first, laid), rows(data, second, playing)
    test_limits(drive, layouts, sessions)
    return (drive, layouts, sessions), data[:first]

def words(values):
    return b''.join(v.to_bytes(4, 'little') for v in values)

def encode(show, note):
    drive, layouts, sessions = show
    body = b''.join(words(row) for row in layouts + sessions)
    counts = len(layouts).to_bytes(2, 'little') + len(sessions).to_bytes(2, 'little')
    return note + body + words(drive) + counts + words((len(body), ROW * len(sessions)))

def write(memory, note, room):
    """The file that a show in memory becomes; or refused 2, 4, 5, 6, 7, 16."""
    test_counts(*memory.head[2:])
    test_note(len(note))
    test_limits(*memory.show())
    data = encode(memory.show(), note)
    if room < len(data):
        raise Refused(16, 0)
    return data

def hexed(data):
    return data.hex() or '-'
