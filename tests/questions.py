"""What the questions of a script are answered, docs/SCRIPTS.md: for the other scripts here. It shares nothing with the proved code, which goes by the time of a
round where this goes by the counts."""
import texts
from limits import Refused, worst_time
from memory import in_memory
from reasons import reason, tenths
from run_rules import joined, state_sound
from script_words import below, counts_of, file_of, note_of, room_of
from sets import holds, smallest, times
from show_files import encode, hexed, read, write

FILE_SEEN = 4096    # of a file, what is looked at

# ---- about the show in memory; refused, where it is

def decide(memory):
    show = memory.tested()
    counts = smallest(show)
    if counts is None:
        raise Refused(8, 0)
    spent = times(show, counts)
    return 'accepted %d %s %s' % (sum(spent), joined(counts), joined(spent))

def why(memory):
    return ' '.join(map(str, reason(memory.tested())))

def load(memory):
    return 'value %d' % tenths(memory.tested())

def worst(memory, i, n):
    (_, cylinder), layouts, sessions = memory.tested()
    if i >= len(sessions):
        raise Refused(9, 0)
    return 'value %d' % worst_time(cylinder, layouts[sessions[i][3]], n)

def try_counts(memory, counts):
    show = memory.tested()
    given = counts[:memory.playing()]
    spent = times(show, given)
    return '%s %d %s' % ('holds' if holds(show, given) else 'fails', sum(spent), joined(spent))

def before(room):
    return bytes((7 * i + 3) % 256 for i in range(room))

def written(memory, note, room):
    """A buffer after writing, and what is read from it; a refusal leaves the buffer as it was."""
    try:
        data = write(memory, note, room)
    except Refused as no:
        return '%s %s' % (no, hexed(before(room)))
    show, same = read(data)
    return 'wrote %d %s reread %s %d' % (len(data), hexed(data + before(room)[len(data):]), in_memory(show).text(), len(same))

# ---- with a file or a state of their own

def file(data):
    """It is read, and written again."""
    show, note = read(data[:FILE_SEEN])
    again = 'same' if encode(show, note) == data else 'differs'
    return 'read %s %s copy %d %s short 16 0' % (in_memory(show).text(), hexed(note), len(data), again)

def report(data):
    return texts.report(data).replace('\n', '\\n')

def explain(data):
    return texts.explained(data).replace('\n', '\\n')

def player(put, got, clock, _rate, _cushion, buffer, _layout, started, n):
    """A player's take. It goes by the state of the one session alone: the rate, the cushion and the layout do not count."""
    said, after = 'ok', got
    if not state_sound(put, got, clock, buffer, started):
        said = Refused(19, 0)
    elif not started:
        said = Refused(12, 0)
    elif n > put - got:
        said = Refused(10, 0)
    else:
        after = got + n
    return '%s %d %d %d' % (said, put, after, clock)

# ---- each with what its words spell

LONG, SHORT = below(2**64), below(2**32)
OF_MEMORY = {'decide': (decide,), 'why': (why,), 'load': (load,), 'worst': (worst, LONG, SHORT), 'try': (try_counts, counts_of),
             'write': (written, note_of, room_of)}
ON_THEIR_OWN = {'file': (file, file_of), 'report': (report, file_of), 'explain': (explain, file_of),
                'player': (player, LONG, LONG, LONG, SHORT, SHORT, SHORT, SHORT, below(2), LONG)}
QUESTIONS = {**OF_MEMORY, **ON_THEIR_OWN}
