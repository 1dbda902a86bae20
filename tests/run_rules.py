"""The rules of a run, of docs/RULES.md, sections 9 and 10: the record, its test, the calls. For the other scripts here; it shares nothing with the proved
code."""
import copy, itertools
from limits import SESSIONS, Refused, counts_ok, fault, within
from memory import Memory
from sets import holds, smallest, times

PUT_MOST, SPAN_MOST, MICRO = 2**40, 10**9, 10**6
COUNT, P, G, C = range(4)

class Run(Memory):
    """A run record: a show in memory, and the run's own fields, which are zeros at first."""
    def __init__(self, memory):
        super().__init__(memory.head, memory.layouts, memory.sessions)
        self.states = [[0] * 4 for _ in range(SESSIONS)]    # count, P, G, C
        self.order = [0] * SESSIONS
        self.place = self.left = 0
        self.under = None    # or the session
        self.started = False

    def counts(self):
        return [self.states[i][COUNT] for i in range(self.playing())]

    def whole(self, place):
        return self.states[self.order[place]][COUNT]

    def has_room(self, i):
        return self.states[i][P] + self.block() - self.states[i][G] <= self.sessions[i][2]

    def has_limit(self, i):
        """The limit on P is kept with one block more."""
        return self.states[i][P] + self.block() <= PUT_MOST

    def lists(self):
        """The run's own fields that each session has one of, with their letters."""
        return [*zip('MPGC', zip(*self.states)), ('O', self.order)]

    def line(self):
        """All of it but the show."""
        used = ['%s=%s' % (letter, joined(values[:self.playing()])) for letter, values in self.lists()]
        rest = joined('%s%d:%d' % (letter, i, values[i]) for letter, values in self.lists() for i in range(self.playing(), SESSIONS) if values[i])
        under = '-' if self.under is None else self.under
        return '= started=%d place=%d left=%d under=%s %s X=%s' % (self.started, self.place, self.left, under, ' '.join(used), rest)

def joined(values):
    return ','.join(str(v) for v in values) or '-'

def opened(memory):
    """The first run of a show in memory; or refused 2, 5, 6, 7, 8."""
    counts = smallest(memory.tested())
    if counts is None:
        raise Refused(8, 0)
    run = Run(memory)
    for i, count in enumerate(counts):
        run.states[i][COUNT] = count
        run.order[i] = i
    run.left = counts[0] if counts else 0
    return run

# ---- refusal 19

def state_sound(put, taken, clock, buffer, started):
    early = started or taken == clock == 0
    return put <= PUT_MOST and within(taken, 0, put) and put - taken <= buffer and clock <= taken * MICRO and early

def cycle_sound(run):
    if run.playing() == 0:
        return run.place == run.left == 0 and run.under is None
    if run.place >= run.playing() or not within(run.left, 1, run.whole(run.place)):
        return False
    seat = run.order[run.place]
    return run.under is None or (run.under == seat and run.has_room(seat) and run.has_limit(seat))

def sound(run):
    if not counts_ok(*run.head[2:]) or fault(*run.show()) is not None:
        return False
    each = range(run.playing())
    return (holds(run.show(), run.counts()) and all(state_sound(*run.states[i][P:], run.sessions[i][2], run.started) for i in each)
            and sorted(run.order[:len(each)]) == list(each) and cycle_sound(run))

# ---- the calls; each changes the run that it is given and says what it answers, or is refused

def advance(run, d):
    if run.started:
        for i in range(run.playing()):
            state = run.states[i]
            state[C] = min(state[C] + run.sessions[i][0] * d, state[G] * MICRO)

def pass_time(run, d):
    if d > SPAN_MOST:
        raise Refused(11, 0)
    advance(run, d)
    return 'ok'

def take(run, i, n):
    if i >= run.playing():
        raise Refused(9, 0)
    if not run.started:
        raise Refused(12, 0)
    if n > run.states[i][P] - run.states[i][G]:
        raise Refused(10, 0)
    run.states[i][G] += n
    return 'ok'

def choose(run):
    if run.under is not None:
        raise Refused(13, 0)
    if run.playing() == 0:
        return 'idle'
    turn = [(run.place + k) % run.playing() for k in range(run.playing())]
    roomy = [place for place in turn if run.has_room(run.order[place])]
    if not roomy:
        run.left = run.whole(run.place)
        return 'idle'
    seat = run.order[roomy[0]]
    if not run.has_limit(seat):
        raise Refused(14, 0)
    if roomy[0] != run.place:
        run.left = run.whole(roomy[0])
    run.place, run.under = roomy[0], seat
    return 'read %d' % seat

def finish(run, d):
    if d > SPAN_MOST:
        raise Refused(11, 0)
    if run.under is None:
        raise Refused(17, 0)
    advance(run, d)
    run.states[run.under][P] += run.block()
    run.under = None
    run.left -= 1
    if run.left == 0:
        run.place = (run.place + 1) % run.playing()
        run.left = run.whole(run.place)
    return 'ok'

# ---- spare time, and the start

def ahead(run, i):
    """In µs; // rounds down, below zero too."""
    rate, cushion, _, _ = run.sessions[i]
    _, put, _, clock = run.states[i]
    return ((put - cushion) * MICRO - clock) // rate

def by_ahead(run):
    """The sessions in increasing workahead, ties by lower number."""
    return sorted(range(run.playing()), key=lambda i: (ahead(run, i), i))

def spare(run):
    spent, order = times(run.show(), run.counts()), by_ahead(run)
    due = itertools.accumulate(spent[i] for i in order)
    return min(ahead(run, i) - by for i, by in zip(order, due))

def workahead(run, i):
    if i >= run.playing():
        raise Refused(9, 0)
    return 'value %d' % ahead(run, i)

def slack(run):
    if run.playing() == 0:
        raise Refused(9, 0)
    return 'value %d' % spare(run)

def start(run):
    if run.started:
        raise Refused(18, 0)
    if run.under is not None:
        raise Refused(13, 0)
    if run.playing() == 0:
        raise Refused(9, 0)
    if spare(run) < 0:
        raise Refused(15, 0)
    run.order[:run.playing()] = by_ahead(run)
    run.place, run.left, run.started = 0, run.whole(0), True
    return 'ok'

# each call, and how many numbers it is given
CALLS = {'pass': (pass_time, 1), 'take': (take, 2), 'choose': (choose, 0), 'finish': (finish, 1), 'workahead': (workahead, 1), 'slack': (slack, 0),
         'start': (start, 0)}

def called(run, call, numbers):
    """The answer and the run after it."""
    after = copy.deepcopy(run)
    try:
        if not sound(run):
            raise Refused(19, 0)
        return call(after, *numbers), after
    except Refused as no:
        return str(no), run
