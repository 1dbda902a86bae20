"""Scripts, docs/SCRIPTS.md: what is written for each line. For the other scripts here; it shares nothing with the proved code."""
import copy, itertools
from limits import LAYOUTS, SESSIONS, Refused
from memory import in_memory
from questions import OF_MEMORY, QUESTIONS
from run_rules import CALLS, called, opened
from script_words import Malformed, file_of, lines_of, memory_of, need, number, words_of
from show_files import read

# ---- a field that is overwritten

HEAD = 'A', 'N', 'lc', 'sc'
ROWS = {'states': ('M', 'P', 'G', 'C'), 'sessions': ('s.R', 's.Y', 's.B', 's.lay'), 'layouts': ('l.far', 'l.one', 'l.blk', 'l.rot')}
LISTED = {'O', *itertools.chain(*ROWS.values())}

def index_of(field, word):
    return number(word, LAYOUTS if field in ROWS['layouts'] else SESSIONS)

def value_of(field, word):
    if field == 'under' and word == '-1':
        return None
    if field == 'started':
        return bool(number(word, 2))
    return number(word, 2**64 if field in ('P', 'G', 'C') else 2**32)

def poke(run, field, *words):
    """Overwrites the field."""
    need(len(words) == (2 if field in LISTED else 1))
    index, value = index_of(field, words[0]) if field in LISTED else None, value_of(field, words[-1])
    if field in HEAD:
        run.head[HEAD.index(field)] = value
    elif field in ('started', 'place', 'left', 'under'):
        setattr(run, field, value)
    elif field == 'O':
        run.order[index] = value
    else:
        rows = [name for name in ROWS if field in ROWS[name]]
        need(rows)
        getattr(run, rows[0])[index][ROWS[rows[0]].index(field)] = value

# ---- a case

class Case:
    """The show in memory, or the refusal in its place; the record, and the one that is kept. None where there is none."""
    def __init__(self):
        self.show = self.run = self.kept = None

    def read(self, data):
        try:
            self.show = in_memory(read(data)[0])
        except Refused as no:
            self.show = no

    def junk(self):
        need(self.show)
        if not isinstance(self.show, Refused):
            self.show = self.show.junked()

    def open(self):
        need(self.show)
        self.run = None
        try:
            if isinstance(self.show, Refused):
                raise self.show
            self.run = opened(self.show)
            return 'ok'
        except Refused as no:
            return str(no)

    def call(self, word, *words):
        call, count = CALLS[word]
        need(self.run and len(words) == count)
        said, self.run = called(self.run, call, [number(given, 2**64) for given in words])
        return said

    def question(self, word, *words):
        ask, *kinds = QUESTIONS[word]
        need(len(words) == len(kinds) and (self.show or word not in OF_MEMORY))
        given = [kind(said) for kind, said in zip(kinds, words)]
        try:
            if word not in OF_MEMORY:
                return ask(*given)
            if isinstance(self.show, Refused):
                raise self.show
            return ask(self.show, *given)
        except Refused as no:
            return str(no)

    def change(self, word, *words):
        """What is neither."""
        if word == 'show':
            need(len(words) == 1)
            self.read(file_of(words[0]))
        elif word == 'memory':
            need(len(words) == 1)
            self.show = memory_of(words[0])
        elif word == 'poke':
            need(self.run and words)
            self.run = copy.deepcopy(self.run)
            poke(self.run, *words)
        elif (word, *words) == ('junk',):
            self.junk()
        elif (word, *words) == ('save',):
            need(self.run)
            self.kept = self.run
        elif (word, *words) == ('back',):
            need(self.kept)
            self.run = self.kept
        else:
            need((word, *words) == ('policy', 'fixed'))

    def answer(self, words):
        """What a call or a question answers; None for another line."""
        if words == ['open']:
            return self.open()
        if words[0] in QUESTIONS:
            return self.question(*words)
        return self.call(*words) if words[0] in CALLS else self.change(*words)

# ---- scripts

class Desk:
    """The case that the lines are on; None outside a case."""
    def __init__(self):
        self.case, self.skips = None, False

    def answer(self, line):
        """What a call or a question answers; None for another line."""
        words = words_of(line)
        if words[0] == 'case':
            need(len(words) == 2)
            self.case = Case()
            return None
        need(self.case)
        if words == ['end']:
            self.case = None
            return None
        return self.case.answer(words)

    def lines(self, place, line):
        """What is written for a line."""
        if self.skips and line.split(' ')[0] != 'case':
            return []
        try:
            said, self.skips = self.answer(line), False
        except Malformed:
            self.skips = True
            return ['error %d' % place]
        if said is None:
            return [line]
        told = self.case.run and line.split(' ')[0] not in QUESTIONS
        return ['%s -> %s' % (line, said)] + ([self.case.run.line()] if told else [])

def answers(data):
    desk = Desk()
    for place, line in enumerate(lines_of(data), 1):
        yield from desk.lines(place, line)
