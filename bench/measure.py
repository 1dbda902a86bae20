"""bench/measure.py PROVED OTHER: runs the jobs of bench/jobs.py by the proved program and by the one in C, and prints what they cost against each other.
bench/run calls it."""
import re, subprocess, sys, time
from jobs import hexed_file, overloaded, p7, saturated, typical

LEAST = 0.2       # seconds that a timed run takes at least
TRIES = 3         # the quickest of so many runs counts
FEW, MORE = 8, 24 # turns whose instructions are counted: the difference is what a turn takes
NOTE = b'Notes of the designer, as long as they may well be.'

class Bench:
    def __init__(self, proved, other):
        self.proved, self.other = [proved], [other]
        self.answers = {}

    def run(self, program, job, turns):
        line = '%s %d %s\n' % (job[0], turns, job[1])
        begun = time.perf_counter()
        done = subprocess.run(program, input=line, capture_output=True, text=True, check=True)
        return time.perf_counter() - begun, done.stdout

    def said(self, program, job, turns):
        """How long it takes. Both programs must say the same of a job."""
        spent, text = self.run(program, job, turns)
        if self.answers.setdefault((job, turns), text) != text or not text.startswith('%s %d ' % (job[0], turns)):
            sys.exit('%s, %d turns: %s and %s differ' % (job[0], turns, self.answers[job, turns].strip(), text.strip()))
        return spent

    def enough(self, job):
        """So many turns that the quicker of the two takes long enough to be timed."""
        turns = 1
        while min(self.said(self.other, job, turns), self.said(self.proved, job, turns)) < LEAST:
            turns *= 4
        return turns

    def times(self, job):
        """How long the proved program takes, over how long the other does, by the quickest runs; starting a program is taken off."""
        turns = self.enough(job)
        none = 'none', job[1]
        spent = {True: [], False: []}
        for _ in range(TRIES):
            for proved, program in ((True, self.proved), (False, self.other)):
                spent[proved].append((self.said(program, job, turns), self.said(program, none, 1)))
        proved, other = (min(long for long, _ in runs) - min(short for _, short in runs) for runs in (spent[True], spent[False]))
        return proved / other

    def counted(self, program, job, turns):
        """The instructions of a whole run."""
        line = '%s %d %s\n' % (job[0], turns, job[1])
        told = subprocess.run(['valgrind', '--tool=callgrind', '--callgrind-out-file=/dev/null'] + program, input=line, capture_output=True, text=True, check=True)
        return int(re.search(r'Collected : (\d+)', told.stderr)[1])

    def instructions(self, program, job, turns):
        """What a turn takes."""
        few, more = turns
        return (self.counted(program, job, more) - self.counted(program, job, few)) / (more - few)

def clips(n):
    return '1 clip' if n == 1 else '%d clips' % n

SMALL = ('read', 'write', 'report', 'reason', 'open', 'play', 'pass', 'take', 'workahead', 'slack')
GROWS = ('read', 'write', 'decide', 'play', 'slack')

def jobs():
    """What is done, with which show, and the turns whose instructions are counted; None where they are too many."""
    for n in (1, 3, 16):
        yield 'decide', clips(n), typical(n), (FEW, MORE)
    yield 'decide', 'p7', p7(), (2, 4)
    yield 'decide', 'near-saturated, 485 turns', saturated(10_000), (2, 4)
    yield 'decide', 'near-saturated, 2,213,437 turns', saturated(1), None
    yield 'decide', 'overloaded', overloaded(), (2, 4)
    for kind in SMALL:
        for n in (1, 3, 16):
            yield kind, clips(n), typical(n), (FEW, MORE)

def line(cells):
    print('| ' + ' | '.join(cells) + ' |', flush=True)

def whole(n):
    return format(round(n), ',')

def table(bench):
    line(('call', 'show', 'time, proved / C', 'instructions, proved', 'in C', 'proved / C'))
    line(['---'] * 6)
    for kind, name, show, turns in jobs():
        job = kind, hexed_file(show, NOTE)
        cells = [kind, name, '%.2f' % bench.times(job)]
        if turns:
            proved, other = (bench.instructions(program, job, turns) for program in (bench.proved, bench.other))
            cells += [whole(proved), whole(other), '%.2f' % (proved / other)]
        else:
            cells += ['', '', '']
        line(cells)

def growth(bench):
    sizes = 1, 2, 4, 8, 16
    line(['instructions, proved (in C)'] + [clips(n) for n in sizes])
    line(['---'] * (1 + len(sizes)))
    for kind in GROWS:
        cells = []
        for n in sizes:
            job = kind, hexed_file(typical(n), NOTE)
            cells.append('%s (%s)' % tuple(whole(bench.instructions(program, job, (FEW, MORE))) for program in (bench.proved, bench.other)))
        line([kind] + cells)

def main():
    bench = Bench(*sys.argv[1:])
    table(bench)
    print()
    growth(bench)

if __name__ == '__main__':
    main()
