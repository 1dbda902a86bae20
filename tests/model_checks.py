"""The answers of tests/scripts.py, held to what is in tests/data, which came from elsewhere, and crates/rehearsal with them."""
import itertools, re
import reason_checks
from given import FOLDER, stored, table
from script_words import lines_of
from scripts import Desk, answers

SCRIPTS = 'scripts', 'house', 'questions'

def of_scripts():
    for name in SCRIPTS:
        said, expected = answers(stored(name + '.in')), lines_of(stored(name + '.out'))
        for place, (line, other) in enumerate(itertools.zip_longest(said, expected), 1):
            if line != other:
                yield '%s.out line %d: %s, not %s' % (name, place, line, other)

def asked(*lines):
    """What the last of these lines answers."""
    desk = Desk()
    return [desk.answer(line) for line in ('case x', *lines)][-1]

def of_tables():
    for name, text, expected in table('reads.txt'):
        said = asked('file ' + text)
        if ('good' if said.startswith('read ') else said) != expected:
            yield 'reads.txt %s: %s, not %s' % (name, said, expected)
    for name, show, note, room, expected in table('writes.txt'):
        said = asked('memory ' + show, 'write %s %s' % (note, room))
        if ' '.join(said.split(' ')[:3]) != expected:
            yield 'writes.txt %s: %s, not %s' % (name, said, expected)
    files = {name: text for name, text, _ in table('reads.txt')}
    for name, expected in table('verdicts.txt'):
        said = asked('report ' + files[name])
        if said != expected:
            yield 'verdicts.txt %s: %s, not %s' % (name, said, expected)

# ---- what the program is run on

def fitting(report):
    """How an explanation begins, by the report: refused alike, or none, or one of the three reasons."""
    if report == 'refused 8 0':
        return r'(overload|beyond|buffer \d+ \d+)'
    return 'none' if report.startswith('accepted') else re.escape(report)

def of_program():
    folder = FOLDER.parent / 'crates' / 'rehearsal'
    for kind, name in (('.in', 'stdin'), ('.out', 'stdout')):
        if not (folder / name).read_bytes().startswith(b''.join(stored(script + kind) for script in SCRIPTS)):
            yield 'crates/rehearsal/%s: it does not start with the scripts in tests/data' % name
    told = [line for line in lines_of((folder / 'stdout').read_bytes()) if line.startswith(('report ', 'explain ')) and ' -> ' in line]
    said = dict(line.split(' -> ') for line in told)
    for question, answer in said.items():
        report = said.get(question.replace('explain', 'report'), '').split('\\n')[0]
        if question.startswith('explain') and report and not re.fullmatch(fitting(report) + r'\\n[A-Z][^\\]*\.\\n', answer):
            yield 'crates/rehearsal/stdout: not by its report: %s -> %s' % (question, answer)

def differences():
    yield from of_scripts()
    yield from of_tables()
    yield from of_program()
    yield from reason_checks.differences()
