"""Lines that are no lines of a script, and lines at the border of it: cases for tests/rehearsal_cases.py. A character is a byte."""
import itertools
from limits import LAYOUTS, SESSIONS
from made_files import Made, noted
from made_lines import case
from made_shows import X, alike
from memory import in_memory
from run_scripts import light
from script_words import LINE_MOST
from show_files import encode

PAIR = encode(alike(X, 2), b'').hex()
OPENED = 'show ' + PAIR, 'open'
NOBODY = 'show ' + encode(alike(X, 0), b'').hex(), 'open'    # the shortest, where it does not matter
FULL = 2**32
LONG = 2**64
CALLS = 'pass 1', 'take 0 0', 'choose', 'finish 1', 'workahead 0', 'slack', 'start'
SINGLE = 'started', 'place', 'left', 'under', 'A', 'N', 'lc', 'sc'
OF_SESSIONS = 'M', 'P', 'G', 'C', 'O', 's.R', 's.Y', 's.B', 's.lay'
OF_LAYOUTS = 'l.far', 'l.one', 'l.blk', 'l.rot'
PLACES = {**dict.fromkeys(OF_SESSIONS, SESSIONS), **dict.fromkeys(OF_LAYOUTS, LAYOUTS)}
POKES = [*('poke %s 1' % field for field in SINGLE), *('poke %s 1 1' % field for field in PLACES)]
NUMBERS = in_memory(alike(X, 0)).text()
OF_MEMORY = 'decide', 'why', 'load', 'worst 0 1', 'try 1', 'write - 9'
PLAYER = 'player 5 2 7 9 1 6 0 1 1'
ON_THEIR_OWN = 'file -', 'report -', 'explain -', PLAYER
QUESTIONS = *OF_MEMORY, *ON_THEIR_OWN
RIGHT = ['case x', 'policy fixed', NOBODY[0], 'memory ' + NUMBERS, 'junk', 'open', *CALLS, *QUESTIONS, *POKES, 'save', 'back', 'end']

def wrong(name, lines, *before):
    """A case for each line; what comes after it in the case must not be told."""
    for k, line in enumerate(lines):
        yield from case('%s-%d' % (name, k), *before, line, 'pass 0')

def right(name, lines, *before):
    """All in one case, with a record told after each."""
    told = itertools.chain(*((line, 'pass 0') for line in lines))
    yield from case(name, *before, *told, 'end')

# ---- words

UNKNOWN = ('opens', 'ope', 'Open', 'OPEN', 'opem', 'rest', '=', '->', 'ok', 'error 1', '-', '0', 'x' * 300, '\0', '\xff', 'open\0',
           'pass\0 1', 'pas 1', 'passs 1', 'opts base', 'opts', 'opts fixed', 'decides', 'Why', 'loads', 'worse 0 1', 'tries 1', 'writes - 9', 'files -',
           'File -', 'reports -', 'explains -', 'players 1', 'memories ' + NUMBERS, 'tried 1', 'verdict')
SPACES = ('', ' ', '  ', ' choose', 'choose ', 'pass  1', 'pass 1 ', ' pass 1', 'choose\r', 'pass 1\r', '\r', 'choose\t', '\tchoose', '\t', 'pass\t1',
          'pass 1\t', 'pass \t1', 'pass \r1', 'choose\v', 'pass\xa01', 'poke left  1', 'poke  left 1', 'poke P 0  1', 'take  0', 'take 0 ', 'policy  fixed',
          'end ', 'decide ', ' decide', 'why\t', 'load\r', 'worst  0 1', 'worst 0  1', 'worst 0 1 ', 'worst 0\t1', 'try  1', 'try 1 ', 'try 1, 1', 'write -  9',
          'write  9', 'write - 9\r', 'file  -', 'file - ', 'report\t-', 'explain  -', PLAYER + ' ', PLAYER + '\r', PLAYER.replace(' ', '  ', 1),
          'player  2 7 9 1 6 0 1 1', 'memory  ' + NUMBERS, 'memory ' + NUMBERS + ' ')
NAMES = ('0', 'case', 'end', '-', '->', '=', 'a\tb', '\t', '\r', '\0', '\xff', 'a\0b', '\xff\xfe\0\x80', '\xc3\xa9',
         '\xe2\x80\xa8', '\v\f\x1c\x85', '"\\\'', 'x' * 300)

def fewer(line):
    return line.rpartition(' ')[0]

def words():
    yield from wrong('unknown', UNKNOWN, *NOBODY)
    yield from wrong('spaces', SPACES, *NOBODY)
    for line in RIGHT:
        kind = '-'.join(line.split()[:2]) if line.startswith('poke') else line.split()[0]
        few = [fewer(line)] if ' ' in line else []
        yield from wrong('words-' + kind, [*few, line + ' 1'], *NOBODY, 'save')
    yield from wrong('poke-words', ['poke', 'poke 1', 'poke 1 1', 'poke 1 1 1'], *NOBODY)
    yield from wrong('policy', ['policy ' + word for word in ('greedy', 'Fixed', 'fixe', 'fixeds', '-', 'base')])
    yield from case('policy-anywhere', 'policy fixed', *OPENED, 'policy fixed', 'choose', 'policy fixed', 'finish 5', 'policy fixed', 'decide', 'end')

def names():
    for name in NAMES:
        yield from case(name, *OPENED, 'end')

# ---- numbers

NOT_NUMBERS = ('+1', '-1', '-0', '-', '1x', 'x', 'x1', '0x1', '1.0', '1e3', '1_0', '1,0', '/', ':', '1/', ':1', '\xb2', '\xd9\xa1', 'one', '1\0', '\x001')
TOO_LONG = [str(n) for n in (LONG, LONG + 1, LONG + 9, 2 * LONG, 10 * LONG, 10**20, 10**20 - 1, 10**40, 2**128)]
ZEROS = '0', '00', '0' * 19, '0' * 21, '0' * 50, '01', '007', '0' * 30 + '1', '0' * 30 + '1000000000', '00' + str(LONG - 1)

def limit_of(field):
    if field == 'started':
        return 2
    return LONG if field in ('P', 'G', 'C') else FULL

def poke(field, value, index=0):
    return 'poke %s %d %s' % (field, index, value) if field in PLACES else 'poke %s %s' % (field, value)

def of_calls():
    for kind, form in {'pass': 'pass %s', 'take-of': 'take %s 0', 'take': 'take 0 %s', 'finish': 'finish %s', 'workahead': 'workahead %s'}.items():
        some = NOT_NUMBERS + tuple(TOO_LONG) if form == 'pass %s' else ('+1', '-1', 'x', str(LONG))
        yield from wrong('number-' + kind, [form % word for word in some], *NOBODY)
        yield from case('largest-' + kind, *OPENED, 'choose', *(form % n for n in (FULL - 1, FULL, 2**63 - 1, 2**63, LONG - 1)), 'end')
        yield from case('zeros-' + kind, *OPENED, 'choose', *(form % word for word in ZEROS), 'end')

def of_pokes():
    odd = itertools.cycle(NOT_NUMBERS)
    for field in (*SINGLE, *PLACES):
        limit = limit_of(field)
        over = [limit, limit + 1, FULL + limit, LONG] if limit < LONG else [LONG, LONG + 1]
        yield from wrong('value-' + field, [poke(field, word) for word in (*over, '-2' if field == 'under' else '-1', next(odd))], *NOBODY)
        yield from right('values-' + field, [poke(field, word) for word in (limit - 1, '0' * 25 + str(limit - 1), '00', '01', limit // 2)], *OPENED)
    yield from wrong('nothing', [poke('under', word) for word in ('-01', '--1', '-1x', '-10', '-', '- 1', '+1')], *NOBODY)
    yield from right('under-nothing', ['poke under 1', 'poke under -1', 'poke under 0', 'poke under -1'], *OPENED)
    yield from wrong('neither', [poke('started', word) for word in ('true', '-1', '10', '02', '256', FULL + 1, LONG + 1)], *NOBODY)

def of_indexes():
    odd = itertools.cycle(NOT_NUMBERS)
    for field, places in PLACES.items():
        outside = places, SESSIONS - 1 if places == LAYOUTS else 2 * SESSIONS, FULL, LONG, next(odd), '-1'
        yield from wrong('index-' + field, ['poke %s %s 1' % (field, index) for index in outside], *NOBODY)
        yield from right('indexes-' + field, ['poke %s %s 1' % (field, index) for index in (places - 1, '0' * 25 + str(places - 1), '00')], *OPENED)

FIELDS = ('Q', 'm', 'p', 'o', 'X', 'R', 'lay', 'far', 's', 'l', 's.', 'l.', 's.r', 's.far', 'l.R', 's.R.', '.R', 's.la', 's.layo', 'l.fa', 'l.fars',
          'P0', 'P=0', 'O\0')
ALONE = ('a', 'n', 'LC', 'SC', 'l', 's', 'lcs', 'starte', 'starteds', 'Started', 'plac', 'places', 'lef', 'unde', 'A0', 'A=1', '=', '-', '-1',
         'started=1', 'left\0')

def of_fields():
    yield from wrong('field', ['poke %s 0 1' % field for field in FIELDS], *NOBODY)
    yield from wrong('field-alone', ['poke %s 1' % field for field in ALONE], *NOBODY)

# ---- the numbers of questions, and shows in memory

def of_questions():
    odd = itertools.cycle(NOT_NUMBERS)
    words = ('%d' % LONG, '%d' % (10 * LONG + 1), '-1')
    small = ('%d' % FULL, '%d' % (10 * FULL + 1), '-1')
    yield from wrong('worst-of', ['worst %s 1' % word for word in (*words, next(odd), next(odd))], NOBODY[0])
    yield from wrong('worst', ['worst 0 %s' % word for word in (*small, '%d' % LONG, next(odd), next(odd))], NOBODY[0])
    ones = ','.join(['1'] * 15)
    counts = (ones + ',1,1', ',', '1,', ',1', '1,,1', '1;1', '1,-', '-,1', '--', '-1', '1, ', *small, '1,%d' % FULL, ones + ',x', next(odd),
              '1,' + next(odd))
    yield from wrong('try', ['try ' + word for word in counts], NOBODY[0])
    yield from wrong('room', ['write - ' + word for word in ('4097', '40960', '%d' % FULL, '%d' % (FULL + 1), *words, '-', next(odd), next(odd))], NOBODY[0])
    yield from wrong('note', ['write %s 9' % word for word in (*NO_HEX, '00' * 4097)], NOBODY[0])
    yield from wrong('refused-and-malformed', ['worst 0 x', 'worst %d 1' % LONG, 'try ' + ','.join(['1'] * 17), 'write 0 9', 'write - 4097', 'decide 1'], BAD)

def of_players():
    """Each of the nine too large, or none."""
    odd, good = itertools.cycle(NOT_NUMBERS), PLAYER.split(' ')
    for k, limit in enumerate((LONG, LONG, LONG, FULL, FULL, FULL, FULL, 2, LONG), 1):
        yield from wrong('player-%d' % k, [' '.join(good[:k] + [str(word)] + good[k + 1:]) for word in (limit, 10 * limit + 1, '-1', next(odd))])
    yield from wrong('players', ['player', 'player 5', PLAYER.replace(' ', ',', 2), PLAYER.replace(' ', '\t', 2)])

def of_memory():
    """99 numbers and 101, a mark for another, a number that is none or too large: at the first place, at the last, or in the midst."""
    first, rest = NUMBERS.split(',', 1)
    start, last = NUMBERS.rsplit(',', 1)
    few = start, rest, NUMBERS.rsplit(';', 1)[0], NUMBERS.split(';', 1)[1], first, '', '-', ';' * 24, ','.join([','] * 25)
    many = NUMBERS + ',0', '0,' + NUMBERS, NUMBERS + ';0,0,0,0', NUMBERS + ';', ';' + NUMBERS, NUMBERS + ','
    marks = [NUMBERS.replace(mark, other) for mark, other in (',;', ';,')] + [start + '.' + last]
    marks += [NUMBERS.replace(mark, other, 1) for mark, other in ((',', ';'), (';', ','), (';', ':'), (',', ',,'), (';', ';;'))]
    fives = NUMBERS.replace(';', ',7;', 1).rsplit(',', 1)[0], rest.replace(';', ',7;', 1)    # a hundred numbers, but not in fours
    yield from wrong('memory', ['memory ' + word for word in (*few, *many, *marks, *fives) if word])
    wide = [str(word) for word in (FULL, FULL + 1, 10 * FULL, LONG, '-1', '+1', 'x', '1x', '0x1', '\xb2')]
    yield from wrong('memory-first', ['memory %s,%s' % (word, rest) for word in wide])
    yield from wrong('memory-last', ['memory %s,%s' % (start, word) for word in wide])
    yield from wrong('memory-amid', ['memory ' + NUMBERS.replace(';0,0,0,0;', ';0,%s,0,0;' % word, 1) for word in wide[:2]])

# ---- show files in hex

NO_HEX = '0', PAIR[1:], PAIR + '0', '0g', '0x00', 'g0', '/0', ':0', '@0', 'G0', '`0', '0-', '-0', '--', '---', '00\t', '0\0', '\xff\xff'
HEX = PAIR.upper(), PAIR[:9] + PAIR[9:].upper(), '-', '00', '00' * 19, '00' * 20, 'Ff' * 20, PAIR[2:], '00' + PAIR, PAIR + '00'

def shows():
    made = Made(8, 16, noted(1024))
    for word in ('show', 'file', 'report', 'explain'):
        yield from wrong('hex' if word == 'show' else 'hex-' + word, ['%s %s' % (word, text) for text in NO_HEX])
    for k, text in enumerate(HEX):
        yield from case('file-%d' % k, 'show ' + text, 'open', 'end')
    for data in (made.file(), made.file() + b'\0', noted(5000)):
        yield from case('bytes-%d' % len(data), 'show ' + data.hex(), 'open', 'end')

# ---- where a line may stand

RECORD = [*CALLS, 'poke left 1', 'poke P 0 1', 'save', 'back']
OTHER = encode(alike(X, 3), b'other').hex()
FULL_DRIVE = encode(alike((20_000, 0, 10_000, 5000), 10), b'').hex()    # refused 8
BAD = 'show ' + PAIR[:-2] + '01'    # refused 3

def places():
    yield from wrong('before-show', [*RECORD, 'open', 'junk', *OF_MEMORY], 'policy fixed')
    yield from wrong('before-open', RECORD, NOBODY[0], 'decide')
    yield from wrong('before-open-of-memory', RECORD[:2], 'memory ' + NUMBERS, 'decide')
    yield from wrong('refused-file', RECORD, BAD, 'open')
    yield from wrong('refused-show', RECORD, 'show ' + FULL_DRIVE, 'open')
    yield from wrong('refused-later', RECORD[:-1], *NOBODY, 'save', BAD, 'junk', 'open')
    yield from wrong('after-end', [*RECORD, *NOBODY, 'junk', 'memory ' + NUMBERS, *QUESTIONS, 'policy fixed', 'end', 'x', ''], *NOBODY, 'save', 'end')
    yield from wrong('before-show-again', OF_MEMORY[:2], *ON_THEIR_OWN)
    yield from case('unsaved', *OPENED, 'choose', 'back', 'slack', 'end')
    yield from case('saved', *OPENED, 'save')
    yield from case('saved-in-another', *OPENED, 'back', 'slack')
    yield from case('nothing-left', 'choose')
    yield from case('no-lines')
    yield from case('no-lines-and-ended', 'end')
    yield from case('no-end', *OPENED, 'choose')

def again():
    """A record is as it was until it is opened anew, from the show in memory."""
    yield from case('back-after-open', *OPENED, 'choose', 'save', 'finish 1', 'open', 'back', 'finish 2', 'back', 'back', 'finish 3', 'end')
    yield from case('back-after-refusal', *OPENED, 'choose', 'save', BAD, 'finish 1', 'open', 'back', 'finish 2', 'open', 'back', 'choose', 'end')
    yield from case('save-again', *OPENED, 'save', 'choose', 'save', 'poke P 0 7', 'finish 1', 'back', 'finish 1', 'end')
    yield from case('show-again', *OPENED, 'choose', 'show ' + OTHER, 'slack', 'save', 'open', 'choose', 'back', 'slack', 'end')
    yield from case('show-before-open', BAD, 'show ' + OTHER, 'open', 'show ' + FULL_DRIVE, OPENED[0], 'open', 'end')
    yield from case('show-refused-then-good', BAD, 'open', 'show ' + FULL_DRIVE, 'open', *OPENED, 'end')
    yield from case('open-again', *OPENED, 'choose', 'finish 1', 'open', 'poke A 0', 'poke sc 1', 'poke M 5 6', 'slack', 'open', 'slack', 'end')

# a third session and a second layout, but for what is in the fields that are not written
THIRD = 'poke sc 3', 'poke s.R 2 512000', 'poke s.Y 2 1', 'poke s.B 2 200000000', 'poke M 0 2', 'poke M 1 2', 'poke M 2 2', 'poke O 2 2', 'poke left 2'
SECOND = 'poke lc 2', 'poke l.blk 1 10000'
SIXTEENTH = 'poke sc 16', 'poke s.R 15 1', 'poke s.Y 15 1', 'poke s.B 15 10000', 'poke M 15 1', 'poke O 15 15'
EIGHTH = 'poke lc 8', 'poke l.blk 7 1'

def shown(count, laid):
    return 'show ' + encode(light(count, laid), b'').hex()

def looks():
    """Layout 0 or 77; a one-track seek over the longest or not; a rotation of 5 or of 0."""
    third = ['save', *THIRD, 'slack', 'poke s.lay 2 0', 'slack', 'back']
    return [*third, *SECOND, 'pass 0', 'poke l.far 1 99', 'pass 0', *THIRD, 'poke s.lay 2 1', 'slack', 'back']

def zeros():
    """A rate, a cushion, a buffer and a block time are not written: they are zeros."""
    for field in ('s.R', 's.Y', 's.B'):
        yield from (*(line for line in THIRD if field not in line), 'poke s.lay 2 0', 'slack', 'back')
    yield from ('poke lc 2', 'poke l.far 1 99', 'slack', 'back')

def junk():
    yield from case('no-junk', *OPENED, *looks(), 'end')
    yield from case('junk', OPENED[0], 'junk', 'open', *looks(), 'end')
    yield from case('junk-zeros', OPENED[0], 'junk', 'open', 'save', *zeros(), 'end')
    yield from case('junk-twice', OPENED[0], 'junk', 'junk', 'open', *looks(), 'end')
    yield from case('junk-after-open', *OPENED, 'junk', *looks(), 'open', *looks(), 'end')
    yield from case('junk-replaced', OPENED[0], 'junk', OPENED[0], 'open', *looks(), 'end')
    yield from case('junk-refused', BAD, 'junk', 'open', OPENED[0], 'open', *looks(), 'end')
    for name, before in (('no-junk', []), ('junk', ['junk'])):
        yield from case(name + '-last-session', shown(15, 1), *before, 'open', *SIXTEENTH, 'pass 0', 'poke s.lay 15 0', 'pass 0', 'end')
        yield from case(name + '-last-layout', shown(1, 7), *before, 'open', *EIGHTH, 'pass 0', 'poke l.one 7 0', 'pass 0', 'end')
    yield from case('junk-without-room', shown(16, 8), 'junk', 'open', 'end')

# ---- after an error

NO_CASES = ('cases x', ' case x', 'Case x', 'CASE x', 'cas x', 'case\tx', 'case\rx', '\tcase x', 'case\0', '-case x', '=', 'end', '', ' ', *NOBODY, 'choose',
            *QUESTIONS)
BAD_CASES = 'case', 'case ', 'case a b', 'case  a', 'case a ', 'case a  b'

def skips():
    for k, line in enumerate(('x', 'pass', 'poke left', 'end x')):
        yield from case('skipped-%d' % k, *OPENED, line, *NO_CASES)
    yield from case('two-errors', *OPENED, 'x', 'y', 'end', 'z')
    yield from case('error-at-once', 'x')
    yield from case('error-after-end', *OPENED, 'end', 'end', 'end')
    for k, line in enumerate(BAD_CASES):
        yield from case('bad-case-%d' % k, *OPENED, line, 'slack', line, *OPENED, 'slack')
    yield from case('bad-cases', 'x', *BAD_CASES, *NO_CASES)
    yield from case('after-all', *OPENED, 'slack', 'end')

# ---- lengths, and the end of the input

def long_lines():
    yield from case('y' * (LINE_MOST - 5), *OPENED, 'end')
    yield from case('y' * (LINE_MOST - 4), *OPENED, 'end')
    yield from case('long-number', *OPENED, 'pass ' + '0' * 999 + '1', 'pass ' + '1' * 999, 'slack')

def last():
    yield from case('last', *OPENED, 'choose')

def lines():
    for part in (words, names, of_calls, of_pokes, of_indexes, of_fields, of_questions, of_players, of_memory, shows, places, again, junk, skips, long_lines,
                last):
        yield from part()
