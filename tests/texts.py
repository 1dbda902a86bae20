"""The calculator's text and the reason's, docs/RULES.md, sections 8 and 11: for the other scripts here. It shares nothing with the proved code."""
from limits import Refused
from reasons import reason, tenths
from sets import needed, smallest, times
from show_files import read

def report(data):
    """The session count and L, then a line for each session; or the refusal."""
    try:
        show, _ = read(data)
    except Refused as no:
        return '%s\n' % no
    counts = smallest(show)
    if counts is None:
        return 'refused 8 0\n'
    spent = times(show, counts)
    lines = ['accepted %d %d\n' % (len(counts), sum(spent))]
    return ''.join(lines + ['%d %d %d %d\n' % row for row in zip(range(len(counts)), counts, spent, needed(show, counts))])

SENTENCES = {
    'none': 'The drive keeps up: it works at LOAD per cent, and every buffer is large enough.',
    'overload': 'The drive would have to work at LOAD per cent; at an even hundred it never keeps up.',
    'beyond': 'The drive would keep up, working at LOAD per cent, but some clip would need a buffer of more than 1073741824 bytes, the most there is.',
    'buffer': 'Clip PLACE, counted from 0, needs a buffer of SIZE bytes or more; the drive itself would keep up, working at LOAD per cent.',
    1: 'This is no show file, or not all of it: it is too short or too long to be one.',
    2: 'The show says that it has no layout, or too many layouts or clips.',
    3: 'The file is damaged: its parts are not where it says they are.',
    4: 'The note in the file is too long.',
    5: 'The block size, or the number of blocks to a cylinder, cannot be right.',
    6: 'Layout PLACE, counted from 0, has a time that cannot be right.',
    7: 'Clip PLACE, counted from 0, has a number that cannot be right.'}

def sentence(key, **numbers):
    said = SENTENCES[key]
    for word, number in numbers.items():
        said = said.replace(word, str(number))
    return said

def explained(data):
    """The line and the sentence that are said of a show file."""
    try:
        show, _ = read(data)
    except Refused as no:
        number, place = no.args
        return '%s\n%s\n' % (no, sentence(number, PLACE=place))
    why, *rest = reason(show)
    load = '%d.%d' % divmod(tenths(show), 10)
    return '%s\n%s\n' % (' '.join(map(str, (why, *rest))), sentence(why, LOAD=load, **dict(zip(('PLACE', 'SIZE'), rest))))
