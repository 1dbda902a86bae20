"""The lines and words of a script, docs/SCRIPTS.md, and what they spell: for the other scripts here. It shares nothing with the proved code."""
import re
from limits import LAYOUTS, SESSIONS
from memory import Memory

LINE_MOST, NOTE_BYTES, ROOM_MOST = 65_535, 4096, 4096

class Malformed(Exception):
    """The line is not one of a script, or not where it may stand."""

def need(told):
    if not told:
        raise Malformed

def lines_of(data):
    """A byte is a character: names may hold any. The last line may have ended or not."""
    lines = data.decode('latin-1').split('\n')
    return lines if lines[-1] else lines[:-1]

def words_of(line):
    words = line.split(' ')
    need(len(line) <= LINE_MOST and '' not in words)
    return words

def number(word, below):
    need(re.fullmatch('[0-9]+', word))
    digits = word.lstrip('0') or '0'
    need(len(digits) <= 20 and int(digits) < below)
    return int(digits)

def below(limit):
    return lambda word: number(word, limit)

def numbers(word, count=4):
    """So many of 32 bits with commas, or fewer."""
    parts = word.split(',')
    need(len(parts) <= count)
    return [number(part, 2**32) for part in parts]

def counts_of(word):
    """Sixteen; those that are not given are 0."""
    given = [] if word == '-' else numbers(word, SESSIONS)
    return given + [0] * (SESSIONS - len(given))

def memory_of(word):
    fours = [numbers(four) for four in word.split(';')]
    need(len(fours) == 1 + LAYOUTS + SESSIONS and all(len(four) == 4 for four in fours))
    return Memory(fours[0], fours[1:1 + LAYOUTS], fours[1 + LAYOUTS:])

def file_of(word):
    need(word == '-' or re.fullmatch('([0-9a-fA-F]{2})+', word))
    return bytes.fromhex(word.replace('-', ''))

def note_of(word):
    note = file_of(word)
    need(len(note) <= NOTE_BYTES)
    return note

def room_of(word):
    return number(word, ROOM_MOST + 1)
