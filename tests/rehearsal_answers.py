#!/usr/bin/env python3
"""Writes what the program `rehearsal` must write for the scripts on standard input, from docs/RULES.md and docs/SCRIPTS.md alone: it shares nothing with the
proved code.

  tests/rehearsal_answers.py < crates/rehearsal/stdin > crates/rehearsal/stdout
  tests/rehearsal_answers.py --check     holds these rules to what is in tests/data, which came from elsewhere, and to what is worked out by other means
"""
import sys
from given import end_check
from model_checks import differences
from scripts import answers

def main():
    if sys.argv[1:] == ['--check']:
        end_check(differences(), 'every answer is as expected')
    for line in answers(sys.stdin.buffer.read()):
        sys.stdout.buffer.write(line.encode('latin-1') + b'\n')

if __name__ == '__main__':
    main()
