#!/usr/bin/env python3
"""Writes the scripts that the program `rehearsal` is run on: those in tests/data, then scripts made here, the same in every run.

  tests/rehearsal_cases.py > crates/rehearsal/stdin

What must come of them tests/rehearsal_answers.py says.
"""
import sys
import file_cases, player_cases, question_cases, report_cases, script_cases, verdict_cases, worst_cases
from damage_cases import DAMAGE
from given import stored
from model_checks import SCRIPTS
from run_cases import RUNS
from run_scripts import ask
from spare_cases import SPARE

QUESTIONS = file_cases, verdict_cases, report_cases, player_cases, worst_cases, question_cases

def main():
    for name in SCRIPTS:
        sys.stdout.buffer.write(stored(name + '.in'))
    for part in (*RUNS, *DAMAGE, *SPARE):
        part()
    ask('end')
    for cases in QUESTIONS:
        for line in cases.lines():
            print(line)
    sys.stdout.flush()
    sys.stdout.buffer.write('\n'.join(script_cases.lines()).encode('latin-1'))    # the last line is not ended

if __name__ == '__main__':
    main()
