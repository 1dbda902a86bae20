#!/usr/bin/env python3
"""Gives the repository's own definitions and lemmas the spelling of today's Rattle: words in snake case.

usage: python3 tools/respell.py [--check]      at the top of the repository, once, after the kit's port.py

A name is the repository's own if a file of specs/ or proofs/ declares it. Types and modules keep their capitals; functions and constants of src/,
exported names, strings, and what Rattle generates keep theirs. It stops, and writes nothing, where two names would fall together.
"""
import os
import re
import sys

HERE = "crates"
# what may stand before and after a name
BEFORE, AFTER = r"(?<![\w'?+*/<>=≡·-])", r"(?![\w'?·-])"
DECLARED = re.compile(r"^(\s*)(?:abbrev |unfoldable )?(?:pub )?(?:abbrev |unfoldable )?([a-z][\w'?-]*)((?: [\w'?-]+)*) :(?= |$)", re.M)


# where plain respelling would make two names one, or a name of a clause would hide behind a parameter
ELSE = {
    "ahead_in": "ahead_in_is", "place-in": "place_in_is", "slack-in": "slack_in_is", "aheadOf": "ahead_by_state", "slackIn": "standing_slack",
    "asked-outcome": "asked_outcome_is", "check-outcome": "check_outcome_is", "code-outcome": "code_outcome_is",
    "loaded-outcome": "loaded_outcome_is", "test-outcome": "test_outcome_is", "verdict-outcome": "verdict_outcome_is",
    "worst-outcome": "worst_outcome_is", "left-at": "left_at_within", "left-past": "left_past_end", "no-layout": "no_layouts",
    "read-check": "read_check_is", "said-most": "said_most_holds", "text-most": "text_most_holds", "session-at": "session_at_ten",
    "slack-time": "slack_time_is", "told_of": "smallest_told",
}
# a field of the promises, named after the call, and U: no file names both
TOGETHER = {"worst_time"}


def files(ends):
    for folder, dirs, names in os.walk(HERE):
        dirs[:] = sorted(d for d in dirs if d not in ("out", "target"))
        for n in sorted(names):
            if n.endswith(ends):
                yield os.path.join(folder, n)


def read(p):
    with open(p, encoding="utf-8") as f:
        return f.read()


def respelled(n):
    if n in ELSE:
        return ELSE[n]
    n = re.sub(r"(?<=[a-z0-9])([A-Z])", lambda m: "_" + m.group(1).lower(), n)
    return n.replace("-", "_")


def uncommented(t):
    return re.sub(r"--.*", "", t)


def main():
    crates = set(os.listdir(HERE))
    declared, imported = {}, {}
    for p in files(".antt"):
        t = uncommented(read(p))
        for m in re.finditer(r"^(?:pub )?use ([\w.+'·-]+)\.\{([^}]*)\}", t, re.M):
            parts = m.group(1).split(".")
            if not (parts[0] == "Rattle" and parts[1] in crates) or "Tie" in parts or "TheVariants" in parts or "Statement" in parts:
                for n in m.group(2).split(","):
                    imported.setdefault(n.strip().split(" ")[0], set()).add(p)
        walk = p.endswith("/Proof.antt")
        for m in DECLARED.finditer(t):
            rest = t[m.end():].split("\n", 1)[0]
            # an answer to a goal keeps its name, and so does the invariant or the measure of a loop
            if walk and re.match(r" (tie|goal)\.", rest) and not m.group(1):
                continue
            for n in [m.group(2)] + m.group(3).split():
                if re.match(r"[a-z]", n):
                    declared.setdefault(n, set()).add(p)
    turn = {n: respelled(n) for n in declared if respelled(n) != n and n not in ("let",)}
    keep = sorted(n for n in turn if n in imported)
    for n in keep:
        print(f"keeps: {n}: a library has it too: {sorted(imported[n])[0]}")
        del turn[n]
    bad = 0
    back = {}
    for n, s in turn.items():
        back.setdefault(s, []).append(n)
    for s, ns in sorted(back.items()):
        if s in TOGETHER:
            continue
        if len(ns) > 1 or (s in declared and s not in turn):
            where = sorted({q for n in ns + ([s] if s in declared else []) for q in declared[n]})
            print(f"falls together: {s}: {' '.join(sorted(ns))}{' ' + s if s in declared else ''}: {' '.join(w[7:] for w in where[:6])}")
            bad += 1
        elif s in imported:
            print(f"falls together: {s}: {' '.join(ns)} and a library's, in {sorted(imported[s])[0][7:]}")
            bad += 1
    if "--check" in sys.argv:
        print(f"{len(turn)} names, {bad} fall together")
        return 0
    if bad:
        return 1
    words = re.compile(BEFORE + "(" + "|".join(re.escape(n) for n in sorted(turn, key=len, reverse=True)) + ")" + AFTER)
    n = 0
    for p in files((".antt", ".rt", ".edit")):
        t = read(p)
        if p.endswith(".rt"):
            # only what is ghost: imports, clauses, attributes
            new = re.sub(r"(?m)^\s*(?:pub )?ghost .*$|^\s*(?:requires|ensures)\b.*(?:\n(?!\s*[{}]?\s*$)(?!\{).*)*", lambda m: words.sub(lambda k: turn[k.group(1)], m.group(0)), t)
        else:
            new = words.sub(lambda k: turn[k.group(1)], t)
        if new != t:
            with open(p, "w", encoding="utf-8") as f:
                f.write(new)
            n += 1
    print(f"{len(turn)} names in {n} files")
    return 0


raise SystemExit(main())
