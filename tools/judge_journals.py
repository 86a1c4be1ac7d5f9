#!/usr/bin/env python3
"""Judges the program's journals over random scenarios: whether each one's order is laid, its polls rest and its units wait.

For each seed a scenario is made and replayed, and its journal judged by laid.py; one that doesn't fit is told, and its scenario kept
in the folder for temporary files. Then one entry of the journal is turned to a wrong one, which has to be refused. Scenarios that exceed
the limit of statements are left out. The last line counts. The status is 0 where each journal fits and each turned one doesn't. With
`--processors` the scenarios are of two to eight processors, with `--slots` they have slots, with `--objects` they are of the whole language.
The second simulator, as `tools/second_simulator.py`, can stand for the program.
"""

import random
import re
import subprocess
import sys

from compare_journals import LIMIT
from comparing import keep, words_with_makers
from laid import judge
from language import text_of

# an entry of which kind is turned, and the place of the number that becomes another one, from its end where that is below 0
TURNS = {
    **{"in": 2, "out": 2, "begin": 2, "stamp": 3, "pass": 3, "given": 2, "drop": 2},
    **{"free": 1, "delay": 1, "fill": 2, "fetch": 3, "send": 2, "return": 2},
    **{"acquire": 3, "still": 1, "get": 4, "push_front": -1, "push_back": -1, "add": -1, "remove": -1},
}


def turned(journal: str, seed: int) -> str | None:
    """The journal with a number of one entry turned to another; None where it has no such entry."""
    draw, lines = random.Random(seed), journal.splitlines(keepends=True)
    places = []
    for number, line in enumerate(lines):
        found = re.match(r"[0-3] ([a-z0-9]+)((?: \S+)*)\n$", line)
        if found and found[1] in TURNS and len(found[2].split()) >= abs(TURNS[found[1]]):
            places.append((number, TURNS[found[1]]))
    if not places:
        return None
    number, place = draw.choice(places)
    parts = lines[number].split()
    place += 1 if place > 0 else len(parts)
    parts[place] = str(int(parts[place]) + draw.choice([1, 2, 256]))
    lines[number] = " ".join(parts) + "\n"
    return "".join(lines)


def main() -> int:
    program, makers = words_with_makers(__doc__)
    fit = left = wrong = refused = let_through = 0
    for seed, maker in makers:
        scenario = maker.scenario()
        text, turns = text_of(scenario).encode(), scenario.turns or []
        run = subprocess.run([program, "replay"], input=text, capture_output=True)
        if run.returncode == LIMIT:
            left += 1
            continue
        journal = run.stdout.decode()
        misfit = judge(journal, turns) if run.returncode == 0 else f"status {run.returncode}"
        if misfit:
            wrong += 1
            print(f"seed {seed}: {misfit}; the scenario is in {keep(f'judged-{seed}', text)}")
            continue
        fit += 1
        other = turned(journal, seed)
        if other and judge(other, turns):
            refused += 1
        elif other:
            let_through += 1
            print(f"seed {seed}: a turned journal fits; the scenario is in {keep(f'judged-{seed}', text)}")
    print(f"{fit} fit, {wrong} don't, {left} left out; turned: {refused} refused, {let_through} fit")
    return 0 if wrong == 0 and let_through == 0 else 1


if __name__ == "__main__":
    sys.exit(main())
