#!/usr/bin/env python3
"""Compares the program's journals with those of a second simulator, over random scenarios.

For each seed a scenario is made, replayed by both, and the journals are compared byte by byte; one that differs is told, and
its scenario kept in the folder for temporary files. Scenarios that exceed the limit of statements are left out. The last line
counts. The status is 0 where no journal differs. With `--processors` the scenarios are of two to eight processors, with `--slots` they have
slots, which handlers exchange too, and with `--objects` they are of the whole language: with slots, lists and trees.
"""

import subprocess
import sys

from comparing import keep, words_with_makers
from language import text_of
from random_scenarios import Maker
from second_simulator import Simulator

LIMIT = 7


def first_difference(got: list[str], wanted: list[str]) -> str:
    for number, (one, other) in enumerate(zip(got, wanted), 1):
        if one != other:
            return f"line {number}: got {one!r}, wanted {other!r}"
    return f"{len(got)} lines, wanted {len(wanted)}"


def compare(program: str, seed: int, maker: Maker) -> bool | None:
    """Whether both journals are the same; None where the scenario exceeds a limit."""
    scenario = maker.scenario()
    text = text_of(scenario)
    ran = subprocess.run([program, "replay"], input=text.encode(), capture_output=True, check=False)
    if ran.returncode == LIMIT:
        return None
    wanted = Simulator(scenario).journal()
    if ran.returncode == 0 and ran.stdout.decode() == wanted:
        return True
    kept = keep(f"journal-{seed}", text.encode())
    said = first_difference(ran.stdout.decode().splitlines(), wanted.splitlines())
    print(f"seed {seed}: status {ran.returncode}, {said}; the scenario is in {kept}")
    return False


def main() -> int:
    program, makers = words_with_makers(__doc__)
    told = [compare(program, seed, maker) for seed, maker in makers]
    print(f"{told.count(True)} the same, {told.count(False)} differ, {told.count(None)} left out")
    return 1 if False in told else 0


if __name__ == "__main__":
    sys.exit(main())
