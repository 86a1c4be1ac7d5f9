#!/usr/bin/env python3
"""Runs `rt ci` with the words given, and prints what each crate cost it in processor seconds.

    tools/gate_cost.py               a whole run, which proves what isn't kept
    tools/gate_cost.py --anew        a whole run that proves everything
    tools/gate_cost.py NAME..        these crates and those below them

rt tells no times, so the processes that it starts are looked at twice a second, and each one's processor time is counted for
the crate that it names, up to the last look. What stands below is a crate's own proof ('alone'), the proof of it with its tests
('tests'; of a crate of tests this is the cost), and its must-fail edits with the proof that they begin with ('edits').
"""
import collections
import os
import re
import subprocess
import sys
import time

TICKS = os.sysconf("SC_CLK_TCK")
NAME = re.compile(rb"--crate-name\0([a-z0-9_]+)\0")


def children(parents: dict[int, int], root: int) -> set[int]:
    """The processes below `root`."""
    below = {root}
    grown = True
    while grown:
        more = {pid for pid, parent in parents.items() if parent in below} - below
        below |= more
        grown = bool(more)
    return below


def look() -> tuple[dict[int, int], dict[int, float]]:
    """Each process's parent, and the seconds that it took so far."""
    parents, seconds = {}, {}
    for entry in os.listdir("/proc"):
        if entry.isdigit():
            try:
                with open(f"/proc/{entry}/stat", "rb") as file:
                    fields = file.read().rpartition(b")")[2].split()
            except OSError:
                continue
            parents[int(entry)] = int(fields[1])
            seconds[int(entry)] = (int(fields[11]) + int(fields[12])) / TICKS
    return parents, seconds


def part_of(line: bytes) -> tuple[str, str] | None:
    """The crate that a command line of the prover names, and what it does for it."""
    name = NAME.search(line)
    if not name:
        return None
    words = line.split(b"\0")
    kind = "tests" if b"--test" in words else "edits" if words[1:2] == [b"check"] else "alone"
    return name[1].decode(), kind


def main() -> int:
    parts: dict[int, tuple[str, str]] = {}
    spent: dict[int, float] = {}
    began = time.time()
    with subprocess.Popen(["rt", "ci", *sys.argv[1:]]) as run:
        while run.poll() is None:
            parents, seconds = look()
            for pid in children(parents, run.pid):
                if pid not in parts:
                    try:
                        with open(f"/proc/{pid}/cmdline", "rb") as file:
                            part = part_of(file.read())
                    except OSError:
                        continue
                    # what the prover starts counts for the crate that it works on
                    part = part or parts.get(parents.get(pid, 0))
                    if part:
                        parts[pid] = part
                if pid in parts:
                    spent[pid] = max(spent.get(pid, 0.0), seconds.get(pid, 0.0))
            time.sleep(0.5)
    table: dict[str, collections.Counter] = collections.defaultdict(collections.Counter)
    for pid, used in spent.items():
        crate, kind = parts[pid]
        table[crate][kind] += used
    print("| Crate | Alone | Tests | Edits |\n|---|---|---|---|")
    for crate in sorted(table):
        print(f"| `{crate}` | {' | '.join(str(round(table[crate][kind])) for kind in ('alone', 'tests', 'edits'))} |")
    whole = os.times()
    print(f"processor minutes in all: {(whole.children_user + whole.children_system) / 60:.0f}")
    print(f"minutes by the clock: {(time.time() - began) / 60:.0f}")
    return run.returncode


sys.exit(main())
