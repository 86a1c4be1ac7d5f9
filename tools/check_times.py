#!/usr/bin/env python3
"""Measures how the time of the program's `check` grows with the names of a script.

Each scenario is made with 10,000 and with 25,000 names, in a script that nothing runs, and checked. A line says the seconds of
processor time for both (the least of some runs), or with --instructions the millions of instructions that valgrind counts, and
their ratio. The status is 1 where a scenario isn't accepted, or where a ratio is above 3.
"""

import argparse
import resource
import subprocess
import sys
import tempfile
from collections.abc import Callable, Iterator
from pathlib import Path

SIZES = (10_000, 25_000)
MOST = 3.0
DIGITS = "0123456789abcdefghijklmnopqrstuvwxyz"
HEAD = """scenario {
processors 1
pages 1
deferred off
type item {
a
}
type job list {
a
}
type node tree {
a
}
list q job
tree t node
"""


def name(number: int) -> str:
    """A short name, which is no word of the language since it begins with a capital."""
    digits = ""
    while number or not digits:
        number, digit = divmod(number, len(DIGITS))
        digits = DIGITS[digit] + digits
    return "N" + digits


def dropped(names: int) -> Iterator[str]:
    """Each name is bound, and dropped in an `if` of its own."""
    for number in range(names):
        x = name(number)
        yield f"new {x} item 1"
        yield f"if {x}{{drop {x}}}"


def bound(names: int) -> Iterator[str]:
    """Half of the names stay bound while `if`s, `repeat`s and `unlock`s stand under them; then they are dropped."""
    kept = [name(number) for number in range(names // 2)]
    for x in kept:
        yield f"new {x} item 1"
    for number in range(names // 2, names):
        x = name(number)
        yield f"new {x} item 1 if {x}{{drop {x}}}"
        if number % 2:
            yield "repeat 2{lock q unlock}"
    for x in kept:
        yield f"if {x}{{drop {x}}}"


def soft(names: int) -> Iterator[str]:
    """All names are non-owning references under one lock; `if`s, `repeat`s and other statements stand there too."""
    yield "lock t"
    for number in range(names):
        yield f"first {name(number)} t"
        if number % 3 == 2:
            x = name(number // 2)
            yield f"if {x}{{repeat 2{{section{{}}}}}}"
    yield "unlock"


def removed(names: int) -> Iterator[str]:
    """A removal in an `if` ends a non-owning reference, and so do those of all the names before it, again and again."""
    yield "lock t"
    for number in range(names // 2):
        x, y = name(2 * number), name(2 * number + 1)
        yield f"first {x} t if {x}{{remove {y} t {x} if {y}{{add t {y}}}}}"
    yield "unlock"


def popped(names: int) -> Iterator[str]:
    """Objects move from one end of a list to the other, in `if`s that stand in one another."""
    yield "lock q"
    for number in range(names // 2):
        x, y = name(2 * number), name(2 * number + 1)
        yield f"pop_front {x} q if {x}{{pop_back {y} q if {y}{{push_back q {y}}}push_back q {x}}}"
    yield "unlock"


def nested(names: int) -> Iterator[str]:
    """The names are bound and dropped inside fifteen blocks."""
    yield "repeat 1{section{" * 6 + "new G item 1 if G{drop G}else{"
    yield from dropped(names)
    yield "}" + "}}" * 6


def branched(names: int) -> Iterator[str]:
    """A tree of `if`s, two one after the other in each branch, with all names bound and dropped at its leaves."""
    numbers = iter(range(names))
    leaves = 4**5

    def level(depth: int) -> Iterator[str]:
        if depth == 0:
            for _ in range(names // leaves):
                x = name(next(numbers))
                yield f"new {x} item 1 if {x}{{drop {x}}}"
            return
        for _ in range(2):
            yield "new G item 1 if G{drop G"
            yield from level(depth - 1)
            yield "}else{"
            yield from level(depth - 1)
            yield "}"

    yield from level(5)


SCENARIOS: list[Callable[[int], Iterator[str]]] = [dropped, bound, soft, removed, popped, nested, branched]


def text_of(lines: Iterator[str]) -> str:
    return HEAD + "script main plain{\n" + "\n".join(lines) + "\n}\n}\n"


def seconds(program: str, path: Path) -> float:
    before = resource.getrusage(resource.RUSAGE_CHILDREN)
    with path.open("rb") as text:
        ran = subprocess.run([program, "check"], stdin=text, capture_output=True, check=False)
    after = resource.getrusage(resource.RUSAGE_CHILDREN)
    if ran.returncode != 0:
        raise SystemExit(f"{path}: {ran.stderr.decode().strip()} (status {ran.returncode})")
    return after.ru_utime + after.ru_stime - before.ru_utime - before.ru_stime


def instructions(program: str, path: Path) -> float:
    """Millions of instructions."""
    words = ["valgrind", "--tool=callgrind", "--callgrind-out-file=/dev/null", program, "check"]
    with path.open("rb") as text:
        ran = subprocess.run(words, stdin=text, capture_output=True, check=False)
    if ran.returncode != 0:
        raise SystemExit(f"{path}: {ran.stderr.decode().strip()} (status {ran.returncode})")
    for line in ran.stderr.decode().splitlines():
        if "Collected" in line:
            return int(line.split(":")[-1]) / 1e6
    raise SystemExit("valgrind says no count")


def main() -> int:
    parser = argparse.ArgumentParser(description=__doc__, formatter_class=argparse.RawDescriptionHelpFormatter)
    parser.add_argument("program", help="a built bpfmem")
    parser.add_argument("--instructions", action="store_true", help="count instructions by valgrind")
    parser.add_argument("--runs", type=int, default=3, help="how often each is run for its least time")
    given = parser.parse_args()
    worst = 0.0
    with tempfile.TemporaryDirectory() as folder:
        for scenario in SCENARIOS:
            costs = []
            for names in SIZES:
                path = Path(folder) / f"{scenario.__name__}-{names}.scenario"
                path.write_text(text_of(scenario(names)))
                if path.stat().st_size > 1_048_576:
                    raise SystemExit(f"{path.name} has {path.stat().st_size} bytes, which is too many")
                if given.instructions:
                    costs.append(instructions(given.program, path))
                else:
                    costs.append(min(seconds(given.program, path) for _ in range(given.runs)))
            ratio = costs[1] / max(costs[0], 1e-9)
            worst = max(worst, ratio)
            print(f"{scenario.__name__:9}: {costs[0]:9.3f} {costs[1]:9.3f}  ratio {ratio:.2f}")
    return 0 if worst <= MOST else 1


if __name__ == "__main__":
    sys.exit(main())
