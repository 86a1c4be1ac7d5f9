#!/usr/bin/env python3
"""Measures what a journal costs by its length: instructions a line, and the most memory in use by the length of its text.

Three kinds of scenarios are made, each in growing sizes, and run by the program: `blocks`, with deferred work, makes thirty objects of
a page each and gives them up, again and again; `handlers` makes and gives up small objects while 250 handlers do the same; and `eight`
does what `blocks` does on eight processors, which yield after each turn. A line says the lines of the journal, the instructions that
valgrind counts in millions and for each line, the most memory in use in megabytes and by the length of the text. Where valgrind is
missing, or counts nothing, as of a build without proofs, microseconds of processor time stand in the place of instructions; where
/usr/bin/time is missing no memory is told.

After each kind stands the exponent by which costs grow with the length, from the smallest size to the greatest. The status is 1 where
one is above 1.05.
"""

import argparse
import math
import re
import resource
import shutil
import subprocess
import sys
import tempfile
from collections.abc import Callable
from pathlib import Path
from typing import NamedTuple

MOST = 1.05
BLOCKS = 30
HANDLERS = 250


class Cost(NamedTuple):
    lines: int
    text: int
    work: float
    memory: int | None


def blocks_in(indent: str, count: int) -> str:
    names = [f"b{number}" for number in range(count)]
    made = "".join(f"{indent}new {name} block\n" for name in names)
    return made + "".join(f"{indent}if {name} {{ drop {name} }}\n" for name in names)


def blocks(turns: int) -> str:
    """So many turns, each with thirty objects of a page at once."""
    script = f"script main plain {{\nrepeat {turns} {{\n{blocks_in('', BLOCKS)}}}\n}}\n"
    return f"scenario {{\nprocessors 1\npages 64\ndeferred on\ntype block {{ pad 4088 }}\n{script}run 0 main\n}}\n"


def handlers(turns: int) -> str:
    """So many objects, one after the other, and 250 handlers that make and drop another one, spread over the steps."""
    script = f"script main plain {{\nrepeat {turns} {{\nnew x item 7\nif x {{ drop x }}\n}}\n}}\n"
    handler = "script tick handler {\nnew y item 9\nif y { drop y }\n}\n"
    apart = max(1, turns * 8 // HANDLERS)
    lines = "".join(f"at 0 {20 + number * apart} 1 tick\n" for number in range(HANDLERS))
    return f"scenario {{\nprocessors 1\npages 2\ndeferred on\ntype item {{ a }}\n{script}{handler}run 0 main\n{lines}}}\n"


def eight(turns: int) -> str:
    """On each of eight processors so many turns, each with six objects of a page at once, and a yield after it."""
    script = f"script main plain {{\nrepeat {turns} {{\n{blocks_in('', 6)}yield\n}}\n}}\n"
    runs = "".join(f"run {processor} main\n" for processor in range(8))
    order = " ".join(str(number % 8) for number in range(turns * 8))
    return f"scenario {{\nprocessors 8\npages 64\ndeferred on\ntype block {{ pad 4088 }}\n{script}{runs}turns {{ {order} }}\n}}\n"


KINDS: list[tuple[Callable[[int], str], tuple[int, ...]]] = [
    (blocks, (12, 55, 219)),
    (handlers, (300, 1200, 3900)),
    (eight, (7, 30, 120)),
]


def ran(words: list[str], path: Path) -> tuple[bytes, str]:
    with path.open("rb") as text:
        done = subprocess.run(words, stdin=text, capture_output=True, check=False)
    if done.returncode != 0 and words[0] != "valgrind":
        raise SystemExit(f"{path.name}: {done.stderr.decode().strip()} (status {done.returncode})")
    return done.stdout, done.stderr.decode()


def instructions(program: str, path: Path) -> int | None:
    """The instructions that valgrind counts, if it does."""
    if not shutil.which("valgrind"):
        return None
    _, told = ran(["valgrind", "--tool=callgrind", "--callgrind-out-file=/dev/null", program, "replay"], path)
    found = re.search(r"Collected : (\d+)", told)
    return int(found.group(1)) if found else None


def microseconds(program: str, path: Path) -> float:
    """Processor time, the least of three runs."""
    least = math.inf
    for _ in range(3):
        before = resource.getrusage(resource.RUSAGE_CHILDREN)
        ran([program, "replay"], path)
        after = resource.getrusage(resource.RUSAGE_CHILDREN)
        least = min(least, (after.ru_utime + after.ru_stime - before.ru_utime - before.ru_stime) * 1e6)
    return least


def cost(program: str, path: Path, unit: str) -> Cost:
    memory = None
    if Path("/usr/bin/time").exists():
        text, told = ran(["/usr/bin/time", "-f", "most %M", program, "replay"], path)
        found = re.search(r"most (\d+)", told)
        memory = int(found.group(1)) * 1024 if found else None
    else:
        text, _ = ran([program, "replay"], path)
    work = instructions(program, path) if unit == "instructions" else microseconds(program, path)
    return Cost(text.count(b"\n"), len(text), work or 0, memory)


def exponent(first: Cost, last: Cost) -> float:
    return math.log(last.work / first.work) / math.log(last.lines / first.lines)


def main() -> int:
    parser = argparse.ArgumentParser(description=__doc__, formatter_class=argparse.RawDescriptionHelpFormatter)
    parser.add_argument("program", help="a built bpfmem")
    given = parser.parse_args()
    worst = 0.0
    with tempfile.TemporaryDirectory() as folder:
        first = Path(folder) / "first.scenario"
        first.write_text(blocks(1))
        unit = "microseconds" if instructions(given.program, first) is None else "instructions"
        for kind, sizes in KINDS:
            costs = []
            for turns in sizes:
                path = Path(folder) / f"{kind.__name__}-{turns}.scenario"
                path.write_text(kind(turns))
                costs.append(cost(given.program, path, unit))
                each = costs[-1]
                room = "" if each.memory is None else f", {each.memory / 1e6:6.1f} MB, {each.memory / each.text:5.1f} times the text"
                print(f"{kind.__name__:9}{each.lines:8} lines: {each.work / 1e6:7.1f} million {unit}, {each.work / each.lines:6.0f} a line{room}")
            grows = exponent(costs[0], costs[-1])
            worst = max(worst, grows)
            print(f"{kind.__name__:9} grows with exponent {grows:.3f}")
    return 0 if worst <= MOST else 1


if __name__ == "__main__":
    sys.exit(main())
