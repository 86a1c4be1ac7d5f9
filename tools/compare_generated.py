#!/usr/bin/env python3
"""Compares the texts of the program's `gen` with those of a second generator, for random numbers.

For each seed a count of pieces and a start are drawn, the least and the greatest among them, and the place of the flag. The program
must end with 0, print exactly the text of the second generator and nothing on standard error; and `check` must accept the text, which is
asked only of texts of up to 20 pieces a script, since it takes long for others. What differs is told, and the program's text kept in the
folder for temporary files. The last line counts. The status is 0 where nothing differs.
"""

import random
import subprocess
import sys

from comparing import keep, words
from second_generator import generated

GREATEST = (1 << 64) - 1
# The greatest count of pieces whose text is checked.
CHECKED = 20


def numbers(draw: random.Random) -> tuple[int, int]:
    """A count of pieces, mostly a small one, and a start, which isn't always one of many bits."""
    count = draw.choice([1, 2, 2000, draw.randint(1, 20), draw.randint(1, 20), draw.randint(1, 2000)])
    start = draw.choice([0, 1, GREATEST, draw.randint(0, 1000), draw.randint(0, GREATEST), GREATEST - draw.randint(0, 1000)])
    return count, start


def differs(program: str, draw: random.Random) -> tuple[str, bytes] | None:
    """What differs for the numbers that are drawn next, with the program's text; None where nothing does."""
    count, start = numbers(draw)
    given = [str(count), str(start)]
    given.insert(draw.randint(0, 2), "--text")
    made = subprocess.run([program, "gen", *given], stdin=subprocess.DEVNULL, capture_output=True)
    if (made.returncode, made.stderr) != (0, b""):
        return f"gen {' '.join(given)}: status {made.returncode}, {made.stderr!r}", made.stdout
    if made.stdout != generated(count, start).encode():
        return f"gen {' '.join(given)}: another text", made.stdout
    if count > CHECKED:
        return None
    checked = subprocess.run([program, "check"], input=made.stdout, capture_output=True)
    if (checked.returncode, checked.stdout) != (0, b"accepted\n"):
        return f"gen {' '.join(given)}: check ends with {checked.returncode}, {checked.stderr!r}", made.stdout
    return None


def main() -> None:
    program, seeds = words(__doc__)
    wrong = 0
    for seed in seeds:
        told = differs(program, random.Random(seed))
        if told:
            wrong += 1
            print(f"seed {seed}: {told[0]}; text kept in {keep(f'generated-{seed}', told[1])}")
    print(f"{len(seeds)} texts compared, {wrong} differ")
    sys.exit(1 if wrong else 0)


main()
