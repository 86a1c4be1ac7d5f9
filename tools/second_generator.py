#!/usr/bin/env python3
"""second_generator.py N START: the text of the scenario that `gen N START` makes, written from the rules of docs/scenarios.md alone.

It makes the tokens of the scenario, and lays them out by the rules of printing. It shares no code with the program.
"""
import sys

MASK = (1 << 64) - 1
TYPES = "type job counted list { a b } type node tree { k } type part counted { v }"
MAPS = "slot spare part list q job tree t node"
PUSH = "new x job {} {} if x {{ lock q push_back q x unlock }}"
POP = "lock q pop_front x q unlock if x {{ drop x }}"
PLANT = "new x node {} if x {{ lock t add t x unlock }}"
PICK = "lock t first f t remove g t f unlock if g {{ drop g }}"
SWAP = "new x part {} if x {{ xchg o spare x if o {{ drop o }} }}"
PAUSE = "yield"
# Each piece, and below what its numbers are.
PIECES = [(PUSH, [100, 100]), (POP, []), (PLANT, [50]), (PICK, []), (SWAP, [100]), (PAUSE, [])]


class Draws:
    """The state, which goes on before each number is taken from it."""

    def __init__(self, start):
        self.state = start

    def below(self, k):
        self.state = (self.state * 6364136223846793005 + 1442695040888963407) & MASK
        return (self.state >> 33) % k

    def piece(self):
        text, below = PIECES[self.below(6)]
        return text.format(*[self.below(k) for k in below])


def tokens(count, start):
    draws = Draws(start)
    words = ["scenario { processors 4 pages 64 deferred on", TYPES, MAPS]
    for processor in range(4):
        words.append("script p%d plain {" % processor)
        words.extend(draws.piece() for _ in range(count))
        words.append("}")
    words.append("script h handler { " + SWAP.format(7) + " }")
    words.extend("run %d p%d" % (processor, processor) for processor in range(4))
    words.append("at 0 100 1 h at 1 200 2 h turns {")
    words.append("0 1 2 3 " * count + "} }")
    return " ".join(words).split()


# How many words an item or a statement has that ends without a brace. A name that isn't here begins none.
LENGTHS = {"processors": 2, "pages": 2, "deferred": 2, "slot": 3, "list": 3, "tree": 3, "run": 3, "at": 5, "lock": 2, "unlock": 1,
           "push_back": 3, "pop_front": 3, "add": 3, "first": 3, "remove": 4, "drop": 2, "xchg": 4, "yield": 1}
FIELDS = {"job": 2, "node": 1, "part": 1}


def laid_out(words):
    """A line ends after each brace, and after an item, a row of fields or numbers, or a statement that ends without one."""
    lines, at = [], 0
    while at < len(words):
        first = words[at]
        if first in ("{", "}"):
            length = 1
        elif first in ("scenario", "type", "script", "if", "turns"):
            length = words.index("{", at) + 1 - at
        elif first == "new":
            length = 3 + FIELDS[words[at + 2]]
        elif first in LENGTHS:
            length = LENGTHS[first]
        else:
            # a row of fields or numbers
            length = words.index("}", at) - at
        lines.append(" ".join(words[at:at + length]) + "\n")
        at += length
    return "".join(lines)


def generated(count, start):
    return laid_out(tokens(count, start))


if __name__ == "__main__":
    if len(sys.argv) != 3:
        sys.exit(__doc__)
    sys.stdout.write(generated(int(sys.argv[1]), int(sys.argv[2])))
