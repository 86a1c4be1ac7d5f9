#!/usr/bin/env python3
"""Compares `read_journal` with a second reader, which judges the same texts.

No command reads journals, so tools/read_texts.rt.txt is the program that does: it reads texts, each behind a line with its length, and
prints for each a line, `OK` or the line of the fault; `OK` only where the text of the journal read is the text again. Into the folder
go files of such texts, and beside each, as NAME.stdout, what the second reader says of them. Then the program is built, without
proofs, in a copy of the repository's crates below the folder, and `rt try --cases` runs it on each file and compares.

For each seed there are three journals: an example, one that the second simulator leaves of a random scenario of the whole language,
of one processor or of several, and one drawn line by line from the forms of lines, some of whose numbers and words are wrong by a
little. Of each of these come the text itself, and the text with a byte changed, with a line dropped, with a line doubled, with its end
cut off, and with a piece of its beginning behind it. A line counts the texts, and how many of them are journals; then come the lines of
`rt try`. The status is 0 where no answer differs.
"""

import argparse
import random
import shutil
import subprocess
import sys
from collections.abc import Iterator
from pathlib import Path

from object_scenarios import ObjectMaker
from second_reader import BYTE, CALL_FORMS, ENTRY_FORMS, LIMITS, LISTS, LONG, NUMBER, SHORT, SIZES, TOTALS, first_wrong
from second_simulator import Simulator

TOOLS = Path(__file__).parent
EXAMPLES = sorted((TOOLS.parent / "examples").glob("*.journal"))
# longer journals are left out, since the program is run as built by `rt try`, with all its checks
LONGEST = 60_000
FILE_BYTES = 2_000_000
NAMES = ["a", "_", "q0", "Item", "x" * 31]


class Drawer:
    """Draws a journal line by line, with a wrong part in one of so many."""

    def __init__(self, seed: int):
        self.draw = random.Random(seed)
        self.wrong_in = self.draw.choice([0, 0, 300, 40])

    def is_wrong(self) -> bool:
        return self.wrong_in > 0 and self.draw.randrange(self.wrong_in) == 0

    def number(self, limit: int) -> str:
        if self.is_wrong():
            return self.draw.choice([str(limit), "00", "01", "-1", "", "18446744073709551616", "none"])
        return str(self.draw.choice([0, 1, 7, limit - 1, self.draw.randrange(limit)]))

    def name(self) -> str:
        return self.draw.choice(["", "9z", "x" * 32, "a-b", "é"]) if self.is_wrong() else self.draw.choice(NAMES)

    def part(self, part: str, maps: list[str]) -> list[str]:
        """Words that the part of a form may be."""
        if part in LISTS:
            limit, most = LISTS[part]
            count = self.draw.choice([0, 1, 3, most or 20]) + self.is_wrong()
            return [self.number(limit) for _ in range(count)]
        if part == "X" and self.draw.random() < 0.5:
            return ["none"]
        if part == "B" and self.draw.random() < 0.5:
            return ["start"]
        if part in ("X", "B"):
            return [self.number(SHORT if part == "X" else BYTE), self.number(NUMBER)]
        return [self.word(part, maps)]

    def word(self, part: str, maps: list[str]) -> str:
        if part.islower():
            return "also" if self.is_wrong() else part
        if part == "NAME":
            return self.name()
        if part == "OWNER":
            return self.name() if self.is_wrong() else self.draw.choice([maps[0], maps[-1], self.draw.choice(maps)])
        if part == "C":
            return "48" if self.is_wrong() else self.draw.choice(SIZES)
        if part == "D":
            return "both" if self.is_wrong() else self.draw.choice(["plain", "tracing"])
        return self.number(LIMITS.get(part, NUMBER))

    def form(self, table: dict[str, list[list[str]]], maps: list[str]) -> str:
        first = self.draw.choice(list(table))
        like = self.draw.choice(list(table)) if self.is_wrong() else first
        choices = [parts for parts in table[like] if maps or "OWNER" not in parts]
        return " ".join([first, *(word for part in self.draw.choice(choices) for word in self.part(part, maps))])

    def names(self, most: int) -> list[str]:
        return [self.name() for _ in range(self.draw.randint(0, most))]

    def heading(self, maps: list[str]) -> Iterator[str]:
        yield f"processors {self.number(BYTE)} pages {self.number(SHORT)}"
        yield " ".join(["types", *self.names(4)])
        yield " ".join(["maps", *maps])
        yield " ".join(["scripts", *self.names(4)])
        for _ in range(self.draw.randint(0, 3)):
            yield f"class {self.word('C', [])} marks {self.number(NUMBER)} {self.number(NUMBER)} {self.number(NUMBER)}"

    def place(self, right: int) -> str:
        return self.number(LONG) if self.is_wrong() else str(right)

    def lines(self) -> Iterator[str]:
        # some journals have more maps than a byte has numbers
        many = [f"m{number}" for number in range(self.draw.choice([252, 256, 257]))] if self.draw.random() < 0.1 else []
        maps = self.draw.sample(NAMES, self.draw.randint(0, 4)) + many
        if maps and self.is_wrong():
            maps.append(self.draw.choice(maps))
        yield from self.heading(maps)
        for processor in range(self.draw.randint(0, 4)):
            yield f"processor {self.place(processor)}"
            for _ in range(self.draw.randint(0, 60)):
                yield f"{self.number(4)} {self.form(ENTRY_FORMS, maps)}"
        for _ in range(self.draw.randint(0, 3)):
            yield f"graph {self.name()}"
            for position in range(self.draw.randint(0, 20)):
                yield f"at {self.place(position)} by {self.number(BYTE)} {self.number(NUMBER)} {self.form(CALL_FORMS, maps)}"
        for total in TOTALS:
            yield f"total {self.word(total, [])} {self.number(LONG)}"

    def journal(self) -> bytes:
        return "".join(f"{line}\n" for line in self.lines()).encode("latin-1")


def turned(text: bytes, draw: random.Random) -> Iterator[bytes]:
    """The text itself, and with a byte changed, a line dropped, a line doubled, its end cut off, its beginning behind it."""
    yield text
    place = draw.randrange(len(text))
    byte = draw.choice([draw.randrange(256), ord(draw.choice("0123456789 \n_az"))])
    yield text[:place] + bytes([byte]) + text[place + 1 :]
    lines = text.splitlines(keepends=True)
    line = draw.randrange(len(lines))
    yield b"".join(lines[:line] + lines[line + 1 :])
    yield b"".join(lines[: line + 1] + lines[line:])
    yield text[: draw.choice([draw.randrange(len(text)), len(text) - 1])]
    yield text + text[: draw.randint(1, 40)]


def texts(seeds: range) -> Iterator[bytes]:
    for seed in seeds:
        draw = random.Random(seed)
        simulated = Simulator(ObjectMaker(seed, seed % 2 == 0).scenario()).journal().encode()
        for journal in (EXAMPLES[seed % len(EXAMPLES)].read_bytes(), simulated, Drawer(seed).journal()):
            if len(journal) <= LONGEST:
                yield from turned(journal, draw)


def put(folder: Path, name: str, held: list[bytes], answers: list[int]) -> None:
    (folder / name).write_bytes(b"".join(b"%d\n%b" % (len(text), text) for text in held))
    (folder / f"{name}.stdout").write_text("".join(f"{line or 'OK'}\n" for line in answers))


def make_texts(folder: Path, seeds: range) -> None:
    """Puts the texts into the folder, with what the second reader says of them, and counts them."""
    held: list[bytes] = []
    answers: list[int] = []
    files, count, journals, size = 0, 0, 0, 0
    for text in texts(seeds):
        held.append(text)
        answers.append(first_wrong(text))
        count, journals, size = count + 1, journals + (answers[-1] == 0), size + len(text)
        if size > FILE_BYTES:
            put(folder, f"texts-{files:04}", held, answers)
            held, answers, files, size = [], [], files + 1, 0
    put(folder, f"texts-{files:04}", held, answers)
    print(f"{count} texts in {files + 1} files, {journals} of them journals", flush=True)


def make_program(built: Path) -> Path:
    """Copies the repository's crates, with one more that reads texts, and answers the folder of that one."""
    top = TOOLS.parent
    shutil.copytree(top / "crates", built / "crates", ignore=shutil.ignore_patterns("out", "must-fail"))
    shutil.copy(top / "HANDLES", built)
    crate = built / "crates" / "read_texts"
    (crate / "src").mkdir(parents=True)
    shutil.copy(TOOLS / "read_texts.rt.txt", crate / "src" / "main.rt")
    (built / "crates.txt").write_text((top / "crates.txt").read_text() + "read_texts: bm_journal bm_journal_reader bm_text\n")
    return crate


def main() -> int:
    parser = argparse.ArgumentParser(description=__doc__, formatter_class=argparse.RawDescriptionHelpFormatter)
    parser.add_argument("folder", type=Path, help="where the texts and the program go; it isn't there yet")
    parser.add_argument("first", type=int, help="the first seed")
    parser.add_argument("last", type=int, help="the last seed")
    given = parser.parse_args()
    folder = given.folder.resolve()
    cases = folder / "texts"
    cases.mkdir(parents=True)
    make_texts(cases, range(given.first, given.last + 1))
    return subprocess.run(["rt", "try", "--cases", str(cases)], cwd=make_program(folder), check=False).returncode


if __name__ == "__main__":
    sys.exit(main())
