#!/usr/bin/env python3
"""Judges a journal by what all processors share, entry by entry: whether its order is laid, its polls have rested and its units waited.

    tools/laid.py [SCENARIO] < JOURNAL

It is written from the definitions of bm_law_order (specs/Words, Numbers, Looks, Lives, Pages, Parcels, Polls, Seals), and tries them on what
the program prints. Beside them it follows the target of each cache, to which parcels go (`Lists` of bm_law), and by owned.py what programs
own: fields, slots, and lists and trees with their histories. A journal of one processor is its own order. The logs of several are put into one order by the scenario's turns, so
its file is named; without one no turns are listed, and each processor goes on to its end. It prints `laid` and ends with 0, or the first
entry that doesn't fit, with what it doesn't fit, and ends with 1. Nothing of it is part of the gate.
"""

import copy
import sys
from collections.abc import Iterable, Iterator
from dataclasses import dataclass, field
from itertools import takewhile
from pathlib import Path

from owned import CALLS, Misfit, Owned, histories_of, needs
from second_checker import Reader

SIZES = [16, 32, 64, 96, 128, 192, 256, 512, 1024, 2048, 4096]
PAGE = 256


@dataclass
class Course:
    """A domain: its number, who has a period in progress, the words at its begin, and the section words."""

    words: list[int]
    number: int = 0
    driver: int | None = None
    first: list[int] = field(default_factory=list)


class Stock:
    """Pages with their classes, and which units are out."""

    def __init__(self, pages: int):
        self.classes: list[int | None] = [None] * pages
        self.out: set[int] = set()

    def next_unit(self, size: int) -> int | None:
        for page, taken in enumerate(self.classes):
            if taken == size:
                for unit in range(PAGE * page, PAGE * page + 4096 // size):
                    if unit not in self.out:
                        return unit
        for page, taken in enumerate(self.classes):
            if taken is None:
                return PAGE * page
        return None

    def fetch(self, size: int, want: int) -> list[int]:
        units = []
        while len(units) < want and (unit := self.next_unit(size)) is not None:
            self.classes[unit // PAGE] = size
            self.out.add(unit)
            units.append(unit)
        return units

    def back(self, unit: int) -> None:
        needs(unit in self.out, "the unit is out")
        self.out.remove(unit)
        if not any(other // PAGE == unit // PAGE for other in self.out):
            self.classes[unit // PAGE] = None


class Shared:
    """All that processors share, and what polls and seals are judged by."""

    def __init__(self, processors: int, pages: int):
        self.processors = processors
        self.courses = {name: Course([0] * processors) for name in ("plain", "tracing")}
        self.stock = Stock(pages)
        self.boxes: dict[tuple[int, int], list[list[int]]] = {}
        self.begun: dict[int, int] = {}
        self.holds: dict[int, tuple[int, int]] = {}  # by unit the maker and the count
        self.dropping: dict[tuple[int, int], tuple[int, int, int | None]] = {}
        # by processor: the courses after its last entry of level 0, the number from which a poll has begun, the last plain pass
        self.last = {p: copy.deepcopy(self.courses) for p in range(processors)}
        self.began: dict[int, int | None] = {}
        self.passed: dict[int, tuple[int, int] | None] = {}
        self.stamps: dict[tuple[int, int, str], int] = {}
        self.waits: dict[int, object] = {}
        # the target of each cache, and by processor and level the home of the unit that is being freed
        self.targets: dict[tuple[int, int], int] = {}
        self.homes: dict[tuple[int, int], int] = {}
        self.owned = Owned()

    def found(self, domain: str, courses: dict[str, Course]) -> list[int]:
        plain, tracing = courses["plain"].words, courses["tracing"].words
        return list(plain) if domain == "plain" else [word for pair in zip(plain, tracing) for word in pair]

    def box(self, p: int, size: int) -> list[list[int]]:
        return self.boxes.setdefault((p, size), [])

    def entry(self, p: int, level: int, words: list[str]) -> None:
        if words[0] in CALLS:
            self.owned.calls[p] += 1
        for part in (self.owned, self):
            known = getattr(part, f"on_{words[0]}", None)
            if known:
                known(p, level, words[1:])
        if level == 0:
            if words[0] == "begin":
                self.began[p] = int(words[2]) - 1
            elif words[0] != "finish":
                self.began[p] = None
            self.passed[p] = (int(words[1]), int(words[3])) if words[0] == "pass" and words[2] == "plain" else None
            self.last[p] = copy.deepcopy(self.courses)

    # ---- words, numbers, looks

    def section(self, p: int, words: list[str], odd: int) -> None:
        course, word = self.courses[words[0]], int(words[1])
        needs(word == course.words[p] + 1 and word % 2 == odd, "the next word of the section")
        course.words[p] = word

    def on_in(self, p: int, level: int, words: list[str]) -> None:
        self.section(p, words, 1)

    def on_out(self, p: int, level: int, words: list[str]) -> None:
        self.section(p, words, 0)

    def on_begin(self, p: int, level: int, words: list[str]) -> None:
        course = self.courses[words[0]]
        needs(course.number % 2 == 0 and int(words[1]) == course.number + 1, "the number of the begin")
        course.number, course.driver, course.first = course.number + 1, p, self.found(words[0], self.courses)

    def on_finish(self, p: int, level: int, words: list[str]) -> None:
        course, cut = self.courses[words[0]], words.index("later")
        first, later = [int(word) for word in words[3:cut]], [int(word) for word in words[cut + 1 :]]
        needs(course.driver == p and course.number % 2 == 1 and int(words[1]) == course.number + 1, "the number of the end")
        needs(first == course.first, "the words at the begin")
        needs(later == self.found(words[0], self.courses), "the words at the end")
        needs(passes(first, later), "all words pass")
        course.number, course.driver, course.first = course.number + 1, None, []

    def on_stamp(self, p: int, level: int, words: list[str]) -> None:
        number = self.courses[words[1]].number
        needs(int(words[2]) == number + 2 + number % 2, "the stamp of the number")
        self.stamps[p, int(words[0]), words[1]] = int(words[2])

    def on_pass(self, p: int, level: int, words: list[str]) -> None:
        needs(int(words[2]) == self.courses[words[1]].number, "the number")
        stamp = self.stamps.get((p, int(words[0]), words[1]))
        needs(stamp is not None, "the batch has a stamp")
        before = self.last[p][words[1]]
        if before.driver == p:
            needs(not passes(before.first, self.found(words[1], self.last[p])), "the poll ends a period whose words pass")
        else:
            needs(before.number % 2 == 1 or stamp <= before.number, "the poll begins a period")
        began = self.began.get(p)
        needs(began is None or began < stamp, "the poll begins below the stamp alone")

    # ---- lives and seals

    def make(self, p: int, unit: int, life: int) -> None:
        needs(unit not in self.holds and life == self.begun.get(unit, 0) + 1, "the next life of a unit that has none")
        self.begun[unit], self.holds[unit] = life, (p, 1)

    def on_given(self, p: int, level: int, words: list[str]) -> None:
        unit = int(words[0])
        waited = self.waits.pop(unit, None)
        if len(words) > 2:
            needs(waited == (int(words[3]), int(words[4])) and waited[0] <= waited[1], "the seal of the batch")
        else:
            needs(waited is None, "a unit that waits for nothing")
        self.make(p, unit, int(words[1]))

    def living(self, words: list[str]) -> tuple[int, int]:
        """The maker and the count of the life that is named."""
        unit, life = int(words[0]), int(words[1])
        needs(unit in self.holds and life == self.begun[unit], "the life that the unit has")
        return self.holds[unit]

    def on_acquire(self, p: int, level: int, words: list[str]) -> None:
        maker, count = self.living(words)
        needs(count == int(words[2]), "the count")
        self.holds[int(words[0])] = (maker, count + 1)

    def on_get(self, p: int, level: int, words: list[str]) -> None:
        self.living(words)

    def on_xchg(self, p: int, level: int, words: list[str]) -> None:
        if words[2] != "none":
            self.living(words[2:])

    def on_drop(self, p: int, level: int, words: list[str]) -> None:
        unit, life = int(words[0]), int(words[1])
        needs(unit in self.holds and life == self.begun[unit] and (p, level) not in self.dropping, "the life that the unit has")
        self.dropping[p, level] = (unit, life, None)

    def reply(self, p: int, level: int, count: int) -> tuple[int, int]:
        needs((p, level) in self.dropping, "a drop is under way")
        unit, life, ended = self.dropping[p, level]
        needs(ended is None and unit in self.holds and life == self.begun[unit] and self.holds[unit][1] == count, "the count")
        return unit, life

    def on_still(self, p: int, level: int, words: list[str]) -> None:
        unit, _life = self.reply(p, level, int(words[0]))
        needs(int(words[0]) > 1, "other references")
        self.holds[unit] = (self.holds[unit][0], self.holds[unit][1] - 1)
        del self.dropping[p, level]

    def on_last(self, p: int, level: int, words: list[str]) -> None:
        unit, life = self.reply(p, level, 1)
        self.dropping[p, level] = (unit, life, self.holds.pop(unit)[0])

    def end(self, p: int, level: int, words: list[str]) -> int:
        needs((p, level) in self.dropping, "a drop is under way")
        unit, _life, maker = self.dropping.pop((p, level))
        needs(unit == int(words[0]) and maker == int(words[1]), "the unit of the drop, and its home")
        return unit

    def on_free(self, p: int, level: int, words: list[str]) -> None:
        self.waits.pop(self.end(p, level, words), None)
        self.homes[p, level] = int(words[1])

    def on_delay(self, p: int, level: int, words: list[str]) -> None:
        self.waits[self.end(p, level, words)] = "batch"
        self.homes[p, level] = int(words[1])

    def on_enter(self, p: int, level: int, words: list[str]) -> None:
        if (p, level) in self.homes:
            self.targets[p, int(words[0])] = self.homes.pop((p, level))

    # ---- pages and parcels

    def take(self, size: int, want: int, units: list[int]) -> None:
        needs(units == self.stock.fetch(size, want), "the units that the stock gives")

    def on_fill(self, p: int, level: int, words: list[str]) -> None:
        size = int(words[0])
        self.take(size, 4 if size <= 256 else 1, [int(word) for word in words[1:]])

    def on_fetch(self, p: int, level: int, words: list[str]) -> None:
        self.take(int(words[0]), int(words[1]), [int(word) for word in words[2:]])

    def on_return(self, p: int, level: int, words: list[str]) -> None:
        for word in reversed(words[1:]):
            self.stock.back(int(word))

    def on_send(self, p: int, level: int, words: list[str]) -> None:
        size, to, units = int(words[0]), int(words[1]), [int(word) for word in words[2:]]
        needs(to < self.processors and units != [], "a parcel to one of the processors")
        needs(to == self.targets.get((p, size), p), "the target of the cache")
        self.box(to, size).append(units)
        passed, stamp = self.passed.get(p), self.stamps.get((p, size, "plain"))
        if passed and passed[0] == size and stamp is not None:
            for unit in units:
                if self.waits.get(unit) == "batch":
                    self.waits[unit] = (stamp, passed[1])

    def on_receive(self, p: int, level: int, words: list[str]) -> None:
        box = self.box(p, int(words[0]))
        needs([int(word) for word in words[1:]] == (box[0] if box else []), "the oldest parcel")
        del box[:1]

    def on_sweep(self, p: int, level: int, words: list[str]) -> None:
        units, box = [int(word) for word in words[1:]], self.box(p, int(words[0]))
        waiting = [unit for parcel in box for unit in parcel]
        needs(units[len(units) - len(waiting) :] == waiting, "the parcels that wait come last")
        box.clear()


def passes(first: list[int], later: list[int]) -> bool:
    return len(first) == len(later) and all(a % 2 == 0 or a < b for a, b in zip(first, later))


@dataclass
class Entry:
    """A line of a log, with its processor and its place in the journal."""

    number: int
    line: str
    processor: int

    def __post_init__(self):
        level, *self.words = self.line.split(" ")
        self.level = int(level)

    def is_one_of(self, *names: str) -> bool:
        return self.words[0] in names


def turns_of(log: list[Entry]) -> Iterator[list[Entry]]:
    """A log between its fills and its closing, cut directly behind each `yield`."""
    piece: list[Entry] = []
    for entry in log:
        piece.append(entry)
        if entry.is_one_of("yield", "ended"):
            yield piece
            piece = []


def whole(logs: list[list[Entry]], turns: Iterable[int]) -> Iterator[Entry]:
    """All entries in one order: the fills; the turns, then those of the lowest processor that hasn't ended; the closing.

    In the closing processor 0 comes up to its first `finish` or `sweep`, then each one's `finish` entries before its first `sweep`.
    """
    fills = [list(takewhile(lambda entry: entry.is_one_of("fill"), log)) for log in logs]
    ends = [[place for place, entry in enumerate(log, 1) if entry.is_one_of("ended")] for log in logs]
    needs(all(len(places) == 1 for places in ends), "each processor ends once")
    for each in fills:
        yield from each
    left = [turns_of(log[len(fill) : end]) for fill, log, (end,) in zip(fills, logs, ends)]
    for p in turns:
        yield from next(left[p], [])
    for pieces in left:
        for piece in pieces:
            yield from piece
    closings = [log[end:] for log, (end,) in zip(logs, ends)]
    front = list(takewhile(lambda entry: not entry.is_one_of("finish", "sweep"), closings[0]))
    yield from front
    closings[0] = closings[0][len(front) :]
    finishes = [list(takewhile(lambda entry: entry.is_one_of("finish"), closing)) for closing in closings]
    for each in finishes:
        yield from each
    for each, closing in zip(finishes, closings):
        yield from closing[len(each) :]


def read(journal: str) -> tuple[Shared, list[list[Entry]]]:
    """The state at the beginning, and the log of each processor."""
    lines = journal.splitlines()
    heading = lines[0].split(" ")
    shared, logs = Shared(int(heading[1]), int(heading[3])), []
    for number, line in enumerate(lines, 1):
        if line.startswith("processor "):
            logs.append([])
        elif logs and line[:1].isdigit():
            logs[-1].append(Entry(number, line, len(logs) - 1))
    return shared, logs


def judge(journal: str, turns: Iterable[int] = ()) -> str | None:
    """What the first entry that doesn't fit misses, with its line; None where the journal's order is laid."""
    shared, logs = read(journal)
    place = "the whole"
    try:
        needs(len(logs) == shared.processors, "a log of each processor")
        for entry in whole(logs, turns):
            place = f"line {entry.number}: {entry.line}"
            shared.entry(entry.processor, entry.level, entry.words)
        place = "at the end"
        needs(not shared.stock.out and not shared.holds, "no unit is out or lives")
        needs(all(course.driver is None for course in shared.courses.values()), "no period is in progress")
        shared.owned.at_end(histories_of(journal))
    except Misfit as misfit:
        return f"{place}: {misfit}"
    return None


def main() -> int:
    scenario = Reader(Path(sys.argv[1]).read_bytes()).read() if len(sys.argv) > 1 else None
    said = judge(sys.stdin.read(), scenario.turns or () if scenario else ())
    print(said or "laid")
    return 1 if said else 0


if __name__ == "__main__":
    sys.exit(main())
