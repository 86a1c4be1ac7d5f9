#!/usr/bin/env python3
"""A second simulator, of up to eight processors that take turns, to compare the program's journals with.

    tools/second_simulator.py replay [--totals] < SCENARIO

It was written from the rules alone, which docs/caches.md, docs/deferred-work.md, docs/grace-periods.md, docs/handlers.md
and docs/journals.md restate, and shares no code with the program. It knows the whole language: references, fields, slots, lists, trees and
locks by second_objects.py. Nothing of it is proved. It answers as the program does.
"""

import sys
from collections import Counter, defaultdict
from collections.abc import Iterator
from dataclasses import dataclass, field

from language import AtLine, Block, ObjectType, Scenario, Script, Statement
from second_checker import Reader, answer
from second_objects import Objects, Reference, named

SIZES = [16, 32, 64, 96, 128, 192, 256, 512, 1024, 2048, 4096]
PAGE_UNITS = 256
MOST_RECEIVES = 64
DOMAINS = ("plain", "tracing")
TOTALS = (
    "steps given empty busy last still acquired exchanged pushed already taken none raised worked fetched returned "
    "plain tracing handlers"
).split()


def class_of(size: int) -> int:
    """The class of the least unit that holds an object of this size and 8 bytes more."""
    return next(number for number, unit in enumerate(SIZES) if unit >= size + 8)


def marks(size: int) -> tuple[int, int, int]:
    """The low and the high watermark, and the batch."""
    low, high = (32, 96) if size <= 256 else (max(32 * 256 // size, 1), max(96 * 256 // size, 3))
    return low, high, max((high - low) // 4 * 3, 1)


class Stock:
    """The units of all pages that no processor has."""

    def __init__(self, pages: int):
        self.class_of_page: list[int | None] = [None] * pages
        self.units: list[set[int]] = [set() for _ in range(pages)]

    def fetch(self, number: int, want: int) -> list[int]:
        """The least unit of the class, one after the other; where there is none the lowest free page takes the class."""
        came: list[int] = []
        while len(came) < want:
            there = [unit for page, units in enumerate(self.units) if self.class_of_page[page] == number for unit in units]
            if not there:
                page = next((page for page, of in enumerate(self.class_of_page) if of is None), None)
                if page is None:
                    break
                self.class_of_page[page] = number
                self.units[page] = {page * PAGE_UNITS + place for place in range(4096 // SIZES[number])}
                there = list(self.units[page])
            unit = min(there)
            self.units[unit // PAGE_UNITS].discard(unit)
            came.append(unit)
        return came

    def put_back(self, number: int, units: list[int]) -> None:
        """A page whose units are all back has no class any more."""
        for unit in units:
            page = unit // PAGE_UNITS
            self.units[page].add(unit)
            if len(self.units[page]) == 4096 // SIZES[number]:
                self.class_of_page[page] = None
                self.units[page] = set()


@dataclass
class Cache:
    """The lists of a class, each from its top."""

    free: list[int] = field(default_factory=list)
    extra: list[int] = field(default_factory=list)
    delayed: list[int] = field(default_factory=list)
    extra_delayed: list[int] = field(default_factory=list)
    # the first stage's batch, which is in progress while it has units, and its plain stamp
    first: list[int] = field(default_factory=list)
    plain_stamp: int = 0
    ready: list[int] = field(default_factory=list)
    second: list[int] = field(default_factory=list)
    active: int = 0
    count: int = 0
    raised: bool = False
    # to whom parcels go, at first its own processor
    target: int = 0
    # the tracing stamp of the second stage's batch, while one is in progress
    stamp: int | None = None


@dataclass
class Period:
    """A grace period in progress: who began it, and the words at its begin."""

    driver: int
    first: list[int]


class Shared:
    """What all processors share."""

    def __init__(self, processors: int, pages: int, objects: Objects):
        self.stock = Stock(pages)
        self.objects = objects
        # by processor and class the parcels that wait, oldest first
        self.inboxes: defaultdict[tuple[int, int], list[list[int]]] = defaultdict(list)
        self.lives: Counter[int] = Counter()
        # by unit the processor that gave it last
        self.homes: dict[int, int] = {}
        # by unit the stamp and the number seen by which one that was freed with delay may be given again
        self.seals: dict[int, tuple[int, int]] = {}
        # by domain a word for each processor
        self.words = {domain: [0] * processors for domain in DOMAINS}
        self.numbers = dict.fromkeys(DOMAINS, 0)
        self.periods: dict[str, Period] = {}
        self.totals: Counter[str] = Counter()

    def words_of(self, domain: str) -> list[int]:
        """All words that a period of the domain looks at: of each processor the plain one, and then its tracing one."""
        plain, tracing = (self.words[each] for each in DOMAINS)
        return [word for pair in zip(plain, tracing) for word in pair] if domain == "tracing" else list(plain)


class Processor:
    """A processor, with its caches, its handlers and its log."""

    def __init__(self, number: int, scenario: Scenario, shared: Shared, classes: list[int]):
        self.number = number
        self.scenario = scenario
        self.shared = shared
        self.totals = shared.totals
        self.caches = {each: Cache(target=number) for each in classes}
        self.steps = 0
        # how many calls its log has so far, and the list or tree whose lock its script holds
        self.calls = 0
        self.locked: str | None = None
        self.planned = [at for at in scenario.ats if at.processor == number]
        self.has_ended = False
        self.lines: list[str] = []
        self.rest = self.whole_run()

    # ---- turns

    def turn(self) -> None:
        """Goes on up to the next `yield`, or to the end; once it has ended it does nothing."""
        next(self.rest, None)

    def whole_run(self) -> Iterator[None]:
        for run in self.scenario.runs:
            if run.processor == self.number:
                yield from self.script(run.script)
        self.note(0, "ended")
        self.has_ended = True

    # ---- the log

    def note(self, level: int, *words: object) -> None:
        self.lines.append(" ".join(map(str, (level, *words))))

    def call(self, level: int, *words: object) -> tuple[int, int]:
        """A call begins: its processor and its serial."""
        self.note(level, *words)
        return self.next_tag(True)

    def next_tag(self, is_used: bool = False) -> tuple[int, int]:
        """Of the call that begins next, or now."""
        tag = self.number, self.calls + 1
        self.calls += is_used
        return tag

    def step(self, level: int, *words: object) -> None:
        self.steps += 1
        self.totals["steps"] += 1
        self.note(level, *words)

    def point(self, level: int) -> None:
        """Before each step those handlers run that are due: the highest level first, then in the order of the text."""
        while not self.has_ended:
            due = [at for at in self.planned if at.step <= self.steps + 1 and at.level > level]
            if not due:
                return
            chosen = max(due, key=lambda at: at.level)
            self.planned = [at for at in self.planned if at is not chosen]
            self.handler(chosen)

    # ---- allocations and frees

    def lower(self, level: int, number: int) -> None:
        cache = self.caches[number]
        self.point(level)
        cache.active -= 1
        self.step(level, "leave", SIZES[number], cache.active)

    def enter(self, level: int, number: int) -> int:
        cache = self.caches[number]
        self.point(level)
        cache.active += 1
        self.step(level, "enter", SIZES[number], cache.active)
        return cache.active

    def enter_home(self, level: int, line: str, number: int, unit: int) -> int:
        """A free begins. The unit's home becomes the target in the very step that enters."""
        home = self.shared.homes[unit]
        self.note(level, line, unit, home)
        depth = self.enter(level, number)
        self.caches[number].target = home
        return depth

    def count(self, level: int, number: int, change: int) -> int:
        cache = self.caches[number]
        self.point(level)
        cache.count += change
        self.step(level, "count", SIZES[number], cache.count)
        return cache.count

    def pop(self, level: int, number: int) -> int | None:
        cache = self.caches[number]
        self.point(level)
        unit = cache.free.pop(0) if cache.free else None
        self.step(level, "pop", SIZES[number], "none" if unit is None else unit)
        return unit

    def push(self, level: int, number: int, unit: int) -> None:
        self.point(level)
        self.caches[number].free.insert(0, unit)
        self.step(level, "push", SIZES[number], unit)

    def put_extra(self, level: int, number: int, unit: int, extra: list[int], ending: str = "") -> None:
        """Looks at the list, then puts if nothing was put since, else looks again."""
        while True:
            self.point(level)
            seen = len(extra)
            self.step(level, f"look{ending}", SIZES[number], seen)
            self.point(level)
            if len(extra) == seen:
                extra.insert(0, unit)
                self.step(level, f"put{ending}", SIZES[number], unit)
                return
            self.step(level, f"lost{ending}", SIZES[number])

    def raise_flag(self, level: int, number: int) -> None:
        self.point(level)
        self.caches[number].raised = True
        self.totals["raised"] += 1
        self.step(level, "raise", SIZES[number])

    def allocate(self, level: int, number: int) -> tuple[int, int | None]:
        """How deep in the cache it was, and the unit, if there was one."""
        low, _, _ = marks(SIZES[number])
        depth = self.enter(level, number)
        unit, seen = None, 0
        if depth == 1:
            unit = self.pop(level, number)
            if unit is not None:
                seen = self.count(level, number, -1)
        self.lower(level, number)
        if seen < low:
            self.raise_flag(level, number)
        return depth, unit

    def release(self, level: int, number: int, unit: int) -> None:
        _, high, _ = marks(SIZES[number])
        depth = self.enter_home(level, "free", number, unit)
        seen = 0
        if depth == 1:
            self.push(level, number, unit)
            seen = self.count(level, number, 1)
        else:
            self.put_extra(level, number, unit, self.caches[number].extra)
        self.lower(level, number)
        if depth == 1 and seen > high:
            self.raise_flag(level, number)

    def release_later(self, level: int, number: int, unit: int) -> None:
        cache = self.caches[number]
        depth = self.enter_home(level, "delay", number, unit)
        if depth == 1:
            self.point(level)
            cache.delayed.insert(0, unit)
            self.step(level, "delayed", SIZES[number], unit)
        else:
            self.put_extra(level, number, unit, cache.extra_delayed, "d")
        self.lower(level, number)
        if not cache.first:
            self.raise_flag(level, number)

    # ---- scripts

    def block(self, level: int, block: Block, names: dict) -> Iterator[None]:
        for statement in block.statements:
            yield from self.statement(level, statement, names)
            if level == 0 and self.scenario.deferred and self.locked is None:
                self.work_until_down()

    def statement(self, level: int, statement: Statement, names: dict) -> Iterator[None]:
        match statement.word:
            case "new":
                names[statement.names[0]] = self.make(level, statement.type, statement.values)
            case "drop":
                self.give_up(level, names.pop(statement.names[0]))
            case "acquire":
                names[statement.names[0]] = self.acquire(level, names[statement.names[1]])
            case "get":
                self.get(level, *statement.names, names)
            case "xchg":
                put = names.pop(statement.names[1]) if len(statement.names) == 2 else None
                names[statement.names[0]] = self.exchange(level, statement.map.name, put)
            case "lock":
                self.locked = statement.map.name
                self.note(level, "lock", self.locked)
            case "unlock":
                self.note(level, "unlock", self.locked)
                self.locked = None
            case "push_front" | "push_back" | "add":
                self.push_object(level, statement.word, statement.map.name, names[statement.names[0]])
            case "pop_front" | "pop_back":
                names[statement.names[0]] = self.pop_object(level, statement.word, statement.map.name)
            case "first":
                names[statement.names[0]] = self.find_first(level, statement.map.name)
            case "remove":
                # (the removal of null is no call)
                found = names[statement.names[1]]
                names[statement.names[0]] = found and self.remove(level, statement.map.name, found)
            case "if":
                # (the second block, if there is one, is run at null)
                chosen = 1 if names.get(statement.names[0]) is None else 0
                for block in statement.blocks[chosen : chosen + 1]:
                    yield from self.block(level, block, names)
            case "repeat":
                for _ in range(statement.times):
                    yield from self.block(level, statement.blocks[0], names)
            case "section":
                yield from self.in_plain(level, statement.blocks[0], names)
            case "yield":
                # (the turn ends, and whatever section is open stays open)
                self.note(level, "yield")
                yield

    def in_plain(self, level: int, block: Block, names: dict) -> Iterator[None]:
        """Runs it in a plain section: a new one, where none is open."""
        is_outermost = self.shared.words["plain"][self.number] % 2 == 0
        if is_outermost:
            self.move_word(level, "in", "plain")
        yield from self.block(level, block, names)
        if is_outermost:
            self.move_word(level, "out", "plain")

    def make(self, level: int, made: ObjectType, values: list[int]) -> Reference | None:
        number = class_of(made.size())
        self.call(level, "new", made.name, *values)
        depth, unit = self.allocate(level, number)
        if unit is not None:
            self.shared.objects.begin(unit, values)
            return Reference(made, unit, self.begin_life(level, unit))
        if depth > 1:
            self.totals["busy"] += 1
            self.note(level, "busy", depth)
        else:
            self.totals["empty"] += 1
            self.note(level, "empty")
        return None

    def begin_life(self, level: int, unit: int) -> int:
        shared = self.shared
        shared.lives[unit] += 1
        shared.homes[unit] = self.number
        self.totals["given"] += 1
        seal = shared.seals.pop(unit, None)
        self.note(level, "given", unit, shared.lives[unit], *(("after", *seal) if seal else ()))
        return shared.lives[unit]

    # ---- references

    def give_up(self, level: int, reference: Reference) -> None:
        self.call(level, "drop", *reference.words())
        seen = self.shared.objects.move_count(reference, -1)
        if seen > 1:
            self.totals["still"] += 1
            self.note(level, "still", seen)
            return
        self.note(level, "last")
        self.totals["last"] += 1
        release = self.release_later if reference.type.counted else self.release
        release(level, class_of(reference.type.size()), reference.unit)

    def acquire(self, level: int, reference: Reference) -> Reference:
        self.totals["acquired"] += 1
        self.call(level, "acquire", *reference.words(), self.shared.objects.move_count(reference, 1))
        return reference

    def get(self, level: int, name: str, member: str, names: dict) -> None:
        reference = names[name]
        place = reference.type.fields.index(member)
        self.call(level, "get", *reference.words(), place, self.shared.objects.values[reference.unit][place])

    def exchange(self, level: int, name: str, put: Reference | None) -> Reference | None:
        self.totals["exchanged"] += 1
        was = self.shared.objects.exchange(name, put, self.next_tag())
        self.call(level, "xchg", name, "put", *named(put), "was", *named(was.held), "by", *(was.by or ["start"]))
        return was.held

    # ---- lists and trees

    def push_object(self, level: int, word: str, name: str, reference: Reference) -> None:
        """An object that is in a list or tree already stays there alone, and the caller's reference is given up."""
        objects = self.shared.objects
        graph, owner, tag = objects.graphs[name], objects.owners.get(reference.unit), self.next_tag()
        # (a type with a tree node has a field; the key of an item of a list is no matter)
        key = objects.values[reference.unit][0] if word == "add" else 0
        keyed = [key] if word == "add" else []
        if owner is None:
            self.totals["pushed"] += 1
            objects.owners[reference.unit] = name
            graph.put(word, key, reference)
            self.call(level, word, name, *reference.words(), "at", graph.record(tag, word, *reference.words(), *keyed))
            return
        self.totals["already"] += 1
        position = graph.record(tag, word, *reference.words(), *keyed, "already", owner)
        self.call(level, word, name, *reference.words(), "already", owner, "at", position)
        self.give_up(level, reference)

    def pop_object(self, level: int, word: str, name: str) -> Reference | None:
        graph = self.shared.objects.graphs[name]
        found = self.find_end(level, word, name)
        self.totals["none" if found is None else "taken"] += 1
        if found is not None:
            self.leave_graph(graph.map.name, found)
        return found

    def find_first(self, level: int, name: str) -> Reference | None:
        found = self.find_end(level, "first", name)
        self.totals["none"] += found is None
        return found

    def find_end(self, level: int, word: str, name: str) -> Reference | None:
        graph = self.shared.objects.graphs[name]
        found = graph.end(word)
        self.call(level, word, name, *named(found), "at", graph.record(self.next_tag(), word, *named(found)))
        return found

    def remove(self, level: int, name: str, reference: Reference) -> Reference:
        graph = self.shared.objects.graphs[name]
        self.totals["taken"] += 1
        self.call(level, "remove", name, *reference.words(), "at", graph.record(self.next_tag(), "remove", *reference.words()))
        self.leave_graph(name, reference)
        return reference

    def leave_graph(self, name: str, reference: Reference) -> None:
        self.shared.objects.graphs[name].take(reference)
        del self.shared.objects.owners[reference.unit]

    # ---- sections, handlers and scripts

    def move_word(self, level: int, line: str, domain: str) -> None:
        words = self.shared.words[domain]
        words[self.number] += 1
        self.note(level, line, domain, words[self.number])

    def handler(self, at: AtLine) -> None:
        self.totals["handlers"] += 1
        self.note(at.level, "handler", at.script.name)
        # (in a handler nothing yields, so it runs as a whole)
        for _ in self.in_plain(at.level, at.script.body, {}):
            raise AssertionError("a handler that yields")
        self.note(at.level, "back", at.script.name)

    def script(self, script: Script) -> Iterator[None]:
        domain = "tracing" if script.kind == "sleepable" else "plain"
        self.note(0, "script", script.name)
        self.move_word(0, "in", domain)
        yield from self.block(0, script.body, {})
        self.move_word(0, "out", domain)
        self.note(0, "done", script.name)
        if self.scenario.deferred:
            for number in self.caches:
                self.work(number)
            self.work_until_down()

    # ---- grace periods

    def drives(self, domain: str) -> bool:
        """Whether this processor has a period of the domain in progress."""
        period = self.shared.periods.get(domain)
        return period is not None and period.driver == self.number

    def look(self, domain: str) -> None:
        """The period ends where each word was even at its begin, or is greater now."""
        shared = self.shared
        first, later = shared.periods[domain].first, shared.words_of(domain)
        if all(was % 2 == 0 or now > was for was, now in zip(first, later)):
            del shared.periods[domain]
            shared.numbers[domain] += 1
            self.totals[domain] += 1
            self.note(0, "finish", domain, shared.numbers[domain], "first", *first, "later", *later)

    def look_at_own(self, domain: str) -> None:
        """Only who began a period looks for it."""
        if self.drives(domain):
            self.look(domain)

    def poll(self, number: int, domain: str, stamp: int) -> int:
        shared = self.shared
        self.look_at_own(domain)
        if not self.drives(domain) and shared.numbers[domain] % 2 == 0 and shared.numbers[domain] < stamp:
            shared.numbers[domain] += 1
            shared.periods[domain] = Period(self.number, shared.words_of(domain))
            self.note(0, "begin", domain, shared.numbers[domain])
            self.look(domain)
        self.point(0)
        self.step(0, "pass", SIZES[number], domain, shared.numbers[domain])
        return shared.numbers[domain]

    def take_stamp(self, number: int, domain: str) -> int:
        self.point(0)
        seen = self.shared.numbers[domain]
        stamp = seen + 3 if seen % 2 else seen + 2
        self.step(0, "stamp", SIZES[number], domain, stamp)
        return stamp

    # ---- deferred work

    def work_until_down(self) -> None:
        while (raised := next((number for number, cache in self.caches.items() if cache.raised), None)) is not None:
            self.work(raised)

    def work(self, number: int) -> None:
        cache, (low, high, _) = self.caches[number], marks(SIZES[number])
        self.note(0, "work", SIZES[number])
        self.totals["worked"] += 1
        cache.raised = False
        self.receive(number)
        self.point(0)
        seen = cache.count
        self.step(0, "read", SIZES[number], seen)
        if seen < low:
            self.refill(number)
        elif seen > high:
            self.drain(number)
        self.first_stage(number)
        self.second_stage(number)

    def receive(self, number: int) -> None:
        cache, inbox = self.caches[number], self.shared.inboxes[self.number, number]
        for _ in range(MOST_RECEIVES):
            self.point(0)
            parcel = inbox.pop(0) if inbox else []
            cache.ready = parcel + cache.ready
            self.step(0, "receive", SIZES[number], *parcel)
            if not parcel:
                return

    def add(self, number: int, unit: int) -> None:
        self.enter(0, number)
        self.push(0, number, unit)
        self.count(0, number, 1)
        self.lower(0, number)

    def refill(self, number: int) -> None:
        cache, (_, _, left) = self.caches[number], marks(SIZES[number])
        while left and (cache.ready or cache.second):
            self.point(0)
            source, line = (cache.ready, "ready") if cache.ready else (cache.second, "second")
            unit = source.pop(0)
            self.step(0, line, SIZES[number], unit)
            self.add(number, unit)
            left -= 1
        if left:
            self.point(0)
            units = self.shared.stock.fetch(number, left)
            self.totals["fetched"] += len(units)
            self.step(0, "fetch", SIZES[number], left, *units)
            for unit in units:
                self.add(number, unit)

    def drain(self, number: int) -> None:
        cache, (low, high, _) = self.caches[number], marks(SIZES[number])
        hand: list[int] = []
        while True:
            self.enter(0, number)
            unit, seen = self.pop(0, number), 0
            if unit is not None:
                hand.append(unit)
                seen = self.count(0, number, -1)
            self.lower(0, number)
            if unit is None or seen <= (low + high) // 2:
                break
        self.point(0)
        extra, cache.extra = cache.extra, []
        self.step(0, "takex", SIZES[number], *extra)
        hand += extra
        if hand:
            self.point(0)
            self.send(number, hand)

    def send(self, number: int, units: list[int]) -> None:
        target = self.caches[number].target
        self.shared.inboxes[target, number].append(units)
        self.step(0, "send", SIZES[number], target, *units)

    def first_stage(self, number: int) -> None:
        cache = self.caches[number]
        if cache.first and (seen := self.poll(number, "plain", cache.plain_stamp)) >= cache.plain_stamp:
            self.point(0)
            units, cache.first = cache.first, []
            self.shared.seals.update(dict.fromkeys(units, (cache.plain_stamp, seen)))
            self.send(number, units)
        self.enter(0, number)
        self.point(0)
        self.step(0, "taked", SIZES[number], *cache.extra_delayed)
        # they are moved one by one, so the last one ends on top
        cache.delayed, cache.extra_delayed = cache.extra_delayed[::-1] + cache.delayed, []
        begins = bool(cache.delayed) and not cache.first
        if begins:
            self.point(0)
            cache.first, cache.delayed = cache.delayed, []
            self.step(0, "batch", SIZES[number], *cache.first)
        self.lower(0, number)
        if begins:
            cache.plain_stamp = self.take_stamp(number, "plain")

    def second_stage(self, number: int) -> None:
        cache = self.caches[number]
        if cache.stamp is not None and self.poll(number, "tracing", cache.stamp) >= cache.stamp:
            self.point(0)
            self.give_back(number)
            cache.stamp = None
        if cache.stamp is None and cache.ready:
            self.point(0)
            cache.second, cache.ready = cache.ready, []
            self.step(0, "begin2", SIZES[number], *cache.second)
            cache.stamp = self.take_stamp(number, "tracing")

    def give_back(self, number: int) -> None:
        cache = self.caches[number]
        units, cache.second = cache.second, []
        self.shared.stock.put_back(number, units)
        self.totals["returned"] += len(units)
        self.step(0, "return", SIZES[number], *units)

    # ---- opening and closing

    def fill(self, number: int) -> None:
        units = self.shared.stock.fetch(number, 4 if SIZES[number] <= 256 else 1)
        self.totals["fetched"] += len(units)
        self.caches[number].free = units[::-1]
        self.caches[number].count = len(units)
        self.note(0, "fill", SIZES[number], *units)

    def empty_maps(self) -> None:
        """In the order of their declarations: what a slot holds is dropped, and each item of a list or tree, one by one."""
        for each in self.scenario.maps.values():
            if each.kind == "slot":
                found = self.exchange(0, each.name, None)
                if found is not None:
                    self.give_up(0, found)
                continue
            while (found := self.take_first(each.kind, each.name)) is not None:
                self.give_up(0, found)

    def take_first(self, kind: str, name: str) -> Reference | None:
        if kind == "list":
            return self.pop_object(0, "pop_front", name)
        found = self.find_first(0, name)
        return found and self.remove(0, name, found)

    def sweep(self, number: int) -> None:
        cache, inbox = self.caches[number], self.shared.inboxes[self.number, number]
        lists = [cache.free, cache.extra, cache.delayed, cache.extra_delayed, cache.first, cache.ready, cache.second, *inbox]
        units = [unit for each in lists for unit in each]
        if not units:
            return
        for each in [*lists, inbox]:
            each.clear()
        cache.second = units
        self.step(0, "sweep", SIZES[number], *units)
        self.poll(number, "tracing", self.take_stamp(number, "tracing"))
        self.give_back(number)


class Simulator:
    """All processors of a scenario, one at a time."""

    def __init__(self, scenario: Scenario):
        self.scenario = scenario
        self.classes = sorted({class_of(each.size()) for each in scenario.types.values()})
        self.shared = Shared(scenario.processors, scenario.pages, Objects(scenario.maps))
        self.processors = [Processor(number, scenario, self.shared, self.classes) for number in range(scenario.processors)]

    def journal(self) -> str:
        """Runs the scenario, once, and gives its journal's text."""
        for processor in self.processors:
            for number in self.classes:
                processor.fill(number)
        self.take_turns()
        self.close()
        logs = [line for processor in self.processors for line in (f"processor {processor.number}", *processor.lines)]
        return "".join(f"{line}\n" for line in [*self.heading(), *logs, *self.histories(), *self.ending()])

    def take_turns(self) -> None:
        """As the scenario has them; afterwards the lowest one that hasn't ended, until all have."""
        for number in self.scenario.turns or []:
            self.processors[number].turn()
        while left := [processor for processor in self.processors if not processor.has_ended]:
            left[0].turn()

    def close(self) -> None:
        """The maps are emptied, and all periods in progress end before the first sweep."""
        self.processors[0].note(0, "close")
        self.processors[0].empty_maps()
        for processor in self.processors:
            for domain in DOMAINS:
                processor.look_at_own(domain)
        for processor in self.processors:
            for number in self.classes:
                processor.sweep(number)

    def heading(self) -> list[str]:
        scenario = self.scenario
        return [
            f"processors {scenario.processors} pages {scenario.pages}",
            " ".join(["types", *scenario.types]),
            " ".join(["maps", *scenario.maps]),
            " ".join(["scripts", *scenario.scripts]),
            *("class {} marks {} {} {}".format(SIZES[number], *marks(SIZES[number])) for number in self.classes),
        ]

    def histories(self) -> list[str]:
        graphs = self.shared.objects.graphs.values()
        return [line for graph in graphs for line in (f"graph {graph.map.name}", *graph.history)]

    def ending(self) -> list[str]:
        return [f"total {name} {self.shared.totals[name]}" for name in TOTALS]


# ---- the command


def main() -> int:
    if sys.argv[1:] not in (["replay"], ["replay", "--totals"]):
        print("bpfmem: usage", file=sys.stderr)
        return 1
    text = sys.stdin.buffer.read()
    status, said = answer(text)
    if status:
        print(f"bpfmem: {said}", file=sys.stderr)
        return status
    scenario = Reader(text).read()
    simulator = Simulator(scenario)
    journal = simulator.journal()
    sys.stdout.write("".join(f"{line}\n" for line in simulator.ending()) if "--totals" in sys.argv else journal)
    return 0


if __name__ == "__main__":
    sys.exit(main())
