"""Random scenarios that the checker accepts, for the comparisons."""

import random

from language import AtLine, Block, ObjectType, RunLine, Scenario, Script, Statement

SMALL = [8, 16, 24, 40, 96, 200, 248]
GREAT = [400, 1000, 2000, 4080, 4088]
DEEPEST = 4


class Maker:
    """Makes a random scenario that the checker accepts: what an `if` finds is dropped in its first block, at the latest."""

    def __init__(self, seed: int, has_several: bool = False):
        self.draw = random.Random(seed)
        self.processors = random.Random(f"processors {seed}").randint(2, 8) if has_several else 1
        # whether what is made may yield, as ordinary code may
        self.may_yield = False
        # every second scenario has great units, many held at once, and pages enough, so that caches are drained
        self.drains = seed % 2 == 1
        self.names = 0
        # by name the type of the object that was asked for
        self.made: dict[str, ObjectType] = {}
        self.types = [self.object_type(number) for number in range(self.draw.choice([1, 1, 2, 2, 3]))]

    def object_type(self, number: int) -> ObjectType:
        size = self.draw.choice(GREAT if self.drains else SMALL + GREAT)
        # two of five types have a reference count, of 8 bytes; of several processors more, so that more periods are waited for
        counted = self.draw.random() < (0.4 if self.processors == 1 else 0.7)
        fields = min(self.draw.randint(0, 2), size // 8 - counted)
        pad = size - 8 * fields - 8 * counted
        return ObjectType(f"t{number}", counted=counted, fields=[f"f{place}" for place in range(fields)], pad=pad)

    def fresh(self) -> str:
        self.names += 1
        return f"n{self.names}"

    def new(self, name: str) -> Statement:
        made = self.draw.choice(self.types)
        self.made[name] = made
        return Statement("new", [name], type=made, values=[self.draw.randint(0, 99) for _ in made.fields])

    def block(self, depth: int, length: int) -> list[Statement]:
        statements, held = [], []
        for _ in range(self.draw.randint(0, length)):
            kind = self.draw.random()
            if kind < 0.55 or not held:
                held.append(self.fresh())
                statements.append(self.new(held[-1]))
            elif kind < 0.85:
                statements.append(self.end_of(held.pop(self.draw.randrange(len(held))), depth, length))
            elif depth < DEEPEST:
                times = self.draw.choice([0, 1, 2, 3, 5, 8])
                statements.append(Statement("repeat", times=times, blocks=[Block(self.block(depth + 1, length // 2))]))
            statements += self.pauses(depth, length)
        self.draw.shuffle(held)
        return statements + [self.end_of(name, depth, length) for name in held]

    def pauses(self, depth: int, length: int) -> list[Statement]:
        """Sometimes a section, sometimes a yield."""
        made = []
        if depth < DEEPEST and self.draw.random() < 0.12:
            made.append(Statement("section", blocks=[Block(self.block(depth + 1, length // 2))]))
        if self.may_yield and self.draw.random() < (0.08 if self.processors == 1 else 0.3):
            made.append(Statement("yield"))
        return made

    def maybe(self, chance: float, depth: int, length: int) -> list[Statement]:
        return self.block(depth + 1, length // 3) if depth < DEEPEST and self.draw.random() < chance else []

    def end_of(self, name: str, depth: int, length: int) -> Statement:
        first = [*self.maybe(0.25, depth, length), *self.use_of(name, depth, length), *self.maybe(0.15, depth, length)]
        other = self.maybe(0.2, depth, length)
        has_other = bool(other) or self.draw.random() < 0.2
        return Statement("if", [name], blocks=[Block(first), *[Block(other)] * has_other])

    def use_of(self, name: str, depth: int, length: int) -> list[Statement]:
        """What becomes of an object that the name owns: sometimes a field is read, or there are further references, which end in any order."""
        made = self.made[name]
        reads = [Statement("get", [name, self.draw.choice(made.fields)])] if made.fields and self.draw.random() < 0.3 else []
        if not made.counted or self.draw.random() < 0.6:
            return reads + self.end_of_owned(name)
        other = self.fresh()
        self.made[other] = made
        ends = [self.end_of_owned(name), self.use_of(other, depth, length)]
        self.draw.shuffle(ends)
        between = self.maybe(0.2, depth, length)
        return [*reads, Statement("acquire", [other, name]), *between, *ends[0], *self.maybe(0.2, depth, length), *ends[1]]

    def end_of_owned(self, name: str) -> list[Statement]:
        """What becomes of the reference that the name owns."""
        return [Statement("drop", [name])]

    def many(self) -> list[Statement]:
        """Many objects of one type, held at once and dropped in any order."""
        made, count = self.draw.choice(self.types), self.draw.choice([5, 12, 40, 110])
        places = list(range(count))
        self.draw.shuffle(places)
        news = [Statement("new", [f"m{place}"], type=made, values=[place] * len(made.fields)) for place in range(count)]
        drops = [Statement("if", [f"m{place}"], blocks=[Block([Statement("drop", [f"m{place}"])])]) for place in places]
        return news + drops

    def script(self, name: str, kind: str, lengths: list[int]) -> Script:
        self.may_yield = kind != "handler"
        return Script(name, kind, Block(self.block(int(kind == "handler"), self.draw.choice(lengths))))

    def scenario(self) -> Scenario:
        draw = self.draw
        kinds = [draw.choice(["plain", "sleepable"]) for _ in range(draw.randint(1, 2))]
        ordinary = [self.script(f"s{number}", kind, [3, 8, 15, 40]) for number, kind in enumerate(kinds)]
        if draw.random() < (0.8 if self.drains else 0.25):
            ordinary.append(Script("many", draw.choice(["plain", "sleepable"]), Block(self.many())))
        handlers = [self.script(f"h{number}", "handler", [0, 1, 3, 6]) for number in range(draw.randint(0, 3))]
        return Scenario(
            processors=self.processors,
            pages=self.processors * draw.choice([3, 5, 8, 12, 20, 30] if self.drains else [0, 1, 1, 2, 3, 5, 20]),
            deferred=draw.random() < 0.8,
            types={each.name: each for each in self.types},
            scripts={each.name: each for each in ordinary + handlers},
            runs=self.run_lines(ordinary),
            ats=self.planned(handlers),
            turns=self.turns(),
        )

    def processor(self) -> int:
        return 0 if self.processors == 1 else self.draw.randrange(self.processors)

    def run_lines(self, ordinary: list[Script]) -> list[RunLine]:
        most = 3 if self.processors == 1 else 2 * self.processors
        return [RunLine(self.processor(), self.draw.choice(ordinary)) for _ in range(self.draw.randint(0, most))]

    def turns(self) -> list[int] | None:
        if self.processors == 1:
            return self.draw.choice([None, None, [], [0], [0, 0, 0]])
        in_turn = list(range(self.processors)) * self.draw.choice([1, 5, 20])
        by_lot = [self.processor() for _ in range(self.draw.choice([3, 10, 40, 200]))]
        return self.draw.choice([None, [], in_turn, by_lot, by_lot, by_lot])

    def planned(self, handlers: list[Script]) -> list[AtLine]:
        if not handlers:
            return []
        last_step = self.draw.choice([20, 100, 400])
        count = self.draw.choice([1, 3, 8, 20, 40])
        return [
            AtLine(self.processor(), self.draw.randint(0, last_step), self.draw.randint(1, 3), self.draw.choice(handlers))
            for _ in range(count)
        ]
