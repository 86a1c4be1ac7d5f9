#!/usr/bin/env python3
"""Compares the program's `check` with a second reader and checker, over random scenarios.

For each seed a scenario of the whole language is made; in every second one some tokens are turned. The status and the line
on standard error must be those of the second checker. What differs is told, and its text kept in the folder for temporary
files. The last lines count how often each status and rule came, and what differs. The status is 0 where nothing differs.
"""

import random
import re
import subprocess
import sys
from collections import Counter

from comparing import keep, words
from language import AtLine, Block, Graph, ObjectType, RunLine, Scenario, Script, Statement, text_of
from second_checker import RESERVED, SPENT, Checker, Rejected, State, answer

NAMES = ["a", "b", "c", "d", "e", "f"]
FIELDS = ["k", "v", "w"]
GRAPH_CALLS = {"list": ["push_front", "push_back", "pop_front", "pop_back"], "tree": ["add", "first", "remove"]}
ODD_TOKENS = ["0", "7", "007", "4294967295", "4294967296", "{", "}", "x" * 31, "x" * 32, "9z", "$", "\x0b"]
WORDS = sorted(RESERVED)
STATEMENTS = ["new", "new", "drop", "acquire", "get", "xchg", "if", "if", "repeat", "section", "lock", "unlock", "yield"]


class Maker:
    """Makes a random scenario, most of whose statements keep the rules."""

    def __init__(self, seed: int):
        self.draw = random.Random(seed)
        self.scenario = Scenario(
            processors=self.draw.choice([1, 1, 2, 4]),
            pages=self.draw.choice([0, 1, 64]),
            deferred=self.draw.random() < 0.5,
        )
        # how often a statement that breaks a rule is taken
        self.carelessness = self.draw.choice([0, 0.02, 0.1])
        for number in range(self.draw.randint(1, 4)):
            self.add_type(f"t{number}")
        for number in range(self.draw.randint(0, 5)):
            self.add_map(f"m{number}")

    def add_type(self, name: str) -> None:
        node = self.draw.choice([None, "list", "tree"])
        fields = FIELDS[: self.draw.randint(1 if node != "list" else 0, 3)]
        self.scenario.types[name] = ObjectType(name, self.draw.random() < 0.4, node, fields, self.draw.choice([0, 0, 8, 400]))

    def add_map(self, name: str) -> None:
        of = self.draw.choice([*self.scenario.types.values()])
        kind = self.draw.choice(["slot", of.node or "slot"])
        self.scenario.maps[name] = Graph(kind, name, of)

    # ---- statements

    def name(self) -> str:
        return self.draw.choice(NAMES)

    def candidate(self, checker: Checker, depth: int) -> Statement | None:
        """A statement, with any names and maps; None where there is no map for it."""
        draw, maps = self.draw, [*self.scenario.maps.values()]
        word = draw.choice([*STATEMENTS, *["call"] * 5])
        made = Statement(word, [self.name()])
        if word == "new":
            made.type = draw.choice([*self.scenario.types.values()])
            made.values = [draw.randint(0, 9) for _ in made.type.fields]
        elif word == "acquire":
            made.names.append(self.name())
        elif word == "get":
            made.names.append(draw.choice(FIELDS))
        elif word in ("xchg", "lock", "call"):
            kinds = ("slot",) if word == "xchg" else ("list", "tree")
            fitting = [each for each in maps if each.kind in kinds]
            if not fitting:
                return None
            made.map = checker.lock[0] if word == "call" and checker.lock and draw.random() < 0.9 else draw.choice(fitting)
            if word == "call":
                made.word = draw.choice(GRAPH_CALLS[made.map.kind])
            if made.word == "remove" or (word == "xchg" and draw.random() < 0.6):
                made.names.append(self.name())
        elif word == "repeat":
            made.times = draw.choice([0, 1, 2, 3])
        if word in ("if", "repeat", "section"):
            made.blocks = [Block() for _ in range(draw.choice([1, 2]) if word == "if" else 1)]
            if depth > 3:
                return None
        return made

    def fill(self, block: Block, checker: Checker, names: dict, depth: int, length: int) -> dict:
        """Fills a block, and gives the names behind it."""
        outside = dict(names)
        for _ in range(length):
            names = self.add_statement(block, checker, names, depth, length)
        for statement in self.endings(outside, names, checker, block):
            after = self.tried(statement, block, checker, names)
            names = names if isinstance(after, int) else after
            block.statements.append(statement)
        return names

    def add_statement(self, block: Block, checker: Checker, names: dict, depth: int, length: int) -> dict:
        """Adds a statement that keeps the rules, where one is found soon; carelessly one that breaks any of the rules."""
        is_careless = self.draw.random() < self.carelessness * (3 if checker.lock else 1)
        broken: dict[int, Statement] = {}
        for _ in range(30 if is_careless else 12):
            statement = self.candidate(checker, depth)
            if statement is None:
                continue
            after = self.tried(statement, block, checker, names)
            # (rules 5 and 6 speak of what a block leaves, and these are still empty)
            if statement.blocks and not is_careless and (after in (5, 6) or not isinstance(after, int)):
                self.fill_blocks(statement, checker, names, depth, length)
                after = self.tried(statement, block, checker, names)
            if isinstance(after, int):
                broken[after] = statement
            elif not is_careless:
                block.statements.append(statement)
                return after
        if is_careless and broken:
            block.statements.append(broken[self.draw.choice(sorted(broken))])
        return names

    def fill_blocks(self, statement: Statement, checker: Checker, names: dict, depth: int, length: int) -> None:
        for place, inner in enumerate(statement.blocks):
            inside = dict(names)
            if statement.word == "if":
                state = names.get(statement.names[0], SPENT)
                inside[statement.names[0]] = SPENT if place or state == SPENT else State(state.type, state.graph)
            self.fill(inner, checker, inside, depth + 1, length // 2)

    def tried(self, statement: Statement, block: Block, checker: Checker, names: dict) -> dict | int:
        """The names behind a statement, or the rule that it breaks; then nothing has changed."""
        held = checker.lock
        try:
            return checker.statement(statement, block, names)
        except Rejected as rejected:
            checker.lock = held
            return rejected.rule

    def endings(self, outside: dict, names: dict, checker: Checker, block: Block) -> list[Statement]:
        """What gives up a lock that the block took, and what its names own that they didn't own outside."""
        ends = []
        if checker.lock and checker.lock[1] is block and self.draw.random() >= 5 * self.carelessness:
            ends.append(Statement("unlock"))
        for name, state in names.items():
            if not state.owns() or outside.get(name) == state or self.draw.random() < self.carelessness:
                continue
            drop = Statement("drop", [name])
            ends.append(Statement("if", [name], blocks=[Block([drop])]) if state.may_be_null else drop)
        return ends

    def made(self) -> Scenario:
        """The scenario, with its scripts, lines and turns."""
        scenario, draw = self.scenario, self.draw
        for number in range(draw.randint(0, 3)):
            kind = draw.choice(["plain", "plain", "sleepable", "handler"])
            script = Script(f"s{number}", kind, Block())
            self.fill(script.body, Checker(scenario, script), {}, 1, draw.choice([2, 5, 10, 20]))
            scenario.scripts[script.name] = script
            self.add_line(script)
        if draw.random() < 0.3:
            scenario.turns = [self.processor() for _ in range(3)]
        return scenario

    def processor(self) -> int:
        return self.draw.randrange(self.scenario.processors)

    def add_line(self, script: Script) -> None:
        if script.kind == "handler":
            self.scenario.ats.append(AtLine(self.processor(), self.draw.randint(0, 50), self.draw.randint(1, 3), script))
        else:
            self.scenario.runs.append(RunLine(self.processor(), script))


# ---- texts


def alike(token: str, draw: random.Random) -> str:
    """Another token of the same kind."""
    if token.isdigit():
        return draw.choice(["0", "1", "2", "3", "4", "5", "8", "12", "400", "4064", "4088", "70000"])
    kinds = [["t0", "t1", "t2", "t9"], ["m0", "m1", "m2", "m9"], ["s0", "s1", "s2", "s9"], FIELDS, NAMES, WORDS]
    return draw.choice(next((kind for kind in kinds if token in kind), ODD_TOKENS))


def nested(text: str, draw: random.Random) -> str:
    """The text with a deep nest of blocks at the begin of its first script."""
    depth = draw.randint(14, 18)
    return re.sub(r"(script \S+ \S+ \{\n)", r"\1" + "repeat 1 { " * depth + "} " * depth + "\n", text, count=1)


def turned(text: str, draw: random.Random) -> bytes:
    """The text with one to three of its tokens turned, or some bytes."""
    if draw.random() < 0.1:
        return nested(text, draw).encode()
    tokens = text.replace("\n", " \n ").split(" ")
    for _ in range(draw.randint(1, 3)):
        # (the declarations stand at the front, the lines behind the scripts at the end)
        near = draw.randrange(min(len(tokens), 40))
        place = draw.choice([near, len(tokens) - 1 - near, draw.randrange(len(tokens))])
        other = draw.choice([*ODD_TOKENS, *WORDS, *NAMES, *[alike(tokens[place], draw)] * 60])
        kind = draw.choice([0, 1, 2, 2, 2, 3])
        if kind == 0:
            del tokens[place]
        elif kind == 1:
            tokens.insert(place, other)
        elif kind == 2:
            tokens[place] = other
        else:
            second = draw.randrange(len(tokens))
            tokens[place], tokens[second] = tokens[second], tokens[place]
    data = " ".join(tokens).encode()
    if draw.random() < 0.15:
        data = data[: draw.randrange(len(data) + 1)]
    if draw.random() < 0.1:
        place = draw.randrange(len(data) + 1)
        data = data[:place] + bytes([draw.randrange(256)]) + data[place:]
    return data


def compare(program: str, seed: int, came: Counter) -> bool:
    maker = Maker(seed)
    text = text_of(maker.made())
    data = turned(text, maker.draw) if seed % 2 else text.encode()
    ran = subprocess.run([program, "check"], input=data, capture_output=True, check=False)
    got = ran.returncode, ran.stderr.decode().removeprefix("bpfmem: ").rstrip("\n")
    wanted = answer(data)
    came[f"{wanted[0]} {wanted[1].split(': ')[-1]}".strip()] += 1
    if got == wanted and ran.stdout == (b"accepted\n" if wanted[0] == 0 else b""):
        return True
    kept = keep(f"check-{seed}", data)
    print(f"seed {seed}: got {got}, wanted {wanted}; the text is in {kept}")
    return False


def main() -> int:
    program, seeds = words(__doc__)
    came: Counter[str] = Counter()
    told = [compare(program, seed, came) for seed in seeds]
    print(", ".join(f"{name}: {count}" for name, count in sorted(came.items())))
    print(f"{told.count(True)} the same, {told.count(False)} differ")
    return 1 if False in told else 0


if __name__ == "__main__":
    sys.exit(main())
