"""A second reader and ownership checker of scenarios, to compare the program's answers with.

It was written from the rules alone, which docs/scenarios.md and docs/ownership.md restate, and shares no code with the program.
It reads the whole language, and nothing of it is proved.
"""

import string
from dataclasses import dataclass

from language import AtLine, Block, Graph, ObjectType, RunLine, Scenario, Script, Statement

RESERVED = set(
    "scenario processors pages deferred on off type counted list tree pad slot script plain sleepable handler run at turns new "
    "drop acquire get xchg null if else repeat section lock unlock yield push_front push_back pop_front pop_back add first "
    "remove peek weak".split()
)
SECTIONS = ["type", "map", "script", "run", "at", "turns"]
LETTERS = set((string.ascii_letters + string.digits + "_").encode())
SEPARATORS = set(b" \t\n\r")
DEEPEST = 16
MOST_BYTES = 1_048_576


class BadText(Exception):
    """The text has no reading."""

    def __init__(self, line: int, column: int, kind: str):
        super().__init__(f"line {line} column {column}: {kind}")


class OverLimit(Exception):
    """A number exceeds this limit."""


class Rejected(Exception):
    """A script isn't accepted."""

    def __init__(self, script: str, line: int, rule: int):
        super().__init__(f"script {script} line {line}: rule {rule}")
        self.rule = rule


@dataclass
class Token:
    text: bytes
    line: int
    column: int
    kind: str  # word, number, {, }, end


class Reader:
    """Reads token by token; each next one is decided by those before it."""

    def __init__(self, text: bytes):
        self.text = text
        self.at, self.line, self.column = 0, 1, 1
        self.scenario = Scenario()
        self.token = self.next_token()

    # ---- tokens

    def step_over(self, count: int) -> None:
        for byte in self.text[self.at : self.at + count]:
            self.line, self.column = (self.line + 1, 1) if byte == 10 else (self.line, self.column + 1)
        self.at += count

    def next_token(self) -> Token:
        while self.at < len(self.text) and self.text[self.at] in SEPARATORS:
            self.step_over(1)
        line, column = self.line, self.column
        if self.at == len(self.text):
            return Token(b"", line, column, "end")
        if self.text[self.at] in b"{}":
            token = Token(self.text[self.at : self.at + 1], line, column, chr(self.text[self.at]))
            self.step_over(1)
            return token
        end = self.at
        while end < len(self.text) and self.text[end] in LETTERS:
            end += 1
        run = self.text[self.at : end]
        if not run:
            raise BadText(line, column, "byte")
        self.step_over(len(run))
        if run[:1].isdigit():
            if not run.isdigit() or (run[:1] == b"0" and run != b"0") or int(run) >= 2**32:
                raise BadText(line, column, "number")
            return Token(run, line, column, "number")
        if len(run) > 31:
            raise BadText(line, column, "name")
        return Token(run, line, column, "word")

    def fault(self, kind: str) -> BadText:
        token = self.token
        return BadText(token.line, token.column, "end" if token.kind == "end" else kind)

    def take(self) -> Token:
        taken, self.token = self.token, self.next_token()
        return taken

    def is_word(self, *words: str) -> bool:
        return self.token.kind == "word" and self.token.text.decode() in words

    def word(self, *words: str) -> str:
        if not self.is_word(*words):
            raise self.fault("unexpected")
        return self.take().text.decode()

    def brace(self, which: str) -> Token:
        if self.token.kind != which:
            raise self.fault("unexpected")
        return self.take()

    def is_number(self) -> bool:
        return self.token.kind == "number"

    def number(self, fits=lambda number: True) -> int:
        if not self.is_number():
            raise self.fault("unexpected")
        if not fits(int(self.token.text)):
            raise self.fault("range")
        return int(self.take().text)

    def is_name(self) -> bool:
        return self.token.kind == "word" and self.token.text.decode() not in RESERVED

    def name(self, taken=()) -> str:
        if not self.is_name():
            raise self.fault("unexpected")
        if self.token.text.decode() in taken:
            raise self.fault("duplicate")
        return self.take().text.decode()

    def known(self, among: dict, is_wrong=lambda it: False):
        if not self.is_name():
            raise self.fault("unexpected")
        found = among.get(self.token.text.decode())
        if found is None:
            raise self.fault("unknown")
        if is_wrong(found):
            raise self.fault("wrong")
        self.take()
        return found

    # ---- the grammar

    def read(self) -> Scenario:
        scenario = self.scenario
        self.word("scenario")
        self.brace("{")
        self.word("processors")
        scenario.processors = self.number(lambda number: number > 0)
        self.word("pages")
        scenario.pages = self.number()
        self.word("deferred")
        scenario.deferred = self.word("on", "off") == "on"
        self.items()
        if self.token.kind != "end":
            raise self.fault("unexpected")
        return scenario

    def items(self) -> None:
        """The declarations and lines up to the last brace; none stands before one of an earlier kind."""
        words = {"slot": "map", "list": "map", "tree": "map"}
        last = 0
        while self.token.kind != "}":
            word = self.token.text.decode(errors="replace")
            kind = words.get(word, word)
            place = SECTIONS.index(kind) if self.token.kind == "word" and kind in SECTIONS else -1
            if place < last or (kind == "turns" and last == SECTIONS.index("turns") + 1):
                raise self.fault("unexpected")
            last = place + (kind == "turns")
            self.take()
            getattr(self, f"{kind}_item")(word)
        self.brace("}")

    def type_item(self, _word: str) -> None:
        made = ObjectType(self.name(self.scenario.types))
        if self.is_word("counted"):
            self.take()
            made.counted = True
        if self.is_word("list", "tree"):
            made.node = self.take().text.decode()
        self.brace("{")
        while self.is_name():
            made.fields.append(self.name(made.fields))
        if self.is_word("pad"):
            self.take()
            made.pad = self.number(lambda number: number % 8 == 0)
        if self.token.kind == "}":
            if made.node == "tree" and not made.fields:
                raise self.fault("wrong")
            if not 0 < made.size() <= 4088:
                raise self.fault("type_size")
        self.brace("}")
        self.scenario.types[made.name] = made

    def map_item(self, word: str) -> None:
        name = self.name(self.scenario.maps)
        of = self.known(self.scenario.types, lambda it: word != "slot" and it.node != word)
        self.scenario.maps[name] = Graph(word, name, of)

    def script_item(self, _word: str) -> None:
        name = self.name(self.scenario.scripts)
        kind = self.word("plain", "sleepable", "handler")
        self.scenario.scripts[name] = Script(name, kind, self.block(1))

    def processor(self) -> int:
        return self.number(lambda number: number < self.scenario.processors)

    def run_item(self, _word: str) -> None:
        processor = self.processor()
        self.scenario.runs.append(RunLine(processor, self.known(self.scenario.scripts, lambda it: it.kind == "handler")))

    def at_item(self, _word: str) -> None:
        processor, step, level = self.processor(), self.number(), self.number(lambda number: 1 <= number <= 3)
        script = self.known(self.scenario.scripts, lambda it: it.kind != "handler")
        self.scenario.ats.append(AtLine(processor, step, level, script))

    def turns_item(self, _word: str) -> None:
        self.brace("{")
        self.scenario.turns = []
        while self.is_number():
            self.scenario.turns.append(self.processor())
        self.brace("}")

    def block(self, depth: int) -> Block:
        if self.token.kind == "{" and depth > DEEPEST:
            raise self.fault("depth")
        self.brace("{")
        statements = []
        while self.token.kind != "}":
            statements.append(self.statement(depth))
        return Block(statements, self.brace("}").line)

    def map_of(self, *kinds: str) -> Graph:
        return self.known({name: it for name, it in self.scenario.maps.items() if it.kind in kinds})

    def statement(self, depth: int) -> Statement:
        if self.is_word("peek", "weak"):
            raise self.fault("not_yet")
        if self.token.kind != "word":
            raise self.fault("unexpected")
        made = Statement(self.token.text.decode(), line=self.token.line)
        reading = getattr(self, f"{made.word}_words", None)
        if made.word not in RESERVED or reading is None:
            raise self.fault("unexpected")
        self.take()
        reading(made, depth)
        return made

    def new_words(self, made: Statement, _depth: int) -> None:
        made.names.append(self.name())
        made.type = self.known(self.scenario.types)
        made.values = [self.number() for _ in made.type.fields]

    def drop_words(self, made: Statement, _depth: int) -> None:
        made.names.append(self.name())

    def acquire_words(self, made: Statement, _depth: int) -> None:
        made.names += [self.name(), self.name()]

    get_words = acquire_words

    def xchg_words(self, made: Statement, _depth: int) -> None:
        made.names.append(self.name())
        made.map = self.map_of("slot")
        if self.is_word("null"):
            self.take()
        else:
            made.names.append(self.name())

    def if_words(self, made: Statement, depth: int) -> None:
        made.names.append(self.name())
        made.blocks.append(self.block(depth + 1))
        if self.is_word("else"):
            self.take()
            made.blocks.append(self.block(depth + 1))

    def repeat_words(self, made: Statement, depth: int) -> None:
        made.times = self.number()
        made.blocks.append(self.block(depth + 1))

    def section_words(self, made: Statement, depth: int) -> None:
        made.blocks.append(self.block(depth + 1))

    def lock_words(self, made: Statement, _depth: int) -> None:
        made.map = self.map_of("list", "tree")

    def unlock_words(self, made: Statement, _depth: int) -> None:
        """The word alone."""

    yield_words = unlock_words

    def push_front_words(self, made: Statement, _depth: int) -> None:
        made.map = self.map_of("list")
        made.names.append(self.name())

    push_back_words = push_front_words

    def pop_front_words(self, made: Statement, _depth: int) -> None:
        made.names.append(self.name())
        made.map = self.map_of("list")

    pop_back_words = pop_front_words

    def add_words(self, made: Statement, _depth: int) -> None:
        made.map = self.map_of("tree")
        made.names.append(self.name())

    def first_words(self, made: Statement, _depth: int) -> None:
        made.names.append(self.name())
        made.map = self.map_of("tree")

    def remove_words(self, made: Statement, _depth: int) -> None:
        made.names.append(self.name())
        made.map = self.map_of("tree")
        made.names.append(self.name())


# ---- limits


def cost(block: Block) -> int:
    return sum(statement_cost(statement) for statement in block.statements)


def statement_cost(statement: Statement) -> int:
    costs = [cost(block) for block in statement.blocks]
    if statement.word == "repeat":
        return 1 + statement.times * (1 + costs[0])
    return 1 + max(costs, default=0)


def within_limits(scenario: Scenario) -> None:
    """In their order; the first that is exceeded is told."""
    lines = scenario.runs + scenario.ats
    statements = [
        sum(10 + cost(line.script.body) for line in lines if line.processor == number)
        for number in range(min(scenario.processors, 8))
    ]
    numbers = [
        ("processors", scenario.processors, 8),
        ("pages", scenario.pages, 256),
        ("types", len(scenario.types), 32),
        ("fields", max((len(each.fields) for each in scenario.types.values()), default=0), 8),
        ("maps", len(scenario.maps), 64),
        ("scripts", len(scenario.scripts), 256),
        ("handlers", len(scenario.ats), 1_000),
        ("turns", len(scenario.turns or []), 100_000),
        ("statements", max(statements), 20_000),
    ]
    for name, number, greatest in numbers:
        if number > greatest:
            raise OverLimit(name)


# ---- ownership


@dataclass(frozen=True)
class State:
    """What a name holds: it owns, or refers into a graph; it may be null, or not. A name that is spent has no type."""

    type: str | None = None
    graph: str | None = None
    may_be_null: bool = False

    def owns(self) -> bool:
        return self.type is not None and self.graph is None

    def is_soft(self) -> bool:
        return self.graph is not None


SPENT = State()
Names = dict[str, State]


class Checker:
    """Checks a script; a name that isn't among the names is unbound."""

    def __init__(self, scenario: Scenario, script: Script):
        self.scenario, self.script = scenario, script
        # the map whose lock is held, and the block that took it
        self.lock: tuple[Graph, Block] | None = None

    def broken(self, line: int, rule: int) -> Rejected:
        return Rejected(self.script.name, line, rule)

    def check(self) -> None:
        names = self.block(self.script.body, {})
        if any(state.owns() for state in names.values()):
            raise self.broken(self.script.body.end_line, 4)

    def block(self, block: Block, names: Names) -> Names:
        for statement in block.statements:
            names = self.statement(statement, block, names)
        if self.lock and self.lock[1] is block:
            raise self.broken(block.end_line, 10)
        return names

    def statement(self, statement: Statement, block: Block, names: Names) -> Names:
        self.check_locks(statement, block)
        if statement.word == "section":
            return self.block(statement.blocks[0], names)
        if statement.word == "repeat":
            return self.repeat(statement, names)
        if statement.word == "if":
            return self.choice(statement, names)
        return self.simple(statement, block, names)

    def check_locks(self, statement: Statement, block: Block) -> None:
        word, held = statement.word, self.lock
        is_graph_call = word in ("push_front", "push_back", "pop_front", "pop_back", "add", "first", "remove")
        rules = [
            (11, word in ("lock", "yield") and self.script.kind == "handler"),
            (8, word == "lock" and held is not None),
            (7, is_graph_call and (held is None or held[0] is not statement.map)),
            (7, word == "unlock" and held is None),
            (9, word in ("new", "drop", "xchg", "yield") and held is not None),
            (10, word == "unlock" and held is not None and held[1] is not block),
        ]
        for rule, is_broken in rules:
            if is_broken:
                raise self.broken(statement.line, rule)

    def repeat(self, statement: Statement, names: Names) -> Names:
        body = statement.blocks[0]
        after = self.block(body, names)
        for name in after.keys() | names.keys():
            was, now = names.get(name), after.get(name)
            if was != now and not (was in (None, SPENT) and now in (None, SPENT)):
                raise self.broken(body.end_line, 6)
        return names | {name: SPENT for name, state in after.items() if state == SPENT}

    def choice(self, statement: Statement, names: Names) -> Names:
        name = statement.names[0]
        state = self.used(statement, names, name, lambda it: it.may_be_null)
        first = self.block(statement.blocks[0], names | {name: State(state.type, state.graph)})
        other = names | {name: SPENT}
        if len(statement.blocks) == 2:
            other = self.block(statement.blocks[1], other)
        joined: Names = {}
        for each in first.keys() | other.keys():
            one, two = first.get(each), other.get(each)
            if one == two:
                joined[each] = one
            elif any(it is not None and it.owns() for it in (one, two)):
                raise self.broken(statement.blocks[-1].end_line, 5)
            else:
                joined[each] = SPENT
        return joined

    def used(self, statement: Statement, names: Names, name: str, fits) -> State:
        """The state of a used name, whose type or kind fits."""
        state = names.get(name)
        if state is None:
            raise self.broken(statement.line, 1)
        if state == SPENT:
            raise self.broken(statement.line, 3)
        if not fits(state):
            raise self.broken(statement.line, 12)
        return state

    def present(self, statement: Statement, names: Names, name: str, fits) -> State:
        """The same, where it mustn't be null."""
        state = self.used(statement, names, name, fits)
        if state.may_be_null:
            raise self.broken(statement.line, 2)
        return state

    def bound(self, statement: Statement, names: Names, name: str, state: State) -> Names:
        if names.get(name) not in (None, SPENT):
            raise self.broken(statement.line, 1)
        return names | {name: state}

    def simple(self, statement: Statement, block: Block, names: Names) -> Names:
        word, used, types = statement.word, statement.names, self.scenario.types
        of = statement.map.type.name if statement.map else None
        without_soft = {name: SPENT if state.is_soft() else state for name, state in names.items()}
        if word == "new":
            return self.bound(statement, names, used[0], State(statement.type.name, may_be_null=True))
        if word == "drop":
            self.present(statement, names, used[0], State.owns)
            return names | {used[0]: SPENT}
        if word == "acquire":
            state = self.present(statement, names, used[1], lambda it: it.owns() and types[it.type].counted)
            return self.bound(statement, names, used[0], State(state.type))
        if word == "get":
            self.present(statement, names, used[0], lambda it: used[1] in types[it.type].fields)
            return names
        if word == "xchg":
            if len(used) == 2:
                self.present(statement, names, used[1], lambda it: it.owns() and it.type == of)
                names = names | {used[1]: SPENT}
            return self.bound(statement, names, used[0], State(of, may_be_null=True))
        if word in ("push_front", "push_back", "add"):
            self.present(statement, names, used[0], lambda it: it.owns() and it.type == of)
            return names | {used[0]: SPENT if types[of].counted else State(of, statement.map.name)}
        if word in ("pop_front", "pop_back"):
            return self.bound(statement, without_soft, used[0], State(of, may_be_null=True))
        if word == "first":
            return self.bound(statement, names, used[0], State(of, statement.map.name, may_be_null=True))
        if word == "remove":
            self.used(statement, names, used[1], lambda it: it.graph == statement.map.name)
            return self.bound(statement, without_soft, used[0], State(of, may_be_null=True))
        if word == "lock":
            self.lock = (statement.map, block)
            return names
        if word == "unlock":
            self.lock = None
            return without_soft
        return names


def answer(text: bytes) -> tuple[int, str]:
    """The status of `check`, and the line on standard error but for its front."""
    if len(text) > MOST_BYTES:
        return 7, "limit input"
    try:
        scenario = Reader(text).read()
        within_limits(scenario)
        for script in scenario.scripts.values():
            Checker(scenario, script).check()
    except BadText as bad:
        return 5, str(bad)
    except OverLimit as limit:
        return 7, f"limit {limit}"
    except Rejected as rejected:
        return 6, str(rejected)
    return 0, ""
