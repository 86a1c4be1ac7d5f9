"""Scenarios, as the second checker reads them and the second simulator runs them, and their text (docs/scenarios.md)."""

from dataclasses import dataclass, field


@dataclass
class ObjectType:
    name: str
    counted: bool = False
    node: str | None = None
    fields: list[str] = field(default_factory=list)
    pad: int = 0

    def size(self) -> int:
        """In bytes."""
        return 8 * len(self.fields) + {"list": 24, "tree": 32, None: 0}[self.node] + 8 * self.counted + self.pad


@dataclass
class Graph:
    """A slot, a list or a tree."""

    kind: str
    name: str
    type: ObjectType


@dataclass
class Statement:
    """Its names stand in the order of the text. An `if` has one block or two, a `repeat` and a `section` have one."""

    word: str
    names: list[str] = field(default_factory=list)
    line: int = 0
    type: ObjectType | None = None
    values: list[int] = field(default_factory=list)
    map: Graph | None = None
    times: int = 0
    blocks: list["Block"] = field(default_factory=list)


@dataclass
class Block:
    statements: list[Statement] = field(default_factory=list)
    end_line: int = 0


@dataclass
class Script:
    name: str
    kind: str
    body: Block


@dataclass
class RunLine:
    processor: int
    script: Script


@dataclass
class AtLine:
    processor: int
    step: int
    level: int
    script: Script


@dataclass
class Scenario:
    processors: int = 1
    pages: int = 0
    deferred: bool = False
    types: dict[str, ObjectType] = field(default_factory=dict)
    maps: dict[str, Graph] = field(default_factory=dict)
    scripts: dict[str, Script] = field(default_factory=dict)
    runs: list[RunLine] = field(default_factory=list)
    ats: list[AtLine] = field(default_factory=list)
    turns: list[int] | None = None


# ---- texts


def text_of(scenario: Scenario) -> str:
    lines = [
        "scenario {",
        f"processors {scenario.processors} pages {scenario.pages} deferred {'on' if scenario.deferred else 'off'}",
        *(type_text(each) for each in scenario.types.values()),
        *(f"{each.kind} {each.name} {each.type.name}" for each in scenario.maps.values()),
        *(f"script {each.name} {each.kind} {block_text(each.body)}" for each in scenario.scripts.values()),
        *(f"run {run.processor} {run.script.name}" for run in scenario.runs),
        *(f"at {at.processor} {at.step} {at.level} {at.script.name}" for at in scenario.ats),
    ]
    if scenario.turns is not None:
        lines.append(" ".join(["turns {", *map(str, scenario.turns), "}"]))
    return "\n".join([*lines, "}"]) + "\n"


def type_text(made: ObjectType) -> str:
    before = ["counted"] * made.counted + [made.node] * (made.node is not None)
    pad = ["pad", str(made.pad)] if made.pad else []
    return " ".join(["type", made.name, *before, "{", *made.fields, *pad, "}"])


def block_text(block: Block) -> str:
    return "\n".join(["{", *map(statement_text, block.statements), "}"])


def statement_text(statement: Statement) -> str:
    blocks = " else ".join(map(block_text, statement.blocks))
    return " ".join([statement.word, *words_of(statement), *([blocks] if blocks else [])])


def words_of(statement: Statement) -> list[str]:
    """What stands between a statement's own word and its blocks."""
    names = statement.names
    match statement.word:
        case "new":
            return [names[0], statement.type.name, *map(str, statement.values)]
        case "xchg":
            return [names[0], statement.map.name, names[1] if len(names) == 2 else "null"]
        case "push_front" | "push_back" | "add":
            return [statement.map.name, *names]
        case "pop_front" | "pop_back" | "first" | "remove":
            return [names[0], statement.map.name, *names[1:]]
        case "lock":
            return [statement.map.name]
        case "repeat":
            return [str(statement.times)]
        case "unlock" | "yield" | "section":
            return []
    return names
