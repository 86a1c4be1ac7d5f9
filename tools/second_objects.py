"""Objects of the second simulator: references and their counts, slots, lists and trees with their histories."""

from collections import Counter
from dataclasses import dataclass, field

from language import Graph, ObjectType


@dataclass(frozen=True)
class Reference:
    """A reference to an object: which life of which unit, and of what type."""

    type: ObjectType
    unit: int
    life: int

    def words(self) -> tuple[int, int]:
        return self.unit, self.life


def named(reference: Reference | None) -> tuple[object, ...]:
    """As a line names it."""
    return ("none",) if reference is None else reference.words()


@dataclass
class Slot:
    """What it holds, and which call put it there: a processor and the call's serial, or none at the start."""

    held: Reference | None = None
    by: tuple[int, int] | None = None


@dataclass
class Sequence:
    """A list or a tree: its items in order, and the calls on it so far."""

    map: Graph
    items: list[tuple[int, Reference]] = field(default_factory=list)
    history: list[str] = field(default_factory=list)

    def record(self, tag: tuple[int, int], *call: object) -> int:
        """One more call, and its position."""
        position = len(self.history)
        self.history.append(" ".join(map(str, ("at", position, "by", *tag, *call))))
        return position

    def put(self, word: str, key: int, reference: Reference) -> None:
        """A tree has it after the last one whose key isn't greater."""
        places = {"push_front": 0, "push_back": len(self.items), "add": sum(other <= key for other, _ in self.items)}
        self.items.insert(places[word], (key, reference))

    def end(self, word: str) -> Reference | None:
        """The first item, or for `pop_back` the last one; none where it is empty."""
        return self.items[-1 if word == "pop_back" else 0][1] if self.items else None

    def take(self, reference: Reference) -> None:
        self.items = [item for item in self.items if item[1] != reference]


class Objects:
    """What programs own, of all processors together."""

    def __init__(self, maps: dict[str, Graph]):
        # by unit how many references there are to the life that it has, and the values that the life was made with
        self.counts: Counter[int] = Counter()
        self.values: dict[int, list[int]] = {}
        # by unit the list or tree that its life is in
        self.owners: dict[int, str] = {}
        self.slots = {each.name: Slot() for each in maps.values() if each.kind == "slot"}
        self.graphs = {each.name: Sequence(each) for each in maps.values() if each.kind != "slot"}

    def begin(self, unit: int, values: list[int]) -> None:
        self.counts[unit] = 1
        self.values[unit] = values

    def move_count(self, reference: Reference, change: int) -> int:
        """The count that was seen."""
        seen = self.counts[reference.unit]
        self.counts[reference.unit] += change
        return seen

    def exchange(self, name: str, put: Reference | None, tag: tuple[int, int]) -> Slot:
        """What the slot was before."""
        was, self.slots[name] = self.slots[name], Slot(put, tag)
        return was
