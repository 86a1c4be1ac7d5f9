"""What programs own, as the judge of journals follows it: the fields of objects, slots, and lists and trees with their histories.

It is written from the rules of docs/objects.md, and shares no code with the second simulator.
"""

from collections import Counter

PUSHES = ("push_front", "push_back", "add")
CALLS = {"new", "drop", "acquire", "get", "xchg", *PUSHES, "pop_front", "pop_back", "first", "remove"}


class Misfit(Exception):
    """An entry that doesn't find what it needs."""


def needs(fact: bool, what: str) -> None:
    if not fact:
        raise Misfit(what)


def split_object(words: list[str]) -> tuple[tuple[int, int] | None, list[str]]:
    """A unit with its life, or none, and the words after it."""
    if words[0] == "none":
        return None, words[1:]
    return (int(words[0]), int(words[1])), words[2:]


def histories_of(journal: str) -> dict[str, list[str]]:
    """By name of a list or tree the lines of its history."""
    histories: dict[str, list[str]] = {}
    name = None
    for line in journal.splitlines():
        if line.startswith("graph "):
            name = line.split(" ")[1]
            histories[name] = []
        elif line.startswith("total "):
            name = None
        elif name is not None:
            histories[name].append(line)
    return histories


class Owned:
    """Of all processors together."""

    def __init__(self):
        # by processor how many calls its log has, and by level the values of its last call for an object
        self.calls: Counter[int] = Counter()
        self.asked: dict[tuple[int, int], list[int]] = {}
        # by unit the values that its last life was made with, and the list or tree that it is in
        self.values: dict[int, list[int]] = {}
        self.owners: dict[int, str] = {}
        self.slots: dict[str, tuple[tuple[int, int] | None, list[str]]] = {}
        # by name of a list or tree its items with their keys, and its history
        self.items: dict[str, list[tuple[int, tuple[int, int]]]] = {}
        self.histories: dict[str, list[str]] = {}

    def on_new(self, p: int, level: int, words: list[str]) -> None:
        self.asked[p, level] = [int(word) for word in words[1:]]

    def on_given(self, p: int, level: int, words: list[str]) -> None:
        needs((p, level) in self.asked, "an object was asked for")
        self.values[int(words[0])] = self.asked.pop((p, level))

    def on_get(self, p: int, level: int, words: list[str]) -> None:
        values, place = self.values[int(words[0])], int(words[2])
        needs(place < len(values) and values[place] == int(words[3]), "the value that the object was made with")

    def on_xchg(self, p: int, level: int, words: list[str]) -> None:
        put, rest = split_object(words[2:])
        was, rest = split_object(rest[1:])
        held, by = self.slots.get(words[0], (None, ["start"]))
        needs(was == held, "what the slot holds")
        needs(rest[1:] == by, "the exchange that put it there")
        self.slots[words[0]] = put, [str(p), str(self.calls[p])]

    # ---- lists and trees

    def record(self, p: int, name: str, position: str, *call: object) -> None:
        history = self.histories.setdefault(name, [])
        needs(int(position) == len(history), "the next position of the history")
        history.append(" ".join(map(str, ("at", position, "by", p, self.calls[p], *call))))

    def push(self, p: int, word: str, words: list[str]) -> None:
        name, unit, life = words[0], int(words[1]), int(words[2])
        keyed = [self.values[unit][0]] if word == "add" else []
        owner = self.owners.get(unit)
        if words[3] == "already":
            needs(owner == words[4], "the list or tree that the object is in")
            self.record(p, name, words[6], word, unit, life, *keyed, "already", owner)
            return
        needs(owner is None, "an object that is in no list or tree")
        self.owners[unit] = name
        items, key = self.items.setdefault(name, []), keyed[0] if keyed else 0
        place = {"push_front": 0, "push_back": len(items)}.get(word, len([1 for other, _ in items if other <= key]))
        items.insert(place, (key, (unit, life)))
        self.record(p, name, words[4], word, unit, life, *keyed)

    def on_push_front(self, p: int, level: int, words: list[str]) -> None:
        self.push(p, "push_front", words)

    def on_push_back(self, p: int, level: int, words: list[str]) -> None:
        self.push(p, "push_back", words)

    def on_add(self, p: int, level: int, words: list[str]) -> None:
        self.push(p, "add", words)

    def end(self, p: int, word: str, words: list[str], place: int, takes: bool) -> None:
        """The item at one end is named, or none where there is none."""
        items = self.items.setdefault(words[0], [])
        found, rest = split_object(words[1:])
        needs(found == (items[place][1] if items else None), "the item at that end")
        if found and takes:
            del items[place]
            del self.owners[found[0]]
        self.record(p, words[0], rest[1], word, *(found or ["none"]))

    def on_pop_front(self, p: int, level: int, words: list[str]) -> None:
        self.end(p, "pop_front", words, 0, True)

    def on_pop_back(self, p: int, level: int, words: list[str]) -> None:
        self.end(p, "pop_back", words, -1, True)

    def on_first(self, p: int, level: int, words: list[str]) -> None:
        self.end(p, "first", words, 0, False)

    def on_remove(self, p: int, level: int, words: list[str]) -> None:
        found, rest = split_object(words[1:])
        items = self.items.setdefault(words[0], [])
        needs(found in [item for _, item in items], "an item of the tree")
        self.items[words[0]] = [item for item in items if item[1] != found]
        del self.owners[found[0]]
        self.record(p, words[0], rest[1], "remove", *found)

    def at_end(self, histories: dict[str, list[str]]) -> None:
        needs(all(held is None for held, _ in self.slots.values()), "no slot holds anything")
        needs(not self.owners, "no list or tree has an item")
        for name, history in histories.items():
            needs(history == self.histories.get(name, []), f"the history of {name}")
        needs(set(self.histories) <= set(histories), "a history of each list and tree")
