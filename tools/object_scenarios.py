"""Random scenarios, as the checker accepts them: of the whole language, with slots, lists and trees, or with slots alone."""

import random

from language import AtLine, Block, Graph, ObjectType, RunLine, Scenario, Script, Statement
from random_scenarios import DEEPEST, Maker

KINDS = {"list": ("push_front", "push_back"), "tree": ("add",)}


class ObjectMaker(Maker):
    """As its parent, but an object may also be put into a slot, a list or a tree, and be taken from there."""

    def __init__(self, seed: int, has_several: bool = False):
        super().__init__(seed, has_several)
        more = random.Random(f"objects {seed}")
        self.maps = [self.map(more, number) for number in range(more.randint(1, 6))]

    def object_type(self, number: int) -> ObjectType:
        made = super().object_type(number)
        more = random.Random(f"node {number} {self.draw.random()}")
        kinds = [None, "list", "list"] + ["tree"] * bool(made.fields)
        node = more.choice(kinds)
        # the node takes the place of pad, as far as it goes
        made.pad = max(made.pad - {"list": 24, "tree": 32, None: 0}[node], 0)
        made.node = node if made.size() <= 4088 and 8 * len(made.fields) + made.pad + 40 <= 4088 else None
        if made.size() == 0 or made.size() > 4088:
            made.node, made.pad = None, 8
        return made

    def map(self, more: random.Random, number: int) -> Graph:
        made = more.choice(self.types)
        kind = more.choice(["slot"] + [made.node] * 2) or "slot"
        return Graph(kind, f"m_{kind}{number}", made)

    def maps_of(self, made: ObjectType, *kinds: str) -> list[Graph]:
        return [each for each in self.maps if each.type is made and each.kind in kinds]

    # ---- an object that a name owns

    def end_of_owned(self, name: str) -> list[Statement]:
        made = self.made[name]
        slots, graphs = self.maps_of(made, "slot"), self.maps_of(made, "list", "tree") if self.may_yield else []
        choice = self.draw.random()
        if slots and choice < 0.4:
            return self.exchange(self.draw.choice(slots), [name])
        if graphs and choice < 0.7:
            graph = self.draw.choice(graphs)
            push = Statement(self.draw.choice(KINDS[graph.kind]), [name], map=graph)
            return self.locked(graph, [push, *self.soft_reads(name, made)])
        return [Statement("drop", [name])]

    def soft_reads(self, name: str, made: ObjectType) -> list[Statement]:
        """Of a node that isn't counted, which the name still refers to."""
        if made.counted or not made.fields or self.draw.random() < 0.7:
            return []
        return [Statement("get", [name, self.draw.choice(made.fields)])]

    def locked(self, graph: Graph, statements: list[Statement]) -> list[Statement]:
        return [Statement("lock", map=graph), *statements, Statement("unlock")]

    def exchange(self, slot: Graph, put: list[str]) -> list[Statement]:
        old = self.fresh()
        self.made[old] = slot.type
        return [Statement("xchg", [old, *put], map=slot), self.if_there(old)]

    def if_there(self, name: str) -> Statement:
        return Statement("if", [name], blocks=[Block([Statement("drop", [name])])])

    # ---- what stands beside

    def pauses(self, depth: int, length: int) -> list[Statement]:
        return [*super().pauses(depth, length), *(self.taking() if depth < DEEPEST and self.draw.random() < 0.35 else [])]

    def taking(self) -> list[Statement]:
        """An object is taken out of a slot, a list or a tree, if one is there."""
        there = [each for each in self.maps if each.kind == "slot" or self.may_yield]
        if not there:
            return []
        found = self.draw.choice(there)
        if found.kind == "slot":
            return self.exchange(found, [])
        taken, first = self.fresh(), self.fresh()
        if found.kind == "list":
            inner = [Statement(self.draw.choice(["pop_front", "pop_back"]), [taken], map=found)]
        else:
            inner = [Statement("first", [first], map=found), Statement("remove", [taken, first], map=found)]
        return [*self.locked(found, inner), self.if_there(taken)]

    def scenario(self) -> Scenario:
        made = super().scenario()
        made.maps = {each.name: each for each in self.maps}
        return made


class SlotMaker(ObjectMaker):
    """As its parent, but with slots alone: without lists, trees and locks. What is taken out of a slot may be read, referred to again, or put into a slot."""

    # how deep exchanges stand inside one another, of which each opens a block, and how deep they may
    inner, innermost = 0, 4

    def object_type(self, number: int) -> ObjectType:
        return Maker.object_type(self, number)

    def script(self, name: str, kind: str, lengths: list[int]) -> Script:
        # shorter ones than of its parent, since what is taken may be put again
        made = super().script(name, kind, [max(length // 3, 1) for length in lengths])
        # handlers that free what others made: so frees stand within frees
        taken = [statement for _ in range(self.draw.randint(0, 2)) for statement in self.exchange(self.draw.choice(self.maps), [])]
        if kind == "handler":
            made.body.statements[:0] = taken
        else:
            made.body.statements[:0] = self.filling()
        return made

    def filling(self) -> list[Statement]:
        """Objects are put into slots, which handlers then find."""
        made = []
        for slot in self.maps if self.draw.random() < 0.4 else []:
            name, self.names = f"p{self.names}", self.names + 1
            self.made[name] = slot.type
            new = Statement("new", [name], type=slot.type, values=[self.draw.randint(0, 99) for _ in slot.type.fields])
            made += [new, Statement("if", [name], blocks=[Block(self.exchange(slot, [name]))])]
        return made

    def planned(self, handlers: list[Script]) -> list[AtLine]:
        made = super().planned(handlers)
        # some come a few steps after one that they may interrupt, so that frees stand within frees
        for each in list(made):
            if each.level < 3 and self.draw.random() < 0.5:
                made.append(AtLine(each.processor, each.step + self.draw.randint(1, 4), each.level + 1, self.draw.choice(handlers)))
        return made

    def run_lines(self, ordinary: list[Script]) -> list[RunLine]:
        # at least one, which scripts with slots need to meet another
        return super().run_lines(ordinary) + [RunLine(self.processor(), self.draw.choice(ordinary))]

    def exchange(self, slot: Graph, put: list[str]) -> list[Statement]:
        # sometimes what was there gets the name of what is put
        old = put[0] if put and self.draw.random() < 0.2 else self.fresh()
        self.made[old] = slot.type
        return [Statement("xchg", [old, *put], map=slot), self.if_there(old)]

    def if_there(self, name: str) -> Statement:
        if self.inner == self.innermost or self.draw.random() < 0.5:
            return super().if_there(name)
        self.inner += 1
        # DEEPEST, so that no other block stands in it
        made = Statement("if", [name], blocks=[Block(self.use_of(name, DEEPEST, 1))])
        self.inner -= 1
        return made
