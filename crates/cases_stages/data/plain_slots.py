"""The variables of the slots of a method as nodes, for tests alone. A slot keeps its variable from node to node, and a
move hands its source's variable on, until two ways meet or the slot is written otherwise."""

import sys
from functools import cache
from typing import NamedTuple, Optional, Union

from node_text import (Call, Cast, Constant, Load, LoadElement, LoadStatic, Moves, New, NewArray, Node, NodeMethod,
                       Operation, Probe, Return, Site, Store, StoreElement, StoreStatic, Throw)

KEEPS, WRITES = "keeps", "writes"

# A variable may come from the first node of a method, one node after the other.
sys.setrecursionlimit(5000)

# A place that may hold references: the words that are printed of it.
Place = tuple


def written_slots(operation: Operation) -> list[Optional[int]]:
    """The slots that an operation writes which is none of moves: its target, and its operands, which become those of
    primitives."""
    match operation:
        case Load(_, object_slot, target):
            return [object_slot, target]
        case Store(_, object_slot, value):
            return [object_slot, value]
        case LoadElement(array, target):
            return [array, target]
        case StoreElement(array, value):
            return [array, value]
        case LoadStatic(_, target) | New(_, target) | NewArray(_, target) | Constant(_, target):
            return [target]
        case Call():
            return [operation.result] + operation.arguments
        case StoreStatic(_, slot) | Return(slot) | Throw(slot) | Cast(_, slot) | Probe(slot):
            return [slot]
    raise ValueError(operation)


def effect_on(slot: int, operation: Operation) -> Union[int, str]:
    """What an operation does to a slot: the slot that it moves into it, or that it keeps it, or writes it otherwise."""
    if not isinstance(operation, Moves):
        return WRITES if slot in written_slots(operation) else KEEPS
    if slot not in operation.sources:
        return KEEPS
    source = operation.sources[slot]
    return WRITES if source is None else source


class SlotNames:
    """A method with the variables of its slots."""

    def __init__(self, method: NodeMethod):
        self.name = method.name
        self.locals = method.slots
        self.slots = range(method.slots + method.stack)
        self.nodes = method.nodes
        self.by_offset = {node.offset: node for node in method.nodes}
        self.before = {node.offset: [other for other in method.nodes if node.offset in other.successors]
                       for node in method.nodes}
        self.handler_targets = {handler.target for node in method.nodes for handler in node.handlers}
        # What was asked once is kept, as long as the method is.
        self.variable = cache(self.find_variable)

    def is_first(self, offset: int) -> bool:
        return offset == self.nodes[0].offset

    def is_merge(self, offset: int) -> bool:
        """A handler begins there, or several nodes lead there, or it is the first node and some node leads there."""
        leading = len(self.before[offset])
        return offset in self.handler_targets or leading > 1 or (self.is_first(offset) and leading > 0)

    def find_variable(self, offset: int, slot: int) -> Place:
        """The variable of a slot at the node of an offset."""
        own = ("at", self.name, offset, slot)
        if self.is_merge(offset):
            return own
        if self.is_first(offset):
            return ("param", self.name, slot)
        [before] = self.before[offset]
        effect = effect_on(slot, before.operation)
        if effect == WRITES:
            return own
        return self.variable(before.offset, slot if effect == KEEPS else effect)


class NodeAt(NamedTuple):
    """A node of a method."""
    method: SlotNames
    node: Node

    def __str__(self) -> str:
        """The node as a call is printed."""
        return f"{self.method.name} {self.node.offset}"

    def site(self, kind: str, class_name: str) -> Site:
        """What is allocated at the node."""
        return Site(kind, self.method.name, self.node.offset, class_name)

    def variable(self, slot: int) -> Place:
        """The variable of a slot at the node."""
        return self.method.variable(self.node.offset, slot)

    def after(self, slot: int) -> list[Place]:
        """Those of a slot at the nodes to which this one leads."""
        return [self.method.variable(offset, slot) for offset in self.node.successors]
