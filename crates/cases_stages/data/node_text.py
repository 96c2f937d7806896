"""Reads the nodes of methods from the text that `cases_links nodes` prints: for each case its name, then either one line
`refused ..`, or of each method its name and its refusal or its nodes. The head of crates/cases_links/src/nodes.rt
describes the lines. For tests alone."""

import re
from dataclasses import dataclass, field
from typing import Iterator, NamedTuple, Optional, Union

HANDLER = re.compile(r"(\d+)/(\S+)")


class Site(NamedTuple):
    """An allocation site."""
    kind: str
    method: str
    offset: int
    class_name: str

    def __str__(self) -> str:
        return f"[{self.kind} {self.method} {self.offset} {self.class_name}]"


# ---- operations


@dataclass
class Moves:
    """Sources by their targets: a slot, or None for null and primitives. The first move into a slot counts."""
    sources: dict[int, Optional[int]]


@dataclass
class Load:
    field: str
    object: int
    target: int


@dataclass
class Store:
    field: str
    object: int
    value: int


@dataclass
class LoadElement:
    array: int
    target: int


@dataclass
class StoreElement:
    array: int
    value: int


@dataclass
class LoadStatic:
    field: str
    target: int


@dataclass
class StoreStatic:
    field: str
    value: int


@dataclass
class New:
    site: Site
    target: int


@dataclass
class NewArray:
    sites: list[Site]
    target: int


@dataclass
class Constant:
    site: Site
    target: int


@dataclass
class Call:
    """A call: its resolved method, the target if no object is needed for it, the name and the descriptor in the
    instruction, and the slots of its units; None for a primitive."""
    kind: str
    resolved: str
    chosen: Optional[str]
    named: str
    arguments: list[Optional[int]]
    result: Optional[int]

    def slot(self, unit: int) -> Optional[int]:
        return self.arguments[unit] if unit < len(self.arguments) else None


@dataclass
class Return:
    value: Optional[int]


@dataclass
class Throw:
    value: int


@dataclass
class Cast:
    class_name: str
    slot: int


@dataclass
class Probe:
    slot: int


Operation = Union[Moves, Load, Store, LoadElement, StoreElement, LoadStatic, StoreStatic, New, NewArray, Constant, Call,
                  Return, Throw, Cast, Probe]


# ---- nodes and methods


class Handler(NamedTuple):
    """Where a handler begins, and the class that it takes; None for all."""
    target: int
    class_name: Optional[str]


@dataclass
class Node:
    offset: int
    operation: Operation
    successors: list[int] = field(default_factory=list)
    handlers: list[Handler] = field(default_factory=list)
    trigger: Optional[str] = None
    throws: list[str] = field(default_factory=list)


class Refusal(NamedTuple):
    file: str
    offset: int
    reason: str

    def __str__(self) -> str:
        return f"refused {self.file} {self.offset} {self.reason}"


@dataclass
class NodeMethod:
    """A method as its nodes, or its refusal."""
    name: str
    slots: int = 0
    stack: int = 0
    nodes: list[Node] = field(default_factory=list)
    refusal: Optional[Refusal] = None


# Of a case either the line of its refusal, or its methods by their texts.
CaseText = Union[str, dict[str, NodeMethod]]


# ---- reading


class Words:
    """The words of a line, from the first to the last."""

    def __init__(self, line: str):
        self.words = line.split(" ")
        self.at = 0

    def peek(self) -> Optional[str]:
        return self.words[self.at] if self.at < len(self.words) else None

    def next(self) -> str:
        self.at += 1
        return self.words[self.at - 1]

    def takes(self, word: str) -> bool:
        """Whether this word is next; it is then passed over."""
        if self.peek() != word:
            return False
        self.at += 1
        return True

    def numbers(self) -> Iterator[int]:
        while (self.peek() or "").isdecimal():
            yield int(self.next())

    def named(self, word: str) -> int:
        """The number behind a word that has to stand here."""
        if not self.takes(word):
            raise ValueError(f"no {word} in {' '.join(self.words)}")
        return int(self.next())

    def site(self) -> Site:
        return Site(self.next()[1:], self.next(), int(self.next()), self.next()[:-1])


def read_moves(words: Words) -> Moves:
    sources: dict[int, Optional[int]] = {}
    while "<" in (words.peek() or ""):
        target, source = words.next().split("<")
        sources.setdefault(int(target), int(source) if source.isdecimal() else None)
    return Moves(sources)


def read_call(words: Words) -> Call:
    kind, resolved = words.next(), words.next()
    chosen = words.next() if words.takes("chosen") else None
    words.takes("named")
    named = words.next()
    arguments: list[Optional[int]] = []
    if words.takes("args"):
        while words.peek() == "." or (words.peek() or "").isdecimal():
            word = words.next()
            arguments.append(None if word == "." else int(word))
    result = words.named("result") if words.peek() == "result" else None
    return Call(kind, resolved, chosen, named, arguments, result)


def read_load(words: Words) -> Operation:
    if words.takes("element"):
        return LoadElement(words.named("array"), words.named("target"))
    if words.takes("static"):
        return LoadStatic(words.next(), words.named("target"))
    return Load(words.next(), words.named("object"), words.named("target"))


def read_store(words: Words) -> Operation:
    if words.takes("element"):
        return StoreElement(words.named("array"), words.named("value"))
    if words.takes("static"):
        return StoreStatic(words.next(), words.named("value"))
    return Store(words.next(), words.named("object"), words.named("value"))


def read_new(words: Words) -> Operation:
    if not words.takes("array"):
        return New(words.site(), words.named("target"))
    sites = []
    while (words.peek() or "").startswith("["):
        sites.append(words.site())
    return NewArray(sites, words.named("target"))


READERS = {
    "moves": read_moves,
    "load": read_load,
    "store": read_store,
    "new": read_new,
    "constant": lambda words: Constant(words.site(), words.named("target")),
    "call": read_call,
    "return": lambda words: Return(next(words.numbers(), None)),
    "throw": lambda words: Throw(int(words.next())),
    "cast": lambda words: Cast(words.next(), words.named("slot")),
    "probe": lambda words: Probe(int(words.next())),
}


def read_node(line: str) -> Node:
    words = Words(line)
    offset = int(words.next()[:-1])
    node = Node(offset, READERS[words.next()](words))
    if words.takes(">"):
        node.successors = list(words.numbers())
    if words.takes("!"):
        while found := HANDLER.fullmatch(words.peek() or ""):
            words.next()
            node.handlers.append(Handler(int(found[1]), None if found[2] == "*" else found[2]))
    if words.takes("init"):
        node.trigger = words.next()
    if words.takes("throws"):
        while words.peek() is not None:
            node.throws.append(words.next())
    if words.peek() is not None:
        raise ValueError(f"no node: {line}")
    return node


def read_methods(lines: list[str]) -> dict[str, NodeMethod]:
    """The methods of a case. A name stands alone in its line, and no node's line has one word."""
    methods: dict[str, NodeMethod] = {}
    current = NodeMethod("")
    for line in lines:
        words = line.split(" ")
        if len(words) == 1:
            current = methods[line] = NodeMethod(line)
        elif words[0] == "refused":
            current.refusal = Refusal(words[1], int(words[2]), words[3])
        elif words[0] == "slots":
            current.slots, current.stack = int(words[1]), int(words[3])
        else:
            current.nodes.append(read_node(line))
    return methods


def blocks_of(text: str) -> Iterator[tuple[str, list[str]]]:
    """The cases of a text, each with its lines: its name stands first, and an empty line behind it."""
    for block in text.split("\n\n"):
        name, *lines = block.strip("\n").split("\n")
        if name:
            yield name, lines


def read_cases(text: str) -> Iterator[tuple[str, CaseText]]:
    """The cases of a text, each with what it says of it."""
    for name, lines in blocks_of(text):
        is_refused = bool(lines) and lines[0].startswith("refused ")
        yield name, lines[0] if is_refused else read_methods(lines)
