"""Reads path edges, as the verifier prints them with --trace below an unproved place: the derivation of one that has the error state."""

import re
from collections.abc import Iterator
from dataclasses import dataclass

# Where an access path begins: a slot or a static field with its number, the value that is returned, or the exception that is thrown.
SLOT, STATIC, RETURNED, THROWN = "v", "s", "ret", "exc"
# Kinds of facts: no object of the place is there yet; some are, and another one is spoken of; or it is about one object.
NONE, SOME, TUPLE = "none", "some", "t"
PATH = re.compile(r"(v|s)(0|[1-9][0-9]*)((?:\.[0-9]+)*)|(ret|exc)((?:\.[0-9]+)*)")


@dataclass(frozen=True)
class Path:
    """An access path: its root, the number of a slot or of a static field, and the numbers of the fields that are followed."""
    root: str
    number: int = 0
    fields: tuple[int, ...] = ()


@dataclass(frozen=True)
class Fact:
    """A fact of a place. Of one object: whether it is the only one, its state, whether cells beside its paths may hold it, and the paths that
    refer to it and that do not."""
    kind: str
    unique: bool = False
    state: int = 0
    may: bool = False
    must: frozenset[Path] = frozenset()
    must_not: frozenset[Path] = frozenset()


@dataclass(frozen=True)
class Site:
    """A place that makes objects: n for `new` and r for a result of the library; its method by number, the offset and the class."""
    kind: str
    method: int
    offset: int
    made: str


@dataclass(frozen=True)
class Edge:
    """A path edge: in a method, or at the start of the program where there is none, that is entered with a fact, another one holds at a spot:
    before the instruction at an offset, or where the method returns or throws."""
    stage: int
    site: Site
    method: int | None
    entry: Fact
    spot: int | str
    fact: Fact


def path_of(text: str) -> Path:
    """An access path."""
    found = PATH.fullmatch(text)
    if found is None:
        raise ValueError(f"{text} is no access path")
    root, number, behind, other, behind_other = found.groups()
    fields = tuple(int(each) for each in (behind or behind_other or "").split(".")[1:])
    return Path(root or other, int(number or 0), fields)


def paths_of(text: str) -> frozenset[Path]:
    """A set of access paths."""
    return frozenset() if text == "-" else frozenset(map(path_of, text.split(",")))


def flag_of(word: str) -> bool:
    """What stands for yes or no."""
    return {"0": False, "1": True}[word]


def fact_of(words: Iterator[str]) -> Fact:
    """The fact that stands next."""
    kind = next(words)
    if kind in (NONE, SOME):
        return Fact(kind)
    if kind != TUPLE:
        raise ValueError(f"{kind} is no fact")
    return Fact(kind, flag_of(next(words)), int(next(words)), flag_of(next(words)), paths_of(next(words)), paths_of(next(words)))


def edge_of(words: list[str], made: str) -> Edge:
    """The path edge of a line; `made` is the class of the place as it is, not as it is printed."""
    left = iter(words)
    try:
        if next(left) != "edge":
            raise ValueError("it is no edge")
        stage, site = int(next(left)), Site(next(left), int(next(left)), int(next(left)), made)
        next(left)
        method, entry = next(left), fact_of(left)
        spot, fact = next(left), fact_of(left)
    except (StopIteration, KeyError) as fault:
        raise ValueError("words are missing, or not of an edge") from fault
    if list(left):
        raise ValueError("there are words behind the edge")
    return Edge(stage, site, None if method == "boot" else int(method), entry, spot if spot in (RETURNED, THROWN) else int(spot), fact)
