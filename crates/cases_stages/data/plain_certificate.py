#!/usr/bin/env python3
"""A second writing of the certificate of a run, for tests alone: the property, the entry and the depth, what follows by
the rules of the points-to analysis, the sites that are safe, and the path edges that show it.

  plain_certificate.py FOLDER PROPERTY ENTRY [--stubs FILE] [--stages N] [--depth N] [--fact-limit N]

The words are those of plain_report.py, and so is the status. The lines of the certificate are printed. Each line is a
list of words, and lines that begin with the same one are compared word by word, from left to right."""

import sys
from pathlib import Path
from typing import Iterable, Iterator, NamedTuple

sys.dont_write_bytecode = True
from node_text import Site  # noqa: E402
from plain_edges import RETURNS, THROWS, Edge, Spot, path_edges  # noqa: E402
from plain_facts import NONE, SOME, STATIC, THROWN, Automaton, Fact, Known, Paths  # noqa: E402
from plain_facts import Path as AccessPath  # noqa: E402
from plain_program import Program  # noqa: E402
from plain_report import (REFUSED, SAFE, Asked, Refused, Verdicts, asked_by, parsed, printed,  # noqa: E402
                          read_subject, report_of)
from plain_rules import START, Facts  # noqa: E402
from plain_slots import Place  # noqa: E402

VERSION = "typestate-certificate 1"
NO_METHOD = "-"

# The letters and words that stand for kinds, each in the order of their kinds.
SITE_LETTERS = {"Boot": "b", "New": "n", "Result": "r", "Thrown": "t"}
PLACE_LETTERS = {"at": "v", "param": "p", "field": "f", "elements": "a", "static": "s", "kept": "k", "result": "r",
                 "thrown": "x"}
FACT_WORDS = {NONE: "none", SOME: "some", "known": "t"}


class Word(NamedTuple):
    """What a word is compared by with another one in its place, and its text."""
    key: tuple
    text: str


Line = tuple[Word, ...]


# ---- words


def number(value: int) -> Word:
    return Word((1, value), str(value))


# What stands in the place of a number: before all of them, or behind.
BOOT, RETURNED_SPOT, THROWN_SPOT = Word((0, 0), "boot"), Word((2, 0), "ret"), Word((3, 0), "exc")


def kind_word(words: dict[str, str], kind: str) -> Word:
    return Word((list(words).index(kind),), words[kind])


def name_word(name: str) -> Word:
    return Word((name.encode("utf-8", "surrogatepass"),), printed(name))


def spot_word(spot: Spot) -> Word:
    return {RETURNS: RETURNED_SPOT, THROWS: THROWN_SPOT}[spot] if isinstance(spot, str) else number(spot)


def path_text(path: AccessPath) -> str:
    kind, value = path.root
    root = f"v{value}" if path.root.is_slot else f"s{value}" if kind == STATIC else "exc" if kind == THROWN else "ret"
    return "".join([root] + [f".{field}" for field in path.fields])


def paths_word(paths: Paths) -> Word:
    """A set of paths, in their order."""
    ordered = sorted(paths)
    return Word(tuple(ordered), ",".join(map(path_text, ordered)) or "-")


def fact_words(fact: Fact) -> list[Word]:
    if isinstance(fact, str):
        return [kind_word(FACT_WORDS, fact)]
    numbers = [number(int(fact.only)), number(fact.state), number(int(fact.may))]
    return [kind_word(FACT_WORDS, "known")] + numbers + [paths_word(fact.must), paths_word(fact.must_not)]


class Words:
    """The words of what a program has: methods and fields are written by their numbers."""

    def __init__(self, program: Program):
        self.methods = {name: place for place, name in enumerate(program.methods)}
        self.fields = {name: place for place, name in enumerate(program.fields)}

    def method(self, name: str) -> Word:
        return BOOT if name in (START, NO_METHOD) else number(self.methods[name])

    def field(self, name: str) -> Word:
        return number(self.fields[name])

    def site(self, site: Site) -> list[Word]:
        return [kind_word(SITE_LETTERS, site.kind), self.method(site.method), number(site.offset),
                name_word(site.class_name)]

    def place(self, place: Place) -> list[Word]:
        return [kind_word(PLACE_LETTERS, place[0])] + self.behind_kind(place)

    def behind_kind(self, place: Place) -> list[Word]:
        kind, *parts = place
        if kind == "field":
            site, field = parts
            return self.site(site) + [self.field(field)]
        if kind == "elements":
            return self.site(parts[0])
        if kind == "static":
            return [self.field(parts[0])]
        return [self.method(part) if isinstance(part, str) else number(part) for part in parts]

    def edge(self, edge: Edge) -> list[Word]:
        return [self.method(edge.method), *fact_words(edge.entry), spot_word(edge.spot), *fact_words(edge.fact)]


def ascending(first: str, lines: Iterable[Line]) -> list[str]:
    """The lines, each once, with this word in front of each."""
    ordered = sorted(set(lines), key=lambda line: [word.key for word in line])
    return [" ".join([first] + [word.text for word in line]) for line in ordered]


# ---- lines


def split_event(named: str) -> tuple[str, str]:
    """The name and the descriptor of an event."""
    at = named.index("(")
    return named[:at], named[at:]


def event_line(named: str, following: list[int]) -> str:
    return " ".join(["event", *map(printed, split_event(named)), *map(str, following)])


def head(automaton: Automaton, entry: Word, depth: int) -> list[str]:
    """The lines up to that of the depth."""
    states = [f"state {printed(state)}" for state in automaton.states]
    events = [event_line(named, following) for named, following in automaton.events.items()]
    marked = [f"initial {automaton.initial}", f"error {automaton.error}"]
    return [VERSION, f"class {printed(automaton.class_name)}", *states, *marked, *events, f"entry {entry.text}",
            f"depth {depth}"]


def lines_of_sets(words: Words, facts: Facts) -> list[str]:
    """The methods that may run, what places may hold, and the fields that methods may write."""
    reached = [(words.method(name),) for name in facts.runs]
    held = [(*words.place(place), *words.site(site)) for place, sites in facts.holds.items() for site in sites]
    written = [(words.method(name), words.field(field)) for name, fields in facts.writes.items() for field in fields]
    return ascending("reached", reached) + ascending("pts", held) + ascending("mods", written)


def claims_of(verdicts: Verdicts, asked: Asked) -> Iterator[tuple[int, Site]]:
    """The sites that are safe, each with the first stage that proves it."""
    for site in verdicts.sites:
        says, _, stage = verdicts.of(site, asked).partition(" ")
        if says == SAFE:
            yield int(stage), site


def edges_of(verdicts: Verdicts, asked: Asked, words: Words, stage: int, site: Site) -> Iterator[Line]:
    """The path edges of a site at the stage that proves it. The first stage has none."""
    edges = path_edges(verdicts.solved, verdicts.automaton, site, stage, asked.limits) if stage > 1 else set()
    assert edges is not None
    yield from ((number(stage), *words.site(site), *words.edge(edge)) for edge in edges)


def lines_of_claims(verdicts: Verdicts, asked: Asked, words: Words) -> list[str]:
    """The sites that are safe, and their path edges."""
    claims = list(claims_of(verdicts, asked))
    edges = [line for stage, site in claims for line in edges_of(verdicts, asked, words, stage, site)]
    return ascending("claim", ((number(stage), *words.site(site)) for stage, site in claims)) + ascending("edge", edges)


def certificate_of(verdicts: Verdicts, asked: Asked) -> list[str]:
    """The lines of the certificate, without their newlines."""
    rules, facts = verdicts.solved
    words = Words(rules.program)
    entry = words.method(rules.entry.text)
    return [*head(verdicts.automaton, entry, asked.limits.depth), *lines_of_sets(words, facts),
            *lines_of_claims(verdicts, asked, words), "end"]


def main(words: list[str]) -> None:
    given = parsed(words)
    try:
        verdicts = Verdicts(read_subject(Path(given.folder), given.property, given.entry, given.stubs))
    except Refused as refusal:
        print(refusal, file=sys.stderr)
        sys.exit(REFUSED)
    print("\n".join(certificate_of(verdicts, asked_by(given))))
    sys.exit(report_of(verdicts, asked_by(given)).status)


if __name__ == "__main__":
    main(sys.argv[1:])
