#!/usr/bin/env python3
"""Compares the facts and the path edges that are written out in crates/example_edges/specs, where the edges are proved to be
least, with those of two cases of the same class files. For tests alone.

  compare_written.py

They are compared with what the second writing finds in the class files of the case, and with what the program prints of it:
the file `stdout` beside this folder, to which the gate holds the program. The nodes from which the second writing begins are
those of the file `stdout` of `cases_links`. The lines that differ are printed, `-` before those that are written out alone, and
the status is 1. It is 1, too, where one of the three has none."""

import re
import sys
from pathlib import Path as FilePath
from typing import Callable, Iterator, NamedTuple, Union

sys.dont_write_bytecode = True
from node_text import blocks_of, read_cases  # noqa: E402
from plain_edges import RETURNS, THROWS, Edge, Spot, Texts, lines_of as edges_of, read_automaton  # noqa: E402
from plain_facts import NONE, SOME, Automaton, Fact, Known, Path, slot_root  # noqa: E402
from plain_program import ROOT  # noqa: E402
from plain_rules import DEFAULT_LIMIT, START, lines_of as facts_of, solve  # noqa: E402

SPECS = ROOT / "crates/example_edges/specs"
DATA = ROOT / "crates/cases_stages/data"
PRINTED = [ROOT / "crates" / program / "stdout" for program in ("cases_links", "cases_stages")]

# What stands in a definition: a name, or what stands in brackets.
Term = Union[str, list["Term"]]

METHODS = {"main_number": "F.main()V", "init_number": "F.<init>()V", "read_number": "F.read{}",
           "close_number": "F.close()V", "object_init_number": "java/lang/Object.<init>()V"}
CLASSES = {"null_name": "java/lang/NullPointerException", "arithmetic_name": "java/lang/ArithmeticException"}
STATES = ("opened", "closed")
MADE = "[New F.main()V 0 F]"


class Example(NamedTuple):
    """The module of an example, its case, its stage, and the descriptor of `read`."""
    module: str
    case: str
    stage: int
    descriptor: str

    @property
    def folder(self) -> FilePath:
        return DATA / "cases/edges" / self.case

    def method(self, word: Term) -> str:
        return METHODS[str(word)].format(self.descriptor)


EXAMPLES = [Example("Reading", "read-in-a-loop", 2, "()Z"), Example("Throwing", "closed-by-a-handler", 3, "()V")]


# ---- definitions


def read_terms(words: Iterator[str]) -> list[Term]:
    """The terms up to the end, or to the bracket that closes them."""
    terms: list[Term] = []
    for word in words:
        if word == ")":
            break
        terms.append(read_terms(words) if word == "(" else word)
    return terms


def body_of(name: str, text: str) -> list[Term]:
    """What stands behind the sign of a definition, up to the next empty line."""
    found = re.search(rf"^{name} =(.*?)(?=\n\n|\Z)", text, re.M | re.S)
    if found is None:
        sys.exit(f"no definition of {name}")
    without_comments = re.sub(r" -- .*", "", found.group(1))
    return read_terms(iter(re.findall(r"[()]|[^\s()]+", without_comments)))


def parts_of(terms: list[Term], sign: str) -> list[list[Term]]:
    """The parts between signs, without that of an empty list."""
    parts: list[list[Term]] = [[]]
    for term in terms:
        if term == sign:
            parts.append([])
        else:
            parts[-1].append(term)
    return [part for part in parts if part != ["[]"]]


def listed(name: str, text: str) -> list[list[Term]]:
    """The elements of a list, which is written out or joined of others."""
    body = body_of(name, text)
    if "++" not in body:
        return parts_of(body, "∷")
    return [element for part in parts_of(body, "++") for element in listed(str(part[0]), text)]


# ---- facts


def words_of_holder(example: Example, term: Term) -> str:
    kind, method, *numbers = term
    word = {"from": "at", "parameter": "param", "thrown_by": "thrown"}[str(kind)]
    return " ".join([word, example.method(method), *map(str, numbers)])


def words_of_site(example: Example, term: Term) -> str:
    if term == "made":
        return MADE
    kind, method, offset, *names = term
    name = names[0] if kind == "exception_at" else "null_name"
    return f"[Thrown {example.method(method)} {offset} {CLASSES[str(name)]}]"


def words_of_fact(example: Example, terms: list[Term]) -> str:
    kind, *parts = terms
    if kind == "may_run":
        return f"reached {example.method(parts[0])}"
    if kind == "may_hold":
        return f"holds {words_of_holder(example, parts[0])} : {words_of_site(example, parts[1])}"
    call = START if parts[0] == "at_start" else f"{example.method(parts[0][1])} {parts[0][2]}"
    return f"target {call} > {example.method(parts[1])}"


# ---- edges


def spot_of(term: Term) -> Spot:
    return int(term[1]) if isinstance(term, list) else {"spots.Returned": RETURNS, "spots.Thrown": THROWS}[term]


def known_of(example: Example, term: Term) -> Fact:
    """A fact by its word. Behind that of an object its state follows, and at the third stage the slots that hold it."""
    if isinstance(term, str):
        return {"none_yet": NONE, "some_yet": SOME}[term]
    word, state, *slots = term
    numbers = [part for slot_list in slots if isinstance(slot_list, list) for part in parts_of(slot_list, "∷")]
    must = frozenset(Path(slot_root(int(number))) for [number] in numbers)
    return Known(True, STATES.index(state), must, {"only": True, "held": False}[word], frozenset())


def edge_of(example: Example, terms: list[Term]) -> Edge:
    kind, *rest = terms
    method = {"starting": START, "within": example.method("main_number")}.get(kind)
    entry: Term = "none_yet"
    if method is None:
        number, entry, *rest = rest
        method = example.method(number)
    spot, fact = rest
    return Edge(method, known_of(example, entry), spot_of(spot), known_of(example, fact))


# ---- what is compared


def written_facts(example: Example, text: str, automaton: Automaton) -> set[str]:
    return {words_of_fact(example, terms) for terms in listed("facts", text)}


def written_edges(example: Example, text: str, automaton: Automaton) -> set[str]:
    texts = Texts(automaton, [])
    return {texts.edge(edge_of(example, terms)) for terms in listed("edges", text)}


def all_facts(example: Example, lines: list[str]) -> set[str]:
    return {line for line in lines if line != "end solved"}


def edges_of_stage(example: Example, lines: list[str]) -> set[str]:
    """The edges of the only site at a stage."""
    found: set[str] = set()
    for line in lines:
        if line.startswith("site "):
            is_meant = line == f"site {MADE} stage {example.stage}"
        elif line.startswith("edge ") and is_meant:
            found.add(line)
    return found


def sections() -> dict[str, str]:
    """The parts of what the programs print, by their kinds."""
    text = "".join(path.read_text(encoding="utf-8") for path in PRINTED)
    _, *parts = re.split(r"^# (\w+)\n", text, flags=re.M)
    return dict(zip(parts[::2], parts[1::2]))


def differ(name: str, written: set[str], others: dict[str, set[str]]) -> bool:
    """Prints what differs from what is written out."""
    for other, lines in others.items():
        for sign, alone in (("-", written - lines), ("+", lines - written)):
            for line in sorted(alone):
                print(f"{name}, {other}: {sign} {line}")
    return not written or any(lines != written for lines in others.values())


def differs(example: Example, printed: dict[str, str]) -> bool:
    text = "\n\n".join((SPECS / f"{module}.antt").read_text(encoding="utf-8") for module in (example.module, "Files"))
    automaton = read_automaton(example.folder / "property.toml")
    nodes = dict(read_cases(printed["nodes"]))[example.case]
    kinds: list[tuple[str, Callable, Callable, list[str]]] = [
        ("sets", written_facts, all_facts, facts_of(solve(example.folder, nodes), DEFAULT_LIMIT)),
        ("edges", written_edges, edges_of_stage, edges_of(example.folder, nodes)),
    ]
    status = False
    for kind, of_specs, of_lines, found in kinds:
        written = of_specs(example, text, automaton)
        others = {"second writing": of_lines(example, found),
                  "program": of_lines(example, dict(blocks_of(printed[kind]))[example.case])}
        status |= differ(f"{example.case}, {kind}", written, others)
        print(f"{example.case}, {kind}: {len(written)} written out, " +
              ", ".join(f"{len(lines)} by the {other}" for other, lines in others.items()))
    return status


def main() -> None:
    printed = sections()
    sys.exit(int(any([differs(example, printed) for example in EXAMPLES])))


if __name__ == "__main__":
    main()
