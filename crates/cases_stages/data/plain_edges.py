#!/usr/bin/env python3
"""A second writing of the path edges of stages 2 to 4, for tests alone.

  plain_edges.py CASES NODES [--write]

CASES is a folder of cases, each with class files, perhaps `stubs.toml`, `property.toml`, and a file `entry`, whose
second line may say how many path edges are too many; NODES is the text that `cases_links nodes` or `expect.py` prints
for it, or `-` for standard input. Of each case is printed what `cases_stages edges` has to print. With `--write` the
file `expected` of the case gets that too, but for the name.

A path edge says that a method that was entered with a fact may come to a spot with another one: to a node, by its
offset, or to one of its two exits. Each rule is tried on each edge; those that join a caller's edge and an exit's edge
are tried when the later of the two is found."""

import sys
import tomllib
from pathlib import Path as FilePath
from typing import Iterator, NamedTuple, Optional, Union

sys.dont_write_bytecode = True
from node_text import Call, CaseText, New, Node, NodeMethod, Return, Site, Throw, read_cases  # noqa: E402
from plain_facts import (NONE, STATIC, THROWN, Automaton, Fact, Known, Leaving, Path, Setting, Sites,  # noqa: E402
                         answered, entered, events, flow, leaves, raised, resumed, threw)
from plain_program import Method, Program  # noqa: E402
from plain_rules import DEFAULT_LIMIT, START, THROWABLE, Solved, solve  # noqa: E402
from plain_slots import NodeAt, SlotNames  # noqa: E402

STAGES = (2, 3, 4)
DEFAULT_DEPTH, DEFAULT_EDGE_LIMIT = 3, 10000
RETURNS, THROWS = "returns", "throws"
OF_INITIALISATION = ("java/lang/ExceptionInInitializerError", "java/lang/NoClassDefFoundError")

# The offset of a node, or one of the two exits.
Spot = Union[int, str]


class Edge(NamedTuple):
    """A method, the fact with which it was entered, and a spot to which it may come with a fact."""
    method: str
    entry: Fact
    spot: Spot
    fact: Fact


class Caller(NamedTuple):
    """An edge to a node that enters a method: by a call with the fact after its event, or to start an initialiser."""
    edge: Edge
    fact: Fact
    target: Method
    call: Optional[Call]


def start_method(program: Program, entry: Method) -> SlotNames:
    """What starts the program, as nodes: it calls the entry, and returns."""
    throws = list(OF_INITIALISATION) if program.initialisers(entry.class_name) else []
    call = Call("static", entry.text, entry.text, f"{entry.name}{entry.descriptor}", [], None)
    nodes = [Node(0, call, [1], trigger=entry.class_name, throws=throws), Node(1, Return(None))]
    return SlotNames(NodeMethod(START, nodes=nodes))


class EdgeRules:
    """The rules, for a solved case and a setting."""

    def __init__(self, solved: Solved, setting: Setting):
        self.solved, self.setting = solved, setting
        self.program, self.facts = solved.rules.program, solved.facts
        self.methods = {**solved.rules.methods, START: start_method(self.program, solved.rules.entry)}
        self.callers: dict[tuple[str, Fact], list[Caller]] = {}
        self.exits: dict[tuple[str, Fact], list[Edge]] = {}

    def least(self, limit: int) -> Optional[set[Edge]]:
        """What follows by the rules; none if there are as many edges as the limit, or more."""
        first = Edge(START, NONE, 0, NONE)
        found, open_edges = {first}, [first]
        while open_edges and len(found) < limit:
            for edge in list(self.of_edge(open_edges.pop())):
                if edge not in found:
                    found.add(edge)
                    open_edges.append(edge)
        return found if len(found) < limit else None

    def of_edge(self, edge: Edge) -> Iterator[Edge]:
        """What follows from an edge, with those that were looked at before."""
        if isinstance(edge.spot, str):
            yield from self.of_exit(edge)
            return
        method = self.methods[edge.method]
        at = NodeAt(method, method.by_offset[edge.spot])
        for class_name in at.node.throws:
            yield self.raises(edge, at, class_name, edge.fact)
        if isinstance(at.node.operation, Call):
            for fact in events(self.setting, edge.fact, at, at.node.operation, lambda slot: self.sites(at, slot)):
                yield from self.of_call(edge, at, at.node.operation, fact)
        else:
            yield from self.of_flow(edge, at)
        if at.node.trigger is not None:
            for initialiser in self.program.initialisers(at.node.trigger):
                yield from self.enters(Caller(edge, edge.fact, initialiser, None))

    def sites(self, at: NodeAt, slot: int) -> Sites:
        """What is known of the objects that a slot may hold."""
        held = self.facts.held(at.variable(slot))
        return Sites(self.setting.site in held, held == {self.setting.site})

    # ---- within a method

    def of_flow(self, edge: Edge, at: NodeAt) -> Iterator[Edge]:
        """A node that is no call goes on, or throws its value."""
        spots = [RETURNS] if isinstance(at.node.operation, Return) else at.node.successors
        for spot in spots:
            yield from (edge._replace(spot=spot, fact=fact) for fact in flow(self.setting, edge.fact, at))
        if isinstance(at.node.operation, Throw):
            for site in self.facts.held(at.variable(at.node.operation.value)):
                if self.program.fits(THROWABLE, site.class_name):
                    yield self.raises(edge, at, site.class_name, edge.fact)

    def handler(self, at: NodeAt, class_name: str) -> Optional[int]:
        """The first handler that takes an exception of a class."""
        for handler in at.node.handlers:
            if handler.class_name is None or self.program.fits(handler.class_name, class_name):
                return handler.target
        return None

    def raises(self, edge: Edge, at: NodeAt, class_name: str, fact: Fact) -> Edge:
        """An exception goes to its handler, or out of the method."""
        spot = self.handler(at, class_name)
        after = raised(self.setting, fact, at, spot is not None)
        return edge._replace(spot=THROWS if spot is None else spot, fact=after)

    # ---- calls

    def targets(self, at: NodeAt) -> list[Method]:
        call = START if at.method.name == START else str(at)
        return [self.program.methods[text] for text in self.facts.goes.get(call, ())]

    def of_call(self, edge: Edge, at: NodeAt, call: Call, fact: Fact) -> Iterator[Edge]:
        """A call, with a fact after its event, enters its targets, or gets what those answer that are described."""
        for target in self.targets(at):
            if target.stub is None:
                yield from self.enters(Caller(edge, fact, target, call))
            elif not target.stub.is_abstract:
                yield from self.of_described(edge, at, call, target, fact)

    def of_described(self, edge: Edge, at: NodeAt, call: Call, target: Method, fact: Fact) -> Iterator[Edge]:
        for word in target.stub.returns:
            for after in answered(self.setting, fact, at, call, target, word):
                yield from (edge._replace(spot=spot, fact=after) for spot in at.node.successors)
        for class_name in target.stub.throws:
            spot = self.handler(at, class_name)
            after = threw(self.setting, fact, at, call, target, spot is not None)
            yield edge._replace(spot=THROWS if spot is None else spot, fact=after)

    def enters(self, caller: Caller) -> Iterator[Edge]:
        """A method is entered, and each exit that it has with this entry leads on."""
        fact, target = entered(self.setting, caller.fact, caller.call), caller.target.text
        yield Edge(target, fact, self.methods[target].nodes[0].offset, fact)
        self.callers.setdefault((target, fact), []).append(caller)
        for exits in self.exits.get((target, fact), []):
            yield from self.goes_on(caller, exits)

    def of_exit(self, exits: Edge) -> Iterator[Edge]:
        """Each edge that entered the method so goes on."""
        self.exits.setdefault((exits.method, exits.entry), []).append(exits)
        for caller in self.callers.get((exits.method, exits.entry), []):
            yield from self.goes_on(caller, exits)

    def goes_on(self, caller: Caller, exits: Edge) -> Iterator[Edge]:
        """A caller goes on behind its call where the target returned. Behind an initialiser it is at its node again,
        however that ended. What the target or the initialiser threw, it may throw."""
        edge, method = caller.edge, self.methods[caller.edge.method]
        at = NodeAt(method, method.by_offset[edge.spot])
        fields = self.facts.writes.get(caller.target.text, ())
        may_write = frozenset(self.setting.field_numbers[field] for field in fields)
        fact = leaves(self.setting, caller.fact, exits.fact, Leaving(at, caller.call, may_write))
        if caller.call is None:
            yield edge._replace(fact=fact)
        elif exits.spot == RETURNS:
            after = resumed(self.setting, fact, at, caller.call)
            yield from (edge._replace(spot=spot, fact=after) for spot in at.node.successors)
        if exits.spot == THROWS:
            for site in self.facts.held(("thrown", caller.target.text)):
                yield self.raises(edge, at, site.class_name, fact)


# ---- sites


class Limits(NamedTuple):
    """How many fields a store may give a path, and how many path edges are too many."""
    depth: int
    edges: int


def path_edges(solved: Solved, automaton: Automaton, site: Site, stage: int, limits: Limits) -> Optional[set[Edge]]:
    """The path edges of a site at a stage; none if they are too many."""
    numbers = {field: number for number, field in enumerate(solved.rules.program.fields)}
    return EdgeRules(solved, Setting(automaton, site, stage, limits.depth, numbers)).least(limits.edges)


def tracked_at(solved: Solved, at: NodeAt) -> Iterator[Site]:
    """The sites at a node: what it makes itself, and what a described target gives as a new object."""
    operation = at.node.operation
    if isinstance(operation, New):
        yield operation.site
    if isinstance(operation, Call):
        for text in solved.facts.goes.get(str(at), ()):
            stub = solved.rules.program.methods[text].stub
            for word in stub.returns if stub is not None else []:
                if word.startswith("new:"):
                    yield at.site("Result", word.removeprefix("new:"))


def tracked(solved: Solved, class_name: str) -> list[Site]:
    """Where methods that may run make objects of a class or of one below it, by the numbers of the methods, the offsets
    and the names of the classes."""
    program, found = solved.rules.program, []
    for name in program.methods:
        if name not in solved.facts.runs or name not in solved.rules.methods:
            continue
        method = solved.rules.methods[name]
        sites = {site for node in method.nodes for site in tracked_at(solved, NodeAt(method, node))}
        tracked_ones = [site for site in sites if not site.class_name.startswith("[")
                        and class_name in program.supertypes(site.class_name)]
        found += sorted(tracked_ones, key=lambda site: (site.offset, site.class_name.encode()))
    return found


# ---- cases


def read_automaton(path: FilePath) -> Automaton:
    """The automaton of a property file."""
    document = tomllib.loads(path.read_text(encoding="utf-8"))
    states = document["states"]
    events = {f"{event['name']}{event['descriptor']}": [states.index(state) for state in event["next"]]
              for event in document["event"]}
    initial, error = states.index(document["initial"]), states.index(document["error"])
    return Automaton(document["class"], states, initial, error, events)


def read_edge_limit(folder: FilePath) -> int:
    _, *limits = (folder / "entry").read_text(encoding="utf-8").splitlines()
    return int(limits[0]) if limits else DEFAULT_EDGE_LIMIT


class Texts:
    """Facts and edges as they are printed."""

    def __init__(self, automaton: Automaton, fields: list[str]):
        self.states, self.fields = automaton.states, fields

    def path(self, path: Path) -> str:
        kind, number = path.root
        static = f"static {self.fields[number]}" if kind == STATIC else ""
        root = static or (str(number) if path.root.is_slot else "thrown" if kind == THROWN else "returned")
        return root + "".join(f".{self.fields[field]}" for field in path.fields)

    def paths(self, paths: frozenset[Path]) -> str:
        return "{" + ",".join(self.path(path) for path in sorted(paths)) + "}"

    def fact(self, fact: Fact) -> str:
        if not isinstance(fact, Known):
            return fact
        only, may = "only" if fact.only else "any", "may" if fact.may else "sure"
        state = self.states[fact.state]
        return f"[{only} {state} must{self.paths(fact.must)} {may} not{self.paths(fact.must_not)}]"

    def edge(self, edge: Edge) -> str:
        return f"edge {edge.method} {self.fact(edge.entry)} > {edge.spot} {self.fact(edge.fact)}"


def lines_of_site(solved: Solved, automaton: Automaton, site: Site, limits: Limits) -> Iterator[str]:
    """The path edges of a site, stage by stage."""
    if not any(site in sites for sites in solved.facts.holds.values()):
        yield f"site {site} is held by nothing"
        return
    texts = Texts(automaton, list(solved.rules.program.fields))
    for stage in STAGES:
        yield f"site {site} stage {stage}"
        edges = path_edges(solved, automaton, site, stage, limits)
        if edges is None:
            yield f"limit {limits.edges}"
        else:
            yield f"edges {len(edges)}"
            yield from sorted((texts.edge(edge) for edge in edges), key=str.encode)


def lines_of(folder: FilePath, text: CaseText) -> list[str]:
    """What is printed of a case, but for its name."""
    solved = solve(folder, text)
    if isinstance(solved, str):
        return [solved]
    if solved.facts.pairs() >= DEFAULT_LIMIT:
        return [f"end limit {DEFAULT_LIMIT}"]
    refusal = solved.rules.first_refusal(solved.facts)
    if refusal is not None:
        return [f"end {refusal}"]
    automaton = read_automaton(folder / "property.toml")
    if automaton.class_name not in solved.rules.program.classes:
        return ["no class of the property"]
    limits = Limits(DEFAULT_DEPTH, read_edge_limit(folder))
    return [line for site in tracked(solved, automaton.class_name)
            for line in lines_of_site(solved, automaton, site, limits)]


def main(words: list[str]) -> None:
    if len(words) not in (2, 3) or words[2:] not in ([], ["--write"]):
        sys.exit("usage: plain_edges.py CASES NODES [--write]")
    cases = FilePath(words[0])
    text = sys.stdin.read() if words[1] == "-" else FilePath(words[1]).read_text(encoding="utf-8")
    for name, case in read_cases(text):
        lines = lines_of(cases / name, case)
        print("\n".join([name] + lines) + "\n")
        if words[2:]:
            (cases / name / "expected").write_text("".join(f"{line}\n" for line in lines), encoding="utf-8")


if __name__ == "__main__":
    main(sys.argv[1:])
