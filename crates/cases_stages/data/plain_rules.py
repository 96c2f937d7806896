#!/usr/bin/env python3
"""A second writing of the rules of the points-to analysis, for tests alone: which objects, by their allocation sites,
each place may hold; which methods may run, and from which calls; and which fields each method may write.

  plain_rules.py CASES NODES

CASES is a folder of cases, each with class files, perhaps `stubs.toml`, and a file `entry`; NODES is the text that
`cases_links nodes` prints for it, or `-` for standard input. Of each case is printed what `cases_stages sets` has to print,
the lines of one kind in the order of their texts.

All rules are tried on all that is known, until nothing new follows: there is no list of what is still to be done, and
nothing is tried in a clever order. What it knows of a case are its class files, its stubs and its nodes."""

import re
import sys
from functools import cache
from pathlib import Path
from typing import Iterator, NamedTuple, Optional, Union

sys.dont_write_bytecode = True
from node_text import (Call, CaseText, Cast, Constant, Load, LoadElement, LoadStatic, New, NewArray,  # noqa: E402
                       NodeMethod, Refusal, Return, Site, Store, StoreElement, StoreStatic, Throw, read_cases)
from plain_program import CALL_REASONS, NO_STUB, Method, Program, link  # noqa: E402
from plain_slots import KEEPS, WRITES, NodeAt, Place, SlotNames, effect_on  # noqa: E402

DEFAULT_LIMIT = 20000000
STRING, THROWABLE = "java/lang/String", "java/lang/Throwable"
PARAMETER = re.compile(r"\[*(?:L[^;]*;|[BCDFIJSZ])")
KEPT: Place = ("kept",)
START = "start"


class Holds(NamedTuple):
    """A place may hold an object of a site."""
    place: Place
    site: Site


class Runs(NamedTuple):
    """A method may run."""
    method: str


class Goes(NamedTuple):
    """A call may go to a method: the call of a node, or that of the start."""
    call: str
    target: str


class Writes(NamedTuple):
    """A method may write an instance field."""
    method: str
    field: str


Fact = Union[Holds, Runs, Goes, Writes]


class Facts:
    """What is known."""

    def __init__(self) -> None:
        self.holds: dict[Place, set[Site]] = {}
        self.runs: set[str] = set()
        self.goes: dict[str, set[str]] = {}
        self.writes: dict[str, set[str]] = {}

    def add(self, fact: Fact) -> bool:
        """Whether it was not known."""
        if isinstance(fact, Runs):
            known, new = self.runs, fact.method
        else:
            lists = {Holds: self.holds, Goes: self.goes, Writes: self.writes}[type(fact)]
            known, new = lists.setdefault(fact[0], set()), fact[1]
        was_known = new in known
        known.add(new)
        return not was_known

    def held(self, place: Place) -> set[Site]:
        """The sites of the objects that the place may hold."""
        return self.holds.get(place, set())

    def flow(self, source: Place, target: Place) -> Iterator[Fact]:
        """What one place holds, another one holds."""
        return (Holds(target, site) for site in self.held(source))

    def pairs(self) -> int:
        """How many facts there are of what is held."""
        return sum(len(sites) for sites in self.holds.values())


def boot_site(class_name: str) -> Site:
    return Site("Boot", "-", 0, class_name)


def argument_unit(method: Method, word: str) -> int:
    """The unit of an argument that a stub names: the receiver is the first, and a long or a double takes two."""
    if word == "this":
        return 0
    parameters = PARAMETER.findall(method.descriptor)[:int(word.removeprefix("arg")) - 1]
    return (0 if method.stub.is_static else 1) + sum(2 if each in "JD" else 1 for each in parameters)


def result_class(descriptor: str) -> str:
    """The class of the result of a descriptor that has one."""
    return descriptor[descriptor.rindex(")") + 2:-1]


def slot_flows(method: SlotNames) -> Iterator[tuple[Place, Place]]:
    """From which variables objects flow to which: where a node keeps or moves a slot, at the first node, and at
    handlers."""
    for node in method.nodes:
        at = NodeAt(method, node)
        for slot in method.slots:
            effect = effect_on(slot, node.operation)
            if effect != WRITES:
                source = at.variable(slot if effect == KEEPS else effect)
                yield from ((source, after) for after in at.after(slot))
            if method.is_first(node.offset):
                yield ("param", method.name, slot), at.variable(slot)
        for handler in node.handlers:
            for slot in range(method.locals):
                yield at.variable(slot), method.variable(handler.target, slot)


class Rules:
    """The rules, for a program, its methods as nodes, and an entry."""

    def __init__(self, program: Program, given: dict[str, NodeMethod], entry: Method):
        self.program = program
        self.given = given
        self.entry = entry
        # A method that is refused has no nodes, and so leads to nothing.
        self.methods = {name: SlotNames(method) for name, method in given.items() if method.refusal is None}
        # What was asked once is kept, as long as the rules are.
        self.flows = cache(lambda name: set(slot_flows(self.methods[name])))

    def least(self) -> Facts:
        """What follows by the rules."""
        facts, grew = Facts(), True
        while grew:
            parts = [self.of_start(facts)] + [self.of_method(facts, method) for method in self.methods.values()]
            grew = any([facts.add(fact) for conclusions in parts for fact in list(conclusions)])
        return facts

    def of_method(self, facts: Facts, method: SlotNames) -> Iterator[Fact]:
        """What follows by one use of a rule for a method, if it may run."""
        if method.name not in facts.runs:
            return
        for source, target in self.flows(method.name):
            yield from facts.flow(source, target)
        for node in method.nodes:
            at = NodeAt(method, node)
            yield from self.of_read(facts, at)
            yield from self.of_write(facts, at)
            yield from self.of_exceptions(facts, at)
            yield from self.of_trigger(facts, at)
            if isinstance(node.operation, Call):
                yield from self.of_call(facts, at, node.operation)

    # ---- the start and initialisation

    def of_start(self, facts: Facts) -> Iterator[Fact]:
        """The entry runs, with an array of strings if it has a parameter; and so do initialisers that are started
        before it, and all targets of calls."""
        entry = self.entry.text
        yield Runs(entry)
        yield Goes(START, entry)
        if self.entry.descriptor != "()V":
            arguments = boot_site(f"[L{STRING};")
            yield Holds(("param", entry, 0), arguments)
            yield Holds(("elements", arguments), boot_site(STRING))
        yield from self.of_initialisers(facts, self.entry.class_name)
        for targets in facts.goes.values():
            yield from (Runs(target) for target in targets)

    def of_initialisers(self, facts: Facts, trigger: str) -> Iterator[Fact]:
        """Initialisers that may be started run, and what they throw may be kept."""
        for initialiser in self.program.initialisers(trigger):
            yield Runs(initialiser.text)
            yield from facts.flow(("thrown", initialiser.text), KEPT)

    def of_trigger(self, facts: Facts, at: NodeAt) -> Iterator[Fact]:
        """The initialisers that a node may start; what they throw it throws, and what they write its method writes."""
        if at.node.trigger is None:
            return
        yield from self.of_initialisers(facts, at.node.trigger)
        for initialiser in self.program.initialisers(at.node.trigger):
            for site in facts.held(("thrown", initialiser.text)):
                yield self.lands(at, site)
            for field in facts.writes.get(initialiser.text, ()):
                yield Writes(at.method.name, field)

    # ---- operations

    def begins_with(self, field: str) -> Iterator[str]:
        """The classes of the objects that a static field may hold from the start: that of its stub, or a constant."""
        found = self.program.fields[field]
        if found.holds is not None:
            yield found.holds
        elif found.descriptor == f"L{STRING};" and self.program.classes[found.class_name].is_folder:
            yield STRING

    def of_read(self, facts: Facts, at: NodeAt) -> Iterator[Fact]:
        """What is loaded, made or cast, the target holds at the node's successors."""
        match at.node.operation:
            case Load(field, base, target):
                for site in facts.held(at.variable(base)):
                    for after in at.after(target):
                        yield from facts.flow(("field", site, field), after)
            case LoadElement(base, target):
                for site in facts.held(at.variable(base)):
                    for after in at.after(target):
                        yield from facts.flow(("elements", site), after)
            case LoadStatic(field, target):
                for class_name in self.begins_with(field):
                    yield Holds(("static", field), boot_site(class_name))
                for after in at.after(target):
                    yield from facts.flow(("static", field), after)
            case New(site, target) | Constant(site, target):
                yield from (Holds(after, site) for after in at.after(target))
            case NewArray(sites, target):
                yield from (Holds(after, sites[0]) for after in at.after(target))
                yield from (Holds(("elements", outer), inner) for outer, inner in zip(sites, sites[1:]))
            case Cast(class_name, slot):
                for site in facts.held(at.variable(slot)):
                    if self.program.fits(class_name, site.class_name):
                        yield from (Holds(after, site) for after in at.after(slot))

    def of_write(self, facts: Facts, at: NodeAt) -> Iterator[Fact]:
        """What is stored, the field, the elements or the static field hold; what is returned, the result holds."""
        match at.node.operation:
            case Store(field, base, value):
                yield Writes(at.method.name, field)
                for site in facts.held(at.variable(base)):
                    yield from facts.flow(at.variable(value), ("field", site, field))
            case StoreElement(base, value):
                for site in facts.held(at.variable(base)):
                    yield from facts.flow(at.variable(value), ("elements", site))
            case StoreStatic(field, value):
                yield from facts.flow(at.variable(value), ("static", field))
            case Return(int(value)):
                yield from facts.flow(at.variable(value), ("result", at.method.name))

    # ---- exceptions

    def lands(self, at: NodeAt, site: Site) -> Fact:
        """Where an object goes that is thrown at a node: to the first unit of the stack at the first handler that takes
        it, or else out of the method."""
        for handler in at.node.handlers:
            if handler.class_name is None or self.program.fits(handler.class_name, site.class_name):
                return Holds(at.method.variable(handler.target, at.method.locals), site)
        return Holds(("thrown", at.method.name), site)

    def of_exceptions(self, facts: Facts, at: NodeAt) -> Iterator[Fact]:
        """A throw, and a node's own exceptions."""
        if isinstance(at.node.operation, Throw):
            for site in facts.held(at.variable(at.node.operation.value)):
                if self.program.fits(THROWABLE, site.class_name):
                    yield self.lands(at, site)
        for class_name in at.node.throws:
            yield self.lands(at, at.site("Thrown", class_name))

    # ---- calls

    def selects(self, call: Call, site: Site) -> tuple[Optional[Method], Optional[str]]:
        """What a call selects for an object of a site, or why nothing; neither where it does not select by the object,
        or the object is none of the resolved method's class."""
        resolved = self.program.methods[call.resolved]
        selects_by_object = call.kind in ("virtual", "interface")
        if not selects_by_object or not self.program.fits(resolved.class_name, site.class_name):
            return None, None
        return self.program.select(call.kind == "interface", site.class_name, resolved)

    def of_call(self, facts: Facts, at: NodeAt, call: Call) -> Iterator[Fact]:
        """A call goes to its chosen target, or to those that objects of its first argument select."""
        if call.chosen is not None:
            yield Goes(str(at), call.chosen)
        receiver = call.slot(0)
        if receiver is not None:
            for site in facts.held(at.variable(receiver)):
                selected, _ = self.selects(call, site)
                if selected is not None:
                    yield Goes(str(at), selected.text)
        for text in facts.goes.get(str(at), ()):
            target = self.program.methods[text]
            yield from self.passes(facts, at, call, target)
            if target.stub is None:
                yield from self.comes_back(facts, at, call, target)
            elif not target.stub.is_abstract:
                yield from self.of_described(facts, at, call, target)
            yield from (Writes(at.method.name, field) for field in facts.writes.get(text, ()))

    def passes(self, facts: Facts, at: NodeAt, call: Call, target: Method) -> Iterator[Fact]:
        """The target's parameters hold what is passed: as the first unit of a call that selects by it, what selects
        this target."""
        for unit, slot in enumerate(call.arguments):
            if slot is None:
                continue
            for site in facts.held(at.variable(slot)):
                if unit > 0 or call.kind in ("special", "static") or self.selects(call, site)[0] is target:
                    yield Holds(("param", target.text, unit), site)

    def comes_back(self, facts: Facts, at: NodeAt, call: Call, target: Method) -> Iterator[Fact]:
        """What a method of a class file returns, the result holds; and what it throws is thrown at the call."""
        if call.result is not None:
            for after in at.after(call.result):
                yield from facts.flow(("result", target.text), after)
        for site in facts.held(("thrown", target.text)):
            yield self.lands(at, site)

    def of_described(self, facts: Facts, at: NodeAt, call: Call, target: Method) -> Iterator[Fact]:
        """A described method keeps some of its arguments, throws new objects, and gives one of its listed results."""
        for word in target.stub.keeps:
            yield from (Holds(KEPT, site) for site in self.arguments(facts, at, call, target, word))
        for class_name in target.stub.throws:
            yield self.lands(at, at.site("Thrown", class_name))
        if call.result is None:
            return
        for word in target.stub.returns:
            for site in self.results(facts, at, call, target, word):
                yield from (Holds(after, site) for after in at.after(call.result))

    def results(self, facts: Facts, at: NodeAt, call: Call, target: Method, word: str) -> list[Site]:
        """The sites of what a described method gives by a word of its results."""
        if word in ("prim", "void", "null"):
            return []
        if word == "kept":
            fitting = result_class(target.stub.descriptor)
            return [site for site in facts.held(KEPT) if self.program.fits(fitting, site.class_name)]
        if word.startswith("new:"):
            return [at.site("Result", word.removeprefix("new:"))]
        return self.arguments(facts, at, call, target, word)

    def arguments(self, facts: Facts, at: NodeAt, call: Call, target: Method, word: str) -> list[Site]:
        """The sites of what a described method gets as the argument that a word names: as its receiver what selects it,
        and at a special call what is one of the resolved method's class."""
        unit = argument_unit(target, word)
        slot = call.slot(unit)
        if slot is None:
            return []
        sites = facts.held(at.variable(slot))
        if unit > 0 or call.kind == "static":
            return list(sites)
        if call.kind == "special":
            resolved = self.program.methods[call.resolved]
            return [site for site in sites if self.program.fits(resolved.class_name, site.class_name)]
        return [site for site in sites if self.selects(call, site)[0] is target]

    # ---- refusals

    def lacks_target(self, call: Call, site: Site) -> Optional[str]:
        """Why a call has no target for an object of the site, if it has none."""
        target, reason = self.selects(call, site)
        return NO_STUB if target is not None and target.is_undescribed else reason

    def call_refusals(self, facts: Facts, method: SlotNames) -> Iterator[tuple[int, str]]:
        """The offsets and reasons of the calls of a method that lack a target for an object that they may be made
        on."""
        for node in method.nodes:
            receiver = node.operation.slot(0) if isinstance(node.operation, Call) else None
            if receiver is not None:
                for site in facts.held(method.variable(node.offset, receiver)):
                    reason = self.lacks_target(node.operation, site)
                    if reason is not None:
                        yield node.offset, reason

    def first_refusal(self, facts: Facts) -> Optional[Refusal]:
        """The first refusal, by the number of the method, the offset, and the order of the reasons."""
        for method in self.program.methods.values():
            if method.text not in facts.runs or method.text not in self.given:
                continue
            if self.given[method.text].refusal is not None:
                return self.given[method.text].refusal
            refusals = list(self.call_refusals(facts, self.methods[method.text]))
            if refusals:
                offset, reason = min(refusals, key=lambda each: (each[0], CALL_REASONS.index(each[1])))
                return Refusal(self.program.classes[method.class_name].file, method.code_start + offset, reason)
        return None


# ---- cases


class Entry(NamedTuple):
    """The first lines of the file `entry` of a case: a method, and how many pairs are too many."""
    method: str
    limit: int


def read_entry(folder: Path) -> Entry:
    method, *limits = (folder / "entry").read_text(encoding="utf-8").splitlines()
    return Entry(method, int(limits[0]) if limits else DEFAULT_LIMIT)


class Solved(NamedTuple):
    """The rules of a case, and what follows by them."""
    rules: Rules
    facts: Facts


def solved_by(rules: Rules) -> Solved:
    return Solved(rules, rules.least())


def solve(folder: Path, text: CaseText) -> Union[Solved, str]:
    """What follows in a case; or the line that says that it has no program, or no entry."""
    if isinstance(text, str):
        return text
    program = link(folder)
    entry = program.methods.get(read_entry(folder).method)
    if entry is None:
        return "no entry"
    return solved_by(Rules(program, text, entry))


# ---- calls on objects


def calls_of(solved: Solved) -> Iterator[tuple[NodeAt, Call]]:
    """The calls of methods that may run that select by their receiver."""
    for name, method in solved.rules.methods.items():
        for node in method.nodes if name in solved.facts.runs else []:
            if isinstance(node.operation, Call) and node.operation.kind in ("virtual", "interface"):
                yield NodeAt(method, node), node.operation


def called_on(solved: Solved, sites: set[Site]) -> list[str]:
    """The names and descriptors of calls that may be made on objects of the sites."""
    found = {call.named for at, call in calls_of(solved)
             if call.slot(0) is not None and sites & solved.facts.held(at.variable(call.slot(0)))}
    return sorted(found)


# ---- what is printed


def lines_of(solved: Union[Solved, str], limit: int) -> list[str]:
    """What is printed of a case, but for its name."""
    if isinstance(solved, str):
        return [solved]
    rules, facts = solved
    if facts.pairs() >= limit:
        return [f"end limit {limit}"]
    refusal = rules.first_refusal(facts)
    if refusal is not None:
        return [f"end {refusal}"]
    kinds = [
        (f"reached {method}" for method in facts.runs),
        (f"target {call} > {target}" for call, targets in facts.goes.items() for target in targets),
        (f"holds {words_of(place)} : {site}" for place, sites in facts.holds.items() for site in sites),
        (f"writes {method} : {field}" for method, fields in facts.writes.items() for field in fields),
    ]
    return ["end solved"] + [line for lines in kinds for line in sorted(lines)]


def words_of(place: Place) -> str:
    return " ".join(str(word) for word in place)


def main(words: list[str]) -> None:
    if len(words) != 2:
        sys.exit("usage: plain_rules.py CASES NODES")
    cases = Path(words[0])
    text = sys.stdin.read() if words[1] == "-" else Path(words[1]).read_text(encoding="utf-8")
    for name, case in read_cases(text):
        lines = lines_of(solve(cases / name, case), read_entry(cases / name).limit)
        print("\n".join([name] + lines) + "\n")


if __name__ == "__main__":
    main(sys.argv[1:])
