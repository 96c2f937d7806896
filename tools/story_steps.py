"""Tells steps of a story within a method: what an instruction does to the object that the story is about."""

import enum
from collections.abc import Iterator
from dataclasses import dataclass, replace

from bodies import ARRAY_STORE, PUTFIELD, PUTSTATIC
from closure import MADE
from derivation import Step
from edge_rules import EdgeRules
from edges import SLOT, STATIC, TUPLE, Edge, Path
from facts import LIBRARY
from flows import Call, Flow
from numbering import Method
from story_words import Names
from words import java_method, java_name

# The stage that follows no access paths: it is sure of an event where the object is the only one.
BY_OBJECTS = 2
NOT_KNOWN = "from here on the analysis does not know all references to it"


class Weight(enum.Enum):
    """When a step is told: always; where one that always is follows in the same method; where a method goes on behind a call of which something was
    told; where a later event is not sure to be one of the object; and so for an event of another object, of whatever method."""
    KEY, WAY, BACK, DOUBT, OTHER = range(5)


@dataclass
class Told:
    """A step of a story: its method and offset, how many calls it is below the start of the program, its text and its weight; whether it is an event
    that is not sure to be one of the object; and to which offset a loop goes back."""
    method: Method
    offset: int
    depth: int
    text: str
    weight: Weight = Weight.KEY
    unsure: bool = False
    loop: int | None = None


class StepTeller:
    """Tells steps that do not enter a method of the program, and the events of calls that do."""

    def __init__(self, rules: EdgeRules, names: Names):
        self.rules, self.names = rules, names
        self.protocol, self.program = rules.protocol, rules.program

    def at(self, edge: Edge, depth: int, text: str, weight: Weight = Weight.KEY, unsure: bool = False) -> Told:
        """A step at the spot of an edge."""
        return Told(self.rules.method(edge.method), edge.spot, depth, text, weight, unsure)

    def flow(self, edge: Edge) -> Flow:
        """The code in which an edge is."""
        return self.rules.flow(edge.method)

    def brief(self, edge: Edge) -> str:
        """The method of an edge."""
        return self.names.brief(self.rules.method(edge.method))

    def of_step(self, step: Step, depth: int) -> Iterator[Told]:
        """What is told of a step."""
        if step.before.method is None:
            return
        if step.before.fact.kind != TUPLE:
            yield from self.made(step, depth)
            return
        yield from self.made_again(step, depth)
        yield from self.event(step.before, step.after.fact.state, depth)
        yield from self.stored(step, depth)
        yield from self.lost(step, depth)
        yield from self.thrown(step, depth)
        yield from self.jumped(step, depth)

    # ---- objects

    def made(self, step: Step, depth: int) -> Iterator[Told]:
        """The object is made."""
        if step.after.fact.kind != TUPLE:
            return
        edge, name = step.before, java_name(step.before.site.made.removeprefix(MADE))
        call = self.flow(edge).call(edge.spot)
        made = f"a new {name} is made" if call is None else f"{java_method(call.owner, *call.key)} gives a new {name}"
        text = f"{made} in {self.brief(edge)}, in the state {self.protocol.states[step.after.fact.state]}"
        yield self.at(edge, depth, text)
        if not step.after.fact.unique:
            yield self.at(edge, depth, f"it is not the first {name} that is made there; the analysis may take others for it", Weight.DOUBT)

    def made_again(self, step: Step, depth: int) -> Iterator[Told]:
        """Another one is made while the object is there."""
        if self.rules.is_site(step.before) and step.before.fact.unique and not step.after.fact.unique:
            name = java_name(step.before.site.made.removeprefix(MADE))
            yield self.at(step.before, depth, f"one more {name} is made there; the analysis may take it for the first one", Weight.DOUBT)

    def stored(self, step: Step, depth: int) -> Iterator[Told]:
        """The object is put into a field."""
        edge = step.before
        flow = self.flow(edge)
        opcode = flow.opcode(edge.spot)
        if opcode not in (PUTFIELD, PUTSTATIC) or Path(SLOT, flow.operand(edge.spot)) not in edge.fact.must:
            return
        owner, (name, _) = flow.member(edge.spot)
        kind = "static field" if opcode == PUTSTATIC else "field"
        yield self.at(edge, depth, f"it is stored into the {kind} {java_name(owner)}.{name}")

    def lost(self, step: Step, depth: int) -> Iterator[Told]:
        """Something refers to the object from now on that is not followed."""
        edge = step.before
        if edge.fact.kind != TUPLE or edge.fact.may or not step.after.fact.may:
            return
        flow = self.flow(edge)
        call = flow.call(edge.spot)
        if flow.opcode(edge.spot) == ARRAY_STORE:
            reason = "it is put into an array; "
        elif call is not None and step.exit < 0 and any(stub.keeps for _, stub in self.program.described(call.owner, call.key)):
            reason = "the library keeps it" + ("; " if call.owner == LIBRARY else f", by {java_method(call.owner, *call.key)}; ")
        else:
            reason = ""
        yield self.at(edge, depth, reason + NOT_KNOWN, Weight.DOUBT)

    # ---- events

    def event(self, edge: Edge, state: int, depth: int) -> Iterator[Told]:
        """A call that is an event: it changes the state, or is taken for one on another object."""
        call = self.rules.event(edge)
        if edge.fact.kind != TUPLE or call is None:
            return
        fact, receiver = edge.fact, Path(SLOT, call.slots[0])
        unsure, is_only = receiver not in fact.must, fact.unique and edge.stage == BY_OBJECTS
        old, new = self.protocol.states[fact.state], self.protocol.states[state]
        if state != fact.state:
            doubt = ", if it is called on this object" if unsure and not is_only else ""
            error = ", the error state" if new == self.protocol.error != "error" else ""
            text = f"{self.receiver(edge, call)}{self.names.event(call.key)} in {self.brief(edge)}: {old} -> {new}{error}{doubt}"
            yield self.at(edge, depth, text, unsure=unsure)
        elif unsure and fact.may and self.protocol.next[call.key][state] != old and receiver not in fact.must_not and self.may_be(edge, call):
            yield self.at(edge, depth, f"{self.names.event(call.key)} in {self.brief(edge)} is taken for a call on another object", Weight.OTHER)

    def may_be(self, edge: Edge, call: Call) -> bool:
        """Whether an object of the place may be the receiver of a call, by the class that the call names."""
        made = edge.site.made
        return self.program.is_below(made, call.owner) or self.program.is_below(call.owner, made)

    def receiver(self, edge: Edge, call: Call) -> str:
        """The receiver of a call, where a variable or a field has a name for it, with a full stop."""
        flow = self.flow(edge)
        if Path(SLOT, call.slots[0]) not in edge.fact.must:
            return ""
        paths = sorted(edge.fact.must, key=lambda each: (len(each.fields), each.root, each.number, each.fields))
        named = [self.names.path(flow, path, edge.spot) for path in paths if path.root == STATIC or (path.root == SLOT and path.number < flow.locals)]
        return next((f"{name}." for name in named if " " not in name), "")

    # ---- ways

    def handler_words(self, edge: Edge, target: int) -> str:
        """Where a handler catches an exception, and of which class."""
        line = self.flow(edge).body.line(target)
        kinds = " or ".join(dict.fromkeys(map(java_name, self.flow(edge).catches(edge.spot, target))))
        return f"at line {line}, as {kinds}" if line else f"as {kinds}"

    def thrown(self, step: Step, depth: int) -> Iterator[Told]:
        """An exception goes to a handler of the method."""
        edge, target = step.before, step.after.spot
        if not self.is_caught(step):
            return
        call = self.flow(edge).call(edge.spot)
        source = f"an exception comes out of {java_method(call.owner, *call.key)}" if call else "an exception is thrown"
        yield self.at(edge, depth, f"{source}, and is caught {self.handler_words(edge, target)}", Weight.WAY)

    def is_caught(self, step: Step) -> bool:
        """Whether a step goes to a handler."""
        edge, target = step.before, step.after.spot
        flow = self.flow(edge)
        return isinstance(target, int) and target not in flow.after[edge.spot] and bool(flow.catches(edge.spot, target))

    def jumped(self, step: Step, depth: int) -> Iterator[Told]:
        """The run goes back to where it was, or past a call that would be an event."""
        edge, target = step.before, step.after.spot
        flow = self.flow(edge)
        if not isinstance(target, int) or target not in flow.after[edge.spot]:
            return
        if target <= edge.spot:
            text = f"the loop of line {flow.body.line(target)} goes round again"
            yield replace(self.at(edge, depth, text, Weight.WAY), loop=target)
        elif target != flow.next(edge.spot):
            missed = list(dict.fromkeys(self.passed(edge, target)))
            if missed:
                yield self.at(edge, depth, f"the run goes on at line {flow.body.line(target)}, past {' and '.join(missed)}", Weight.WAY)

    def passed(self, edge: Edge, target: int) -> Iterator[str]:
        """The calls between an instruction and one behind it that would change the state of the object, and are reached without an exception."""
        flow, plain = self.flow(edge), self.flow(edge).without_handlers
        for offset in sorted(plain):
            call = flow.call(offset) if edge.spot < offset < target else None
            if call is not None and call.selects and call.key in self.protocol.events and self.may_be(edge, call):
                state = self.protocol.states[edge.fact.state]
                if self.protocol.next[call.key][edge.fact.state] not in (state, self.protocol.error):
                    yield f"{self.names.event(call.key)} at line {flow.body.line(offset)}"
