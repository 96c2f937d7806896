"""The rules by which one path edge follows from others, as far as the code of the methods and the facts show. Where code and facts leave several
ways, how badly each one fits is told by a number: of how many access paths they say something else."""

from collections.abc import Iterator

from bodies import THROWABLE, Key
from edges import NONE, RETURNED, SLOT, SOME, STATIC, THROWN, TUPLE, Edge, Fact, Path
from effects import Protocol
from flows import INITIALISER, OF_INITIALISATION, RAISES, RETURNS, Call, Flow
from library import Unusable
from numbering import OTHER_RUN, Method, Numbering
from program import Program

# As many paths a set of a fact has at most; the verifier leaves out others.
MOST_PATHS = 6
# The start of the program calls the entry at the first of these offsets, and returns at the other one.
BOOT_CALL, BOOT_RETURN = 0, 1
START: Method = ("", ("", ""))


class EdgeRules:
    """The rules, for a program, a property and an entry."""

    def __init__(self, program: Program, numbering: Numbering, protocol: Protocol, entry: str):
        self.program, self.numbering, self.protocol = program, numbering, protocol
        self.entry_class, _, self.entry_name = entry.rpartition(".")
        self.flows: dict[int, Flow] = {}
        self.stub_calls: dict[tuple[bool, str, Key], bool] = {}
        self.stub_throws: dict[tuple[str, Key], list[str]] = {}

    # ---- the code

    def method(self, number: int | None) -> Method:
        """The method of a number; that of the start has no name."""
        return START if number is None else self.numbering.method(number)

    def flow(self, number: int) -> Flow:
        """The code of the method of a number."""
        if number not in self.flows:
            owner, key = self.method(number)
            body = self.program.body(owner, key)
            if body is None:
                raise Unusable(f"the report has an edge in {owner}.{key[0]}{key[1]}, which has no code: {OTHER_RUN}")
            self.flows[number] = Flow(body, self.program)
        return self.flows[number]

    def call(self, edge: Edge) -> Call | None:
        """The call to which an edge leads."""
        return self.flow(edge.method).call(edge.spot) if edge.method is not None and isinstance(edge.spot, int) else None

    def event(self, edge: Edge) -> Call | None:
        """The call to which an edge leads, if it may be an event."""
        call = self.call(edge)
        return call if call is not None and call.selects and call.key in self.protocol.events else None

    def loops(self, edge: Edge) -> bool:
        """Whether an instruction leads to itself."""
        return edge.method is not None and edge.spot in self.flow(edge.method).after[edge.spot]

    def is_site(self, edge: Edge) -> bool:
        """Whether the place of the derivation is the spot of an edge."""
        return (edge.method, edge.spot) == (edge.site.method, edge.site.offset)

    def is_initialised(self, name: str | None) -> bool:
        """Whether a class, or one above it, has an initialiser."""
        return name is not None and any(self.program.body(each, INITIALISER) for each in [name, *self.program.supers(name)])

    def is_described(self, call: Call) -> bool:
        """Whether stubs describe a method that a call may go to."""
        asked = call.selects, call.owner, call.key
        if asked not in self.stub_calls:
            below = [name for name in {*self.program.code, *self.program.stubs} if self.program.is_below(name, call.owner)]
            owners = [each for name in below for each in self.program.selected(name, call.key)] if call.selects else []
            owners += [] if call.selects else [self.program.declaring(call.owner, call.key)]
            self.stub_calls[asked] = any(each is None or self.program.body(each, call.key) is None for each in owners)
        return self.stub_calls[asked]

    def thrown(self, flow: Flow, offset: int, call: Call | None) -> Iterator[str]:
        """The classes of exceptions that an instruction may throw without a method of the program that is entered; Throwable stands for all."""
        yield from (f"java/lang/{each}" for each in RAISES.get(flow.opcode(offset), ()))
        if self.is_initialised(flow.initialises(offset)):
            yield from (f"java/lang/{each}" for each in OF_INITIALISATION)
        if call is not None:
            yield from self.described_throws(call.owner, call.key)

    def described_throws(self, owner: str, key: Key) -> list[str]:
        """The classes of exceptions that stubs say a call may throw."""
        if (owner, key) not in self.stub_throws:
            stubs = [stub for _, stub in self.program.described(owner, key)]
            self.stub_throws[owner, key] = [each for stub in stubs for each in stub.throws + stub.base_throws]
        return self.stub_throws[owner, key]

    # ---- facts

    def states(self, at: Edge, state: int) -> set[int]:
        """The states that an object may have behind an instruction."""
        call = self.event(at)
        return {state} if call is None else {state, self.protocol.states.index(self.protocol.next[call.key][state])}

    def keeps(self, at: Edge, fact: Fact, after: Fact) -> bool:
        """Whether the kind of a fact, its state, and whether it is about the only object may become others at the spot of an edge."""
        if fact.kind != TUPLE:
            if not self.is_site(at):
                return after.kind == fact.kind
            return after.kind in (fact.kind, SOME) or (after.kind == TUPLE and after.unique == (fact.kind == NONE))
        if after.kind != TUPLE or fact.may > after.may:
            return False
        stays = after.unique == fact.unique or (self.is_site(at) and not after.unique)
        return stays and after.state in self.states(at, fact.state)

    def unpassed(self, before: Edge, entry: Fact, slots: tuple[int, ...]) -> int:
        """How many paths of a fact with which a method is entered are not those of the caller's static fields and arguments, or the other way. An event
        may add the receiver."""
        fact = before.fact
        if is_full(fact.must) or is_full(entry.must):
            return 0
        units = {slot: unit for unit, slot in enumerate(slots)}
        passed = {path for path in fact.must if path.root == STATIC}
        passed |= {Path(SLOT, units[path.number], path.fields) for path in fact.must if path.root == SLOT and path.number in units}
        receiver = {Path(SLOT, 0)} if self.event(before) is not None else set()
        return len((passed ^ entry.must) - receiver)

    def unlike(self, before: Edge, edge: Edge) -> int:
        """How many paths of local variables, and of static fields, an instruction adds or drops that it does not write."""
        if before.method is None or not isinstance(edge.spot, int) or is_full(before.fact.must) or is_full(edge.fact.must):
            return 0
        flow = self.flow(before.method)
        stored, names_member = flow.stored(before.spot), flow.names_member(before.spot)

        def untouched(paths: frozenset[Path]) -> set[Path]:
            slots = {path for path in paths if path.root == SLOT and path.number < flow.locals and path.number != stored}
            return {path for path in slots if not path.fields} if names_member else slots | {path for path in paths if path.root == STATIC}

        return len(untouched(before.fact.must) ^ untouched(edge.fact.must)) + len(untouched(before.fact.must_not) ^ untouched(edge.fact.must_not))

    # ---- rules

    def sources(self, edge: Edge) -> set[int]:
        """From which instructions of its method the code may lead to an edge: from itself where an initialiser ended that it started."""
        spot = edge.spot
        if edge.method is None:
            return {BOOT_RETURN} if spot == RETURNED else {BOOT_CALL}
        flow = self.flow(edge.method)
        if spot == RETURNED:
            return {offset for offset in flow.heights if flow.opcode(offset) in RETURNS}
        return set(flow.heights) if spot == THROWN else flow.before.get(spot, set()) | {spot}

    def leads(self, before: Edge, edge: Edge) -> int | None:
        """How badly an edge fits to a source from which it is to follow alone; None where it cannot follow."""
        if before.spot == edge.spot and not self.loops(before):
            return None
        if not self.keeps(before, before.fact, edge.fact) or not self.goes_alone(before, edge):
            return None
        return self.unlike(before, edge)

    def goes_alone(self, before: Edge, edge: Edge) -> bool:
        """Whether an instruction may lead on without a method of the program that is entered: a call by what stubs describe, and to a handler or
        out of the method what may throw itself."""
        if before.method is None:
            return edge.spot == RETURNED
        flow = self.flow(before.method)
        call = flow.call(before.spot)
        if edge.spot == RETURNED or edge.spot in flow.after[before.spot]:
            return call is None or self.is_described(call)
        caught = flow.catches(before.spot, edge.spot) if isinstance(edge.spot, int) else [THROWABLE]
        return any(each == THROWABLE or self.program.is_below(each, upper) for each in self.thrown(flow, before.spot, call) for upper in caught)

    def enters(self, before: Edge, number: int, entry: Fact) -> int | None:
        """How badly a fact fits with which a method is entered from an edge; None where it is not."""
        if not isinstance(before.spot, int) or not self.keeps(before, before.fact, entry):
            return None
        owner, key = self.method(number)
        if before.method is None:
            is_entry = (owner, key[0]) == (self.entry_class, self.entry_name)
            is_started = key == INITIALISER and self.program.is_below(self.entry_class, owner)
            return 0 if before.spot == BOOT_CALL and (is_entry or is_started) else None
        flow = self.flow(before.method)
        named = flow.initialises(before.spot)
        if key == INITIALISER:
            return self.unpassed(before, entry, ()) if named is not None and self.program.is_below(named, owner) else None
        call = flow.call(before.spot)
        if call is None or call.key != key or not (call.selects or self.program.is_below(call.owner, owner)):
            return None
        return self.unpassed(before, entry, call.slots)

    def leaves(self, before: Edge, exit: Edge, edge: Edge) -> int | None:
        """How badly an edge fits to a source that enters a method and to an edge to an exit of that; None where it cannot follow."""
        if not self.goes_on(before, exit, edge):
            return None
        faults = self.enters(before, exit.method, exit.entry)
        if faults is None or edge.fact.kind != exit.fact.kind:
            return None
        if edge.fact.kind != TUPLE:
            return faults
        same = (edge.fact.unique, edge.fact.state) == (exit.fact.unique, exit.fact.state)
        if not same or (exit.fact.may or before.fact.may) > edge.fact.may:
            return None
        statics = [{path for path in fact.must if path.root == STATIC} for fact in (exit.fact, edge.fact)]
        differ = 0 if is_full(edge.fact.must) or is_full(exit.fact.must) else len(statics[0] ^ statics[1])
        return faults + differ + self.unlike(before, edge)

    def goes_on(self, before: Edge, exit: Edge, edge: Edge) -> bool:
        """Whether a run may go on at an edge behind one to an exit: where an initialiser ended, at the same instruction."""
        is_initialiser = self.method(exit.method)[1] == INITIALISER
        if is_initialiser and before.spot == edge.spot:
            return True
        if exit.spot == RETURNED:
            call_leads = before.method is None or edge.spot in self.flow(before.method).after[before.spot]
            return not is_initialiser and call_leads and isinstance(edge.spot, int)
        if before.method is None or not isinstance(edge.spot, int):
            return edge.spot == THROWN
        return bool(self.flow(before.method).catches(before.spot, edge.spot))


def is_full(paths: frozenset[Path]) -> bool:
    """Whether a set has as many paths as it may have, so that others may have been left out."""
    return len(paths) >= MOST_PATHS
