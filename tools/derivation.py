"""Finds from which edges of a derivation each one follows, and so the way of a run that it stands for: method by method, from the start of the
program to the last edge."""

from collections import defaultdict
from collections.abc import Iterator
from dataclasses import dataclass

from bodies import Key
from edge_rules import BOOT_CALL, EdgeRules
from edges import NONE, RETURNED, THROWN, TUPLE, Edge, Fact
from flows import INITIALISER
from library import Unusable
from numbering import OTHER_RUN, Method

# A reason, with how many paths of the facts do not fit to it.
Fit = tuple[int, "Reason"]


@dataclass(frozen=True)
class Reason:
    """From which edges one follows, by their places: from one, which may enter the method of this one, and perhaps from one to an exit of a
    method that the first enters."""
    by: int = -1
    exit: int = -1
    enters: bool = False

    @property
    def time(self) -> int:
        """The place from which on it can be seen to follow."""
        return max(self.by, self.exit)


@dataclass
class Step:
    """A step of a run within a method: from an edge to one. Where a method was entered and left in between, `exit` is the place of the edge to its
    exit, and else -1."""
    before: Edge
    after: Edge
    exit: int = -1


@dataclass
class Frame:
    """A part of a run that stays in one method: its steps, and its first edge with that of the caller, which the start of the program has not."""
    method: Method
    first: Edge
    steps: list[Step]
    caller: Edge | None = None


class Derivation:
    """The edges of a place, each with its reason. Those that were looked at are in `at` by method, entry and spot, and in `calling` by what they call
    or initialise; in `begun` are methods with the facts with which they are entered."""

    def __init__(self, edges: list[Edge], rules: EdgeRules):
        self.edges, self.rules = edges, rules
        self.at: dict[tuple[int | None, Fact, int | str], list[int]] = defaultdict(list)
        self.calling: dict[Key, list[int]] = defaultdict(list)
        self.begun: dict[Key, dict[tuple[int, Fact], None]] = defaultdict(dict)
        self.reasons: list[Reason] = []
        self.check_ends()
        for place in range(len(edges)):
            self.reasons.append(self.find(place))
            self.note(place)

    def check_ends(self) -> None:
        """Sees that the start of the program stands first, and the error state last."""
        first, last = self.edges[0], self.edges[-1].fact
        starts = (first.method, first.entry, first.spot, first.fact) == (None, Fact(NONE), BOOT_CALL, Fact(NONE))
        if not starts or last.kind != TUPLE or last.state != self.rules.protocol.states.index(self.rules.protocol.error):
            raise Unusable(f"a derivation does not lead from the start of the program to the error state: {OTHER_RUN}")

    def note(self, place: int) -> None:
        """Takes an edge to those from which others may follow."""
        edge = self.edges[place]
        self.at[edge.method, edge.entry, edge.spot].append(place)
        if edge.method is None:
            return
        self.begun[self.rules.method(edge.method)[1]][edge.method, edge.entry] = None
        if not isinstance(edge.spot, int):
            return
        flow = self.rules.flow(edge.method)
        if edge.spot not in flow.heights:
            raise Unusable(f"the report has an edge to the offset {edge.spot} of {self.rules.method(edge.method)[0]}, where no instruction is: {OTHER_RUN}")
        call = flow.call(edge.spot)
        if call is not None:
            self.calling[call.key].append(place)
        if flow.initialises(edge.spot) is not None:
            self.calling[INITIALISER].append(place)

    # ---- the run

    def frame(self, place: int) -> tuple[Frame, int]:
        """The steps within its method to an edge, and the place of the first edge there."""
        method, steps = self.rules.method(self.edges[place].method), []
        while place > 0 and not self.reasons[place].enters:
            reason = self.reasons[place]
            steps.append(Step(self.edges[reason.by], self.edges[place], reason.exit))
            place = reason.by
        return Frame(method, self.edges[place], steps[::-1]), place

    def frames(self) -> list[Frame]:
        """The methods that a run has entered and not left at the last edge, from the start of the program on."""
        frame, first = self.frame(len(self.edges) - 1)
        found = [frame]
        while first > 0:
            caller = self.reasons[first].by
            found[-1].caller = self.edges[caller]
            frame, first = self.frame(caller)
            found.append(frame)
        return found[::-1]

    # ---- reasons

    def find(self, place: int) -> Reason:
        """From which earlier edges an edge follows: of those that fit best the ones that are seen first, but not before those of the edge above it.
        An exit of a method that was first entered from the same edge comes before other exits, and one with an exit before one alone."""
        if place == 0:
            return Reason()
        edge = self.edges[place]
        found = [*self.entering(edge)] if self.begins(edge) else [*self.staying(edge)]
        if not found:
            raise Unusable(f"the edge {place + 1} of a derivation follows from none above it: {OTHER_RUN}")
        last = self.reasons[-1].time
        own = [each for each in found if not self.is_of_other(each[1])]
        found = own if any(each.exit >= 0 for _, each in own) else found
        return min(found, key=lambda each: (each[0], each[1].time < last, each[1].time, each[1].exit < 0))[1]

    def is_of_other(self, reason: Reason) -> bool:
        """Whether a reason has an exit of a method that was first entered from another edge."""
        if reason.exit < 0:
            return False
        exit = self.edges[reason.exit]
        return self.reasons[self.at[exit.method, exit.entry, 0][0]].by != reason.by

    def begins(self, edge: Edge) -> bool:
        """Whether an edge is the first of a method with its entry."""
        return edge.method is not None and (edge.method, edge.entry) not in self.begun[self.rules.method(edge.method)[1]]

    def entering(self, edge: Edge) -> Iterator[Fit]:
        """The edges that may enter the method of an edge."""
        key = self.rules.method(edge.method)[1]
        for place in [*self.at[None, Fact(NONE), BOOT_CALL], *self.calling[key]] if edge.spot == 0 else []:
            faults = self.rules.enters(self.edges[place], edge.method, edge.entry)
            if faults is not None:
                yield faults, Reason(place, enters=True)

    def staying(self, edge: Edge) -> Iterator[Fit]:
        """The edges of its own method from which an edge may follow, alone or with one to an exit."""
        for place in [place for spot in self.rules.sources(edge) for place in self.at[edge.method, edge.entry, spot]]:
            faults = self.rules.leads(self.edges[place], edge)
            if faults is not None:
                yield faults, Reason(place)
            yield from self.leaving(place, edge)

    def leaving(self, place: int, edge: Edge) -> Iterator[Fit]:
        """An edge with those to exits of what it enters, from which another one may follow."""
        before = self.edges[place]
        for exit in [exit for entered in self.entered(before) for spot in (RETURNED, THROWN) for exit in self.at[*entered, spot]]:
            faults = self.rules.leaves(before, self.edges[exit], edge)
            if faults is not None:
                yield faults, Reason(place, exit)

    def entered(self, edge: Edge) -> list[tuple[int, Fact]]:
        """The methods that an edge may enter, as far as there are edges of them, each with a fact."""
        if edge.method is None:
            return [each for begun in self.begun.values() for each in begun]
        flow, found = self.rules.flow(edge.method), []
        call = flow.call(edge.spot)
        if call is not None:
            found += self.begun[call.key]
        return found + (list(self.begun[INITIALISER]) if flow.initialises(edge.spot) is not None else [])
