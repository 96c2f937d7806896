"""Tells a derivation as a story: what happens to an object of an unproved place on a way that leads to the error state, step by step. What changes
nothing is left out."""

import sys
from collections.abc import Iterator
from dataclasses import replace

from class_file import BRIDGE
from derivation import Derivation, Frame, Step
from edges import RETURNED, SLOT, STATIC, THROWN, TUPLE, Fact, Path
from flows import INITIALISER
from story_steps import StepTeller, Told, Weight
from story_words import Names

# Calls stand within calls, as deep as in the program.
sys.setrecursionlimit(20000)


class Story:
    """The story of a derivation."""

    def __init__(self, derivation: Derivation, names: Names):
        self.derivation, self.rules, self.names = derivation, derivation.rules, names
        self.steps = StepTeller(derivation.rules, names)
        self.left: set[int] = set()

    def told(self) -> list[Told]:
        """Its steps, in order."""
        found: list[Told] = []
        for depth, frame in reversed(list(enumerate(self.derivation.frames()))):
            found = settled([*self.of_frame(frame, depth), *found])
            found = [*self.entering(frame, depth - 1, is_told=True), *found]
        return ordered(found)

    def of_frame(self, frame: Frame, depth: int) -> Iterator[Told]:
        """What is told of the steps within a method."""
        for step in frame.steps:
            yield from self.steps.of_step(step, depth) if step.exit < 0 else self.of_call(step, depth)

    # ---- calls

    def entering(self, frame: Frame, depth: int, is_told: bool) -> Iterator[Told]:
        """What is told where a method is entered: the event, or else that it is entered, where something of it is told."""
        if frame.caller is None:
            return
        events = list(self.steps.event(frame.caller, frame.first.fact.state, depth))
        yield from events
        if is_told and not any(each.weight == Weight.KEY for each in events):
            yield from self.entered(frame, depth)

    def entered(self, frame: Frame, depth: int) -> Iterator[Told]:
        """That a method is entered, and how it has the object."""
        caller, callee = frame.caller, self.names.whole(frame.method)
        if caller.method is None:
            if frame.first.fact.kind == TUPLE:
                yield Told(frame.method, 0, depth + 1, f"{callee} is entered")
            return
        if self.is_inner(frame):
            return
        if frame.method[1] == INITIALISER:
            yield self.steps.at(caller, depth, f"{callee} runs")
            return
        yield self.steps.at(caller, depth, f"{self.steps.brief(caller)} {self.calls(frame, callee)}")

    def is_inner(self, frame: Frame) -> bool:
        """Whether a call stands in no source of the program: in a model, of a model, or in a bridge method of the compiler (JVMS 4.6)."""
        program, (owner, key) = self.rules.program, self.rules.method(frame.caller.method)
        return {frame.method[0], owner} <= program.models or (owner in program.code and program.code[owner].methods[key].has(BRIDGE))

    def calls(self, frame: Frame, callee: str) -> str:
        """That a method is called, and how it has the object."""
        flow = self.rules.flow(frame.first.method)
        paths = sorted((path for path in frame.first.fact.must if path.root == SLOT), key=lambda each: (len(each.fields), each.number, each.fields))
        if not paths:
            return f"calls {callee}"
        said = self.names.path(flow, paths[0], 0).replace("the parameter", "its parameter")
        if paths[0].fields:
            return f"calls {callee}, where it is {said}"
        if said == "this":
            return f"calls {callee} on it"
        return f"gives it to {callee}" + (f", as {said}" if len(flow.parameters) > 1 or " " not in said else "")

    def of_call(self, step: Step, depth: int) -> Iterator[Told]:
        """What is told of a step in which a method was entered and left."""
        frame, _ = self.derivation.frame(step.exit)
        frame.caller = step.before
        inside = self.inside(frame, step.exit, depth + 1)
        is_told = any(each.weight == Weight.KEY for each in inside)
        yield from self.entering(frame, depth, is_told)
        yield from inside if is_told else [each for each in inside if each.weight == Weight.OTHER]
        if step.before.method is None:
            return
        if not (is_told and self.derivation.edges[step.exit].fact.may):
            yield from self.steps.lost(step, depth)
        if is_told and not self.is_inner(frame):
            yield from self.back(step, depth)
        elif step.after.fact.kind == TUPLE:
            yield from self.steps.thrown(step, depth)

    def inside(self, frame: Frame, exit: int, depth: int) -> list[Told]:
        """What is told of a method that was left: where it changes nothing, events that are taken for ones of other objects alone; and nothing where
        it was told before."""
        if exit in self.left or self.derivation.edges[exit].fact.kind != TUPLE:
            return []
        self.left.add(exit)
        found = settled(list(self.of_frame(frame, depth)))
        if is_changed(frame.first.fact, self.derivation.edges[exit].fact):
            return found
        return [each for each in found if each.weight == Weight.OTHER]

    def back(self, step: Step, depth: int) -> Iterator[Told]:
        """That a method goes on behind a call."""
        exit, caller = self.derivation.edges[step.exit], self.steps.brief(step.before)
        if exit.spot == THROWN and step.before.spot != step.after.spot:
            if self.steps.is_caught(step):
                caught = self.steps.handler_words(step.before, step.after.spot)
                text = f"back in {caller} by an exception, which leaves {self.leaving(step.exit)} and is caught {caught}"
                yield self.steps.at(step.before, depth, text, Weight.BACK)
            return
        is_given = Path(RETURNED) in exit.fact.must
        yield self.steps.at(step.before, depth, f"it is returned to {caller}" if is_given else f"back in {caller}", Weight.BACK)

    def leaving(self, exit: int) -> str:
        """The method that an exception leaves, and the line of that."""
        frame, _ = self.derivation.frame(exit)
        last = frame.steps[-1].before
        line = self.rules.flow(last.method).body.line(last.spot)
        return self.names.brief(frame.method) + (f" at line {line}" if line else "")


def is_changed(entry: Fact, exit: Fact) -> bool:
    """Whether a method changes more than the paths of its own slots."""
    statics = [{path for path in fact.must if path.root == STATIC} for fact in (entry, exit)]
    return (entry.kind, entry.unique, entry.state, entry.may) != (exit.kind, exit.unique, exit.state, exit.may) or statics[0] != statics[1]


def settled(found: list[Told]) -> list[Told]:
    """The steps of a method without those of its way behind which nothing is told that always is; of a loop, nothing within it."""
    return [each for place, each in enumerate(found) if each.weight != Weight.WAY or any(leads_to(each, behind) for behind in found[place + 1:])]


def leads_to(each: Told, behind: Told) -> bool:
    """Whether a step of the way helps to see how a later one is come to."""
    if behind.weight != Weight.KEY:
        return False
    return each.loop is None or (behind.depth == each.depth and each.loop <= behind.offset <= each.offset)


def ordered(found: list[Told]) -> list[Told]:
    """The steps that are told after all: no doubts where each later event is sure, and only the last of steps back. Of their depths those are counted at
    which something is told."""
    unsure = max((place for place, each in enumerate(found) if each.unsure), default=-1)
    kept = [each for place, each in enumerate(found) if each.weight not in (Weight.DOUBT, Weight.OTHER) or place < unsure]
    kept = [each for each, behind in zip(kept, [*kept[1:], None]) if not repeats(each, behind)]
    depths = sorted({each.depth for each in kept})
    return [replace(each, depth=depths.index(each.depth)) for each in kept]


def repeats(each: Told, behind: Told | None) -> bool:
    """Whether the step behind says what is to be known of a step: it goes back further, or is the same."""
    if behind is None:
        return False
    return each.weight == behind.weight == Weight.BACK or (each.method, each.offset, each.text) == (behind.method, behind.offset, behind.text)
