"""Finds, for a place, the calls in code that may run that may be events on its objects, each with its source line."""

from bodies import INVOKE_INTERFACE, INVOKE_VIRTUAL, Use
from class_file import OBJECT
from effects import Protocol, arguments
from program import Program
from reach import Method, Reach, entry_methods
from report import Place
from sarif import Moment
from story_words import spelled_event
from tracing import Source
from words import java_method, java_name, qualified


class EventCalls:
    """The calls of a run that may be events."""

    def __init__(self, program: Program, entry: str, protocol: Protocol, source: Source, callers: tuple[str, ...] = ()):
        self.program, self.source = program, source
        reach = Reach(program, entry_methods(program, entry))
        self.calls = [(method, use) for method, uses in reach.uses.items() for use in uses if method[0] not in callers
                      and use.opcode in (INVOKE_VIRTUAL, INVOKE_INTERFACE) and (use.name, use.descriptor) in protocol.events]
        self.kinds = {(method, use.offset): self.kind(reach, method, use) for method, use in self.calls}

    def kind(self, reach: Reach, method: Method, use: Use) -> str:
        """The type of the object that a call is made on."""
        taken = arguments(reach.methods[method], use, self.program)
        return taken[0] if taken and taken[0] != OBJECT else use.owner

    def may_be(self, made: str, kind: str) -> bool:
        """Whether an object of a class may be one of a type."""
        return kind != OBJECT and (self.program.is_below(made, kind) or self.program.is_below(kind, made))

    def of_place(self, place: Place) -> list[Moment]:
        """The calls that may be events on the objects of a place, by files and lines."""
        found = [self.moment(method, use) for method, use in self.calls if self.may_be(place.made, self.kinds[method, use.offset])]
        once = list({(each.text, each.file, each.line): each for each in found}.values())
        return sorted(once, key=lambda each: ("(model)" in each.text, each.file, each.line, each.text))

    def moment(self, method: Method, use: Use) -> Moment:
        """A call, with its source line; that of a model is not the library's."""
        file, line = self.source(*method, use.offset)
        model = " (model)" if method[0] in self.program.models else ""
        text = f"{spelled_event((use.name, use.descriptor))} of a {java_name(use.owner)} in {java_method(method[0], *method[1])}{model}"
        return Moment(text, qualified(method[0], *method[1]), file, line, 0)
