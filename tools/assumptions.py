"""What a verdict rests on besides the proof: each assumption on the library, in what may run, that could make a `safe` wrong. A list of
them has a line for each: its kind, what it is about, and the source line; a file with such lines names those that somebody takes over."""

import os
from collections.abc import Iterable, Iterator
from dataclasses import dataclass, field, replace

import facts
from bodies import CALLS, CAST, CLASS_CONSTANT, GETSTATIC, INSTANCE, INVOKE_INTERFACE, INVOKE_SPECIAL, INVOKE_STATIC, NULL, OBJECT_RETURN, PUTFIELD, PUTSTATIC, TEXT_CONSTANT, Key, Use, named_type, parameter_types, result_type
from class_file import OBJECT, element_class
from effects import CONTAINERS, Declared, Effects, arguments, read_protocol
from facts import LIBRARY, OF_THE_MACHINE, UNCHECKED, VALUES
from library import Unusable, jdk_folder, open_jdk
from program import Program
from report import Place
from reach import LibraryCall, Method, Reach, entry_methods
from source_lines import Sources
from words import java_name, qualified

KINDS: dict[str, str] = {
    "call-back": "a method of the library may call methods of the program's objects, or of those of the protocol, and no description says so",
    "contents": "what the library puts into an array or a container, or takes out of one, is not followed",
    "cached": "an object that the library gives may be one that it gave before",
    "held": "an object that the library gives may be closed or used by the library itself later",
    "exceptions": "a handler catches an exception of the library that the stub file does not list",
    "machine": "the machine throws no error of its own, as StackOverflowError or OutOfMemoryError; a handler catches such errors",
    "supertype": "a class is used in place of one below it, and the base stubs do not have it above that one",
    "cast": "an object of one type of the library is none of another one that is neither above nor below it",
    "selection": "a call by an interface selects a private method, as in Java 8",
    "reflection": "the library may make objects of the program's classes by their names, and run their code",
    "static": "what a static field of the library holds is that of the start, and no place of the report",
    "native": "a native method of the program does what its description says",
    "values": "objects of the classes in tools/facts/value_classes that the library gives back are not followed",
    "callers": "callers do no more than the entry public looks at",
    "cut-out": "an instruction that the verifier refuses is cut out: it is taken to run no code of the program, to keep what it is given, and to give any object of its type",
}
MAKES_OBJECTS = "makes_objects"
# The errors that the machine throws at any instruction (JVMS 6.3), and those above them but for what every handler of all exceptions names.
ERRORS_OF_MACHINE = [f"java/lang/{name}" for name in ("StackOverflowError", "OutOfMemoryError", "InternalError", "UnknownError", "VirtualMachineError", "Error")]
ANY = ("any", "java/lang/Throwable", "java/lang/Exception")
# The first stage that asks for the order of events, and so for what code is reached after what.
LATER = 2


@dataclass(frozen=True)
class Assumption:
    """An assumption: its kind, what it is about, where, and why, as texts. `place` is the method and offset of the place that it bears on,
    or None where it bears on each one; `stage` the first stage on whose verdicts it bears; `calls` the methods that may be called, each with its
    class and what may come of that."""
    kind: str
    about: str
    where: str
    why: str = ""
    place: tuple[Method, int] | None = None
    stage: int = 1
    calls: tuple[tuple[str, str, str], ...] = field(default=(), compare=False)

    @property
    def line(self) -> str:
        """The assumption as a line names it."""
        return f"{self.kind} {self.about}" + (f" at {self.where}" if self.where else "")

    @property
    def spelled(self) -> str:
        """The line as it is printed."""
        return self.line + (f": {self.why}" if self.why else "")


@dataclass
class RunWords:
    """What a run was given beside the folder: the names of the property file and of the stub file in the folder, the entry, the JDK, and the
    classes that the jars name below META-INF/services."""
    property: str
    stubs: str = ""
    entry: str = ""
    jdk: str | None = None
    providers: list[str] = field(default_factory=list)


class Finder:
    """Finds the assumptions of a run."""

    def __init__(self, reach: Reach, effects: Effects, sources: Sources, providers: list[str]):
        self.providers = providers
        self.reach, self.effects, self.sources, self.program = reach, effects, sources, reach.program
        self.protocol = effects.protocol
        self.calls = [each for each in reach.library.values() if each.use.owner != LIBRARY]
        self.taken = {id(each): arguments(reach.methods[each.method], each.use, self.program, each.owner) for each in self.calls}
        self.leaked = self.leaks()

    def all(self) -> list[Assumption]:
        """All of them, by kind, and then by place."""
        found = dict.fromkeys(each for part in (self.of_calls, self.of_handlers, self.of_machine, self.of_supertypes, self.of_natives, self.of_fields, self.of_enums, self.of_models, self.of_names, self.of_casts, self.of_private, self.of_values)
                              for each in part())
        return sorted(found, key=lambda each: (list(KINDS).index(each.kind), each.line))

    # ---- places in words

    def where(self, method: Method, offset: int) -> str:
        """The source file and line of an instruction, or its class where they are not known."""
        file, line = self.sources.at(method[0], method[1], offset)
        return f"{file}:{line}" if line else f"{java_name(method[0])}.{method[1][0]}:{offset}"

    def called(self, call: LibraryCall) -> str:
        """What is called."""
        return qualified(call.owner, *call.key)

    def at_call(self, kind: str, call: LibraryCall, why: str = "", here: bool = False, found: Iterable[Method] = ()) -> Assumption:
        """An assumption on a call; `here` where it bears on the objects of this call alone; `found` are the methods that may be called."""
        place = (call.method, call.use.offset) if here else None
        return Assumption(kind, self.called(call), self.where(call.method, call.use.offset), why, place, calls=self.spelled_calls(found))

    def spelled_calls(self, found: Iterable[Method]) -> tuple[tuple[str, str, str], ...]:
        """Methods with a danger, each with its class and what may come of it."""
        return tuple((name, key[0], self.effects.dangers[name][key]) for name, key in found)

    # ---- what the library has

    def leaks(self) -> list[str]:
        """The classes that the library has objects of: those that have a danger, and that are given to it to keep."""
        kinds: dict[str, None] = {}
        for call in self.calls:
            if not self.effects.keeps_nothing(call.owner, call.key):
                kinds.update(dict.fromkeys(filter(None, map(element_class, self.taken[id(call)]))))
        for method, use in self.all_uses():
            if use.opcode in (PUTFIELD, PUTSTATIC) and self.program.declaring_field(use.owner, use.name) is None:
                kinds[element_class(named_type(use.descriptor) or NULL) or NULL] = None
            elif use.opcode in CALLS and self.effects.storing & self.targets(use):
                taken = arguments(self.reach.methods[method], use, self.program)
                kinds.update(dict.fromkeys(filter(None, map(element_class, taken))))
        for name in self.reach.made:
            if name in self.program.code:
                for key in self.effects.overrides(name):
                    for each in self.program.selected(name, key):
                        kinds.update(dict.fromkeys(filter(None, map(element_class, self.effects.gives(each, key)))))
        kinds.pop(NULL, None)
        return [name for name in self.effects.dangers if any(self.program.is_below(name, kind) for kind in kinds)]

    def targets(self, use: Use) -> set[str]:
        """The classes whose method a call may run."""
        key = use.name, use.descriptor
        if use.opcode in (INVOKE_STATIC, INVOKE_SPECIAL):
            return {self.program.declaring(use.owner, key) or use.owner}
        return self.reach.selects.get((key, use.owner), set())

    # ---- calls of the library

    def of_calls(self) -> Iterator[Assumption]:
        """What is assumed of calls that may reach the library."""
        for call in self.calls:
            yield from self.call_backs(call)
            yield from self.contents(call)
            yield from self.results(call)
            if call.owner == "java/lang/System" and call.use.name in ("setOut", "setErr", "setIn"):
                yield self.at_call("static", call, f"System.{call.use.name[3:].lower()} is taken for what it was at the start")
            if self.makes_objects(call):
                yield self.at_call("reflection", call)

    def makes_objects(self, call: LibraryCall) -> bool:
        """Whether a call may make objects of classes by their names."""
        if self.program.said(MAKES_OBJECTS, call.owner, call.key) is not None:
            return True
        given = call.use.opcode != INVOKE_STATIC and call.owner == "java/lang/Class"
        return not given and "Ljava/lang/Class;" in parameter_types(call.use.descriptor) and self.effects.calls(call.owner, call.key) is None

    def call_backs(self, call: LibraryCall) -> Iterator[Assumption]:
        """What a call may call back."""
        calls = self.effects.calls(call.owner, call.key)
        found = self.on_receiver(call)
        if calls != []:
            had = self.effects.dangers if self.effects.is_of_any(call.owner, call.key) else self.leaked
            names = dict.fromkeys([*had, *self.dangerous(call, calls is not None)])
            found += [(name, key) for name in names for key in self.effects.dangers[name] if calls is None or self.allows(calls, name, key)]
        if found:
            name, key = found[0]
            others = len({(each, member[0]) for each, member in found}) - 1
            more = f"; and {others} more" if others else ""
            yield self.at_call("call-back", call, f"it may call {key[0]} of {java_name(name)}, and of that {self.effects.dangers[name][key]}{more}", found=found)

    def on_receiver(self, call: LibraryCall) -> list[Method]:
        """The methods with a danger that a call may call on its own receiver, where that may be of a class of the program."""
        if call.use.opcode == INVOKE_STATIC or not self.taken[id(call)] or self.effects.is_alone(call.owner, call.key):
            return []
        kind = self.taken[id(call)][0]
        below = [name for name in self.effects.dangers if name in self.program.code and self.program.is_below(name, kind) and
                 self.program.is_below(name, call.owner)]
        return [(name, key) for name in below for key in self.effects.open_keys(name, call.owner) if key in self.effects.dangers[name]]

    def of_models(self) -> Iterator[Assumption]:
        """What models may call on their own objects, where these are of a class of the program below them, and the model was not compared with the
        library in this."""
        compared = facts.names_of("own_calls")
        for method, use in self.all_uses():
            if use.opcode not in CALLS or use.opcode == INVOKE_STATIC or use.name == "<init>":
                continue
            kind = arguments(self.reach.methods[method], use, self.program)[0]
            for model in (self.targets(use) & self.program.models) - compared:
                below = [name for name in self.effects.dangers if name not in self.program.models and name in self.program.code
                         and self.program.is_below(name, kind) and self.program.is_below(name, model)]
                found = [(name, key) for name in below for key in self.effects.open_keys(name, model) if key in self.effects.dangers[name]]
                if found:
                    name, key = found[0]
                    why = f"it may call {key[0]} of {java_name(name)}, and of that {self.effects.dangers[name][key]}"
                    yield Assumption("call-back", qualified(model, use.name, use.descriptor), self.where(method, use.offset), why,
                                     calls=self.spelled_calls(found))

    def dangerous(self, call: LibraryCall, is_listed: bool) -> list[str]:
        """The classes with a danger of which a call may take objects. What an object of the library does with itself, in a call that is an event
        or one that is listed, is that call."""
        kinds = [each for each in map(element_class, self.taken[id(call)]) if each and each != NULL]
        is_own = call.use.opcode != INVOKE_STATIC and (is_listed or call.key in self.protocol.events)
        found = [name for name in self.effects.dangers if any(self.program.is_below(name, kind) for kind in kinds[is_own:])]
        if is_own and kinds:
            found += [name for name in self.effects.dangers if name in self.program.code and self.program.is_below(name, kinds[0])]
        return found

    def allows(self, calls: list[str], name: str, key: Key) -> bool:
        """Whether a method that may call these may call this one of an object of a class."""
        for word in self.effects.with_inherited(calls, name) if name in self.program.code else calls:
            upper, _, method = word.partition(".")
            if self.program.is_below(name, upper) and (key[0] == method or not method and self.is_declared(name, key, upper)):
                return True
        return False

    def is_declared(self, name: str, key: Key, upper: str) -> bool:
        """Whether a class of the library declares a method, of an object of a class of the folder or of the library."""
        return name not in self.program.code or key in self.effects.open_keys(name, upper)

    def contents(self, call: LibraryCall) -> Iterator[Assumption]:
        """What a call may do with elements."""
        outcome, after = named_type(result_type(call.use.descriptor)), call.use.after
        given = "" if after == "pop" else after if after.startswith("[") else outcome
        if self.program.said("no_elements", call.owner, call.key) is not None:
            if outcome.startswith("[") and self.effects.is_tracked(element_class(outcome) or ""):
                yield self.of_elements(call, outcome)
            elif has_references(given):
                yield self.of_elements(call, given, LATER)
            return
        is_copy = (call.owner, call.use.name) == ("java/lang/System", "arraycopy")
        moved = [*self.taken[id(call)], given]
        arrays = [kind for kind in moved if self.has_elements(kind) or is_copy and kind == OBJECT]
        others = [kind for kind in moved if has_references(kind)]
        if arrays:
            yield self.of_elements(call, arrays[0])
        elif self.gives_container(outcome, call):
            yield self.at_call("contents", call, f"elements of its {java_name(outcome)} are taken for the program's own")
        elif others:
            yield self.of_elements(call, others[0], LATER)

    def of_elements(self, call: LibraryCall, kind: str, stage: int = 1) -> Assumption:
        """That the elements of an array are not followed. Of those that no place is about the first stage asks nothing; but to the later ones a
        call on such an element leads nowhere, and so does what comes after it."""
        return replace(self.at_call("contents", call, f"elements of {java_name(kind)} are not followed"), stage=stage)

    def has_elements(self, kind: str) -> bool:
        """Whether a type is that of an array with elements that matter."""
        return kind.startswith("[") and element_class(kind) not in VALUES | {None}

    def gives_container(self, outcome: str, call: LibraryCall) -> bool:
        """Whether a call gives a container of the library's own making that may hold objects of the protocol's class."""
        if not any(self.program.is_below(outcome, upper) for upper in CONTAINERS) or self.protocol.class_name in self.program.code:
            return False
        return self.casts_to_tracked() and not self.is_fresh(call)

    def casts_to_tracked(self) -> bool:
        """Whether the program casts to a class whose objects may be of the protocol's class."""
        if not hasattr(self, "casts"):
            self.casts = any(use.opcode == CAST and use.owner != OBJECT and self.effects.is_related(use.owner)
                             for method, uses in self.reach.uses.items() if method[0] not in self.program.models for use in uses)
        return self.casts

    def is_fresh(self, call: LibraryCall) -> bool:
        """Whether a list says that what a call gives was never given before."""
        return self.program.said("fresh_results", call.owner, call.key) is not None

    def results(self, call: LibraryCall) -> Iterator[Assumption]:
        """What a call gives, where it is an object of the protocol's class."""
        outcome = named_type(result_type(call.use.descriptor))
        if not outcome or outcome.startswith("[") or not self.effects.is_related(outcome):
            return
        news = {word[4:] for _, stub in self.program.described(call.owner, call.key) for word in stub.returns if word.startswith("new:")}
        if not any(self.effects.is_tracked(name) for name in news):
            return
        said = self.program.said("fresh_results", call.owner, call.key)
        if said is None:
            yield self.at_call("cached", call, here=True)
        elif "held" in said:
            yield self.at_call("held", call, here=True)

    # ---- other instructions

    def of_fields(self) -> Iterator[Assumption]:
        """Static fields of the library that hold arrays, or objects of the protocol's class, of which no place is listed."""
        taken = {kind for method, use in self.all_uses() for kind in self.moved(method, use)}
        for method, use in self.all_uses():
            if use.opcode != GETSTATIC or self.program.declaring_field(use.owner, use.name) is not None:
                continue
            kind = named_type(use.descriptor)
            if has_references(kind):
                about, stage = f"{java_name(use.owner)}.{use.name}", 1 if self.has_elements(kind) else LATER
                yield Assumption("contents", about, self.where(method, use.offset), "its elements are not followed", stage=stage)
            elif kind and self.effects.is_tracked(kind) and any(self.program.is_below(each, kind) for each in taken):
                yield Assumption("static", f"{java_name(use.owner)}.{use.name}", self.where(method, use.offset), "what it holds is no place of the report")

    def moved(self, method: Method, use: Use) -> list[str]:
        """The types of objects that are given on by an instruction: those of an event's receiver, of arguments in the program, and of fields."""
        body = self.reach.methods[method]
        if use.opcode in (PUTFIELD, PUTSTATIC, OBJECT_RETURN):
            return body.takes(use.offset, self.program.join)[-1:]
        if use.opcode not in CALLS:
            return []
        kinds = arguments(body, use, self.program)
        is_event = (use.name, use.descriptor) in self.protocol.events
        return kinds[use.opcode != INVOKE_STATIC and not is_event:]

    def of_enums(self) -> Iterator[Assumption]:
        """Objects of enum classes that nothing else initialises: the library may do so, and give the constants."""
        for method, use in self.all_uses():
            found = self.program.code.get(use.owner) if use.opcode == CLASS_CONSTANT else None
            if found and found.super_class == "java/lang/Enum" and use.owner not in self.reach.started:
                yield Assumption("reflection", java_name(use.owner), self.where(method, use.offset), "the library may initialise it")

    def all_uses(self) -> Iterator[tuple[Method, Use]]:
        """The instructions that may run, and that are not in models."""
        for method, uses in self.reach.uses.items():
            if method[0] not in self.program.models:
                yield from ((method, use) for use in uses)

    def of_natives(self) -> Iterator[Assumption]:
        """Native methods of the folder that may run."""
        for name, key in self.reach.natives:
            if name not in self.program.models:
                yield Assumption("native", qualified(name, *key), "")

    def of_supertypes(self) -> Iterator[Assumption]:
        """Uses of a supertype that the base stubs leave out, where objects of a class below it are made."""
        below: dict[str, list[str]] = {}
        for name, uppers in facts.lines_of("cut_supertypes").items():
            for upper in uppers if any(self.program.is_below(each, name) for each in self.reach.made) else ():
                below.setdefault(upper, []).append(name)
        for method, use in self.all_uses():
            named = named_type(result_type(use.descriptor)) if use.opcode in CALLS else ""
            for upper in (use.owner if use.opcode in CALLS or use.opcode in (CAST, INSTANCE) else "", named):
                if upper in below:
                    why = f"the base stub of {java_name(below[upper][0])} does not have it above itself"
                    yield Assumption("supertype", java_name(upper), self.where(method, use.offset), why)

    def of_names(self) -> Iterator[Assumption]:
        """Classes of the program that a text names, or a list of providers in a jar: the library may make objects of them by that."""
        for method, use in self.all_uses():
            name = use.owner.replace(".", "/") if use.opcode == TEXT_CONSTANT else ""
            if name in self.program.code and name not in self.program.models and self.could_matter(name):
                yield Assumption("reflection", java_name(name), self.where(method, use.offset), "a text names it")
        for name in self.providers:
            if name in self.program.code and self.could_matter(name):
                yield Assumption("reflection", java_name(name), "", "a file below META-INF/services names it")

    def could_matter(self, name: str) -> bool:
        """Whether some method of a class could matter if the library called it."""
        ways = [each for each in [name, *self.program.supers(name)] if each in self.program.code and each not in self.program.models]
        return any(self.effects.why(name, each, key) for each in ways for key in self.program.code[each].methods)

    def of_casts(self) -> Iterator[Assumption]:
        """Casts and tests that lead from one type of the library to one that is neither above nor below it, where no object that is described
        is of both."""
        for method, use in self.all_uses():
            if use.opcode not in (CAST, INSTANCE) or use.owner.startswith("[") or use.owner in self.program.code.keys() - self.program.models:
                continue
            seen = self.reach.methods[method].takes(use.offset, self.program.join)[-1:]
            kind = seen[0] if seen else ""
            if self.is_across(kind, use.owner):
                why = f"no {java_name(kind)} that is described is one"
                yield Assumption("cast", java_name(use.owner), self.where(method, use.offset), why)

    def is_across(self, kind: str, upper: str) -> bool:
        """Whether objects of two types may be the same in the library, and none that is made is of both."""
        if kind in VALUES | {NULL, "", OBJECT} or kind[0] in "[12" or kind in self.program.code.keys() - self.program.models:
            return False
        if self.program.is_below(kind, upper) or self.program.is_below(upper, kind):
            return False
        return not any(self.program.is_library(name) and self.program.is_below(name, kind) and self.program.is_below(name, upper) for name in self.reach.made)

    def of_private(self) -> Iterator[Assumption]:
        """Calls by an interface that select a private method in Java 8: a later Java selects another one."""
        for method, use in self.all_uses():
            key = use.name, use.descriptor
            hidden = [name for name in self.targets(use) if self.program.is_private(name, key)] if use.opcode == INVOKE_INTERFACE else []
            if hidden:
                yield Assumption("selection", qualified(hidden[0], *key), self.where(method, use.offset), "it is private")

    def of_values(self) -> Iterator[Assumption]:
        """Whether the protocol is one of objects that are not followed through the library."""
        above = next((name for name in sorted(VALUES) if self.program.is_below(name, self.protocol.class_name)), None)
        if above:
            yield Assumption("values", java_name(self.protocol.class_name), "", f"{java_name(above)} is such a class")

    # ---- handlers

    def of_handlers(self) -> Iterator[Assumption]:
        """Exceptions of the library that are caught, and that a method of the stub file which is called does not list. The first stage looks at
        a handler whatever comes there; so of one that catches all kinds only the order matters."""
        stubs = {(name, call.key): stub.throws for call in self.calls for name, stub in self.program.described(call.owner, call.key)
                 if not stub.is_base and not stub.is_abstract}
        lacking = {each: self.lacking(each, stubs) for each in self.caught()}
        for method, body in self.reach.methods.items():
            for handler in body.handlers() if method[0] not in self.program.models else ():
                name = "java/lang/RuntimeException" if handler.catches in ANY else handler.catches
                if lacking.get(name):
                    stage = LATER if handler.catches in (*ANY, "java/lang/RuntimeException") else 1
                    yield Assumption("exceptions", java_name(name), self.where(method, handler.target), f"as from {lacking[name]}", stage=stage)

    def of_machine(self) -> Iterator[Assumption]:
        """Handlers of the program that name an error of the machine, which the analysis takes not to come."""
        for method, body in self.reach.methods.items():
            for handler in body.handlers() if method[0] not in self.program.models else ():
                if handler.catches in ERRORS_OF_MACHINE:
                    yield Assumption("machine", java_name(handler.catches), self.where(method, handler.target), "what runs behind it is not looked at as "
                                     "what follows such an error")

    def lacking(self, name: str, stubs: dict[Method, list[str]]) -> str:
        """A method of the stub file that may throw an exception and does not list it, or an empty text."""
        for (owner, key), throws in stubs.items():
            if owner in self.program.models or any(self.program.is_below(each, name) for each in throws):
                continue
            listed = self.program.said("throws", owner, key)
            if listed is None or any(self.program.is_below(name, each) or self.program.is_below(each, name) for each in listed):
                return qualified(owner, *key)
        return ""

    def caught(self) -> set[str]:
        """The unchecked exceptions of the library that the program catches."""
        names = {handler.catches for method, body in self.reach.methods.items() if method[0] not in self.program.models
                 for handler in body.handlers()}
        names = {"java/lang/RuntimeException" if name in ANY else name for name in names}
        return {name for name in names if self.program.is_library(name) and self.is_unchecked(name)}

    def is_unchecked(self, name: str) -> bool:
        """Whether an exception need not be declared, and comes not from the machine itself."""
        return any(self.program.is_below(name, upper) for upper in UNCHECKED) and not any(self.program.is_below(name, upper) for upper in OF_THE_MACHINE)


@dataclass
class Resting:
    """What the safe places of a run rest on: the assumptions that are open, and those that somebody took over. `looked` says whether
    assumptions were looked for at all."""
    open: list[Assumption]
    taken: list[Assumption]
    looked: bool = True

    def bearing(self, place: Place) -> list[Assumption]:
        """The open assumptions that bear on a place."""
        return [each for each in self.open if bears(each, place)]

    def without_places(self) -> "Resting":
        """Those that bear on whether there is a place at all: the points-to analysis says so, which asks for no order."""
        opened, taken = ([each for each in some if each.stage < LATER] for some in (self.open, self.taken))
        return Resting(opened, taken)

    def taken_for(self, place: Place) -> list[Assumption]:
        """Those that bear on a place and were taken over."""
        return [each for each in self.taken if bears(each, place)]


def has_references(kind: str) -> bool:
    """Whether a type is that of an array of objects."""
    return kind.startswith(("[L", "[["))


def bears(assumption: Assumption, place: Place) -> bool:
    """Whether an assumption bears on a place."""
    at = (place.class_name, (place.method, place.descriptor)), place.offset
    return assumption.place in (None, at) and assumption.stage <= max(place.stage, 1)


def program_of(folder: str, words: RunWords) -> Program:
    """The program of a run."""
    return Program(folder, [os.path.join(folder, words.stubs)] if words.stubs else [])


def later_calls(found: list[Assumption], finder: Finder) -> list[Assumption]:
    """The call-backs that bear on the later stages alone."""
    told = {each.line for each in found}
    calls = [each for call in finder.calls for each in finder.call_backs(call)] + list(finder.of_models())
    return [replace(each, stage=LATER) for each in dict.fromkeys(calls) if each.line not in told]


def resting_of(program: Program, folder: str, words: RunWords, assumed: set[str]) -> Resting:
    """What the safe places of a run rest on."""
    reach = Reach(program, entry_methods(program, words.entry))
    try:
        declared = Declared(open_jdk(jdk_folder(words.jdk)))
    except Unusable:
        declared = Declared(None)
    effects = Effects(reach, read_protocol(os.path.join(folder, words.property)), declared)
    sources = Sources(folder)
    found = Finder(reach, effects, sources, words.providers).all()
    found += later_calls(found, Finder(reach, Effects(reach, effects.protocol, declared, is_later=True), sources, words.providers))
    return Resting([each for each in found if not is_assumed(each, assumed)], [each for each in found if is_assumed(each, assumed)])


def read_assumed(path: str) -> set[str]:
    """The assumptions that a file takes over: a line each, as they are printed, with what follows a colon left out; without the part
    from ` at ` on it stands for all places."""
    try:
        with open(path, encoding="utf-8") as file:
            lines = [line.partition("#")[0].strip().partition(": ")[0] for line in file]
    except (OSError, UnicodeDecodeError) as fault:
        raise Unusable(f"{path} cannot be read ({fault}): name a file of lines as --assumptions prints them") from fault
    return set(filter(None, lines))


def is_assumed(assumption: Assumption, assumed: set[str]) -> bool:
    """Whether an assumption is one of those that are taken over."""
    return assumption.line in assumed or f"{assumption.kind} {assumption.about}" in assumed
