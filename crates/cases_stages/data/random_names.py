"""What the code of a random small program may name, for tests alone: calls, fields, and classes, with what references
lead to (JVMS 5.4.3.2 to 5.4.3.4, 6.5.invokespecial)."""

import random
from typing import NamedTuple, Optional

from plain_program import PRIVATE, PUBLIC, Class, Field, Method, Program
from random_classes import EXCEPTIONS, LIST, STRING, THROWABLE, Plan, declared, descriptor_of
from stub_texts import OBJECT

LIBRARY = ["java/lang/StringBuilder", LIST, "java/util/Iterator", THROWABLE, OBJECT, STRING, "java/lang/CharSequence",
           "java/lang/Runnable", "java/io/PrintStream", "java/lang/System", "java/util/List"]
LIBRARY_MADE = ["java/lang/StringBuilder", LIST, OBJECT, "java/lang/RuntimeException", "java/io/IOException",
                "java/lang/IllegalStateException"]


# ---- resolution and special calls


def of_superinterfaces(program: Program, name: str, signature: tuple[str, str]) -> Optional[Method]:
    """The only default, or else the method of the least number."""
    defaults = program.defaults(name, signature)
    if len(defaults) == 1:
        return defaults[0]
    above = [each for each in program.classes.values() if each.is_interface]
    methods = [declared(each, signature) for each in above if program.is_proper_subtype(name, each.name)]
    return next((each for each in methods if each and not each.is_static and not each.has(PRIVATE)), None)


def searched(program: Program, found: Class) -> list[Class]:
    """The class and its superclasses, or the interface alone."""
    return [found] if found.is_interface else list(program.chain(found.name))


def resolve_method(program: Program, name: str, signature: tuple[str, str]) -> Optional[Method]:
    found = program.classes[name]
    for each in searched(program, found):
        if declared(each, signature):
            return declared(each, signature)
    of_object = declared(program.classes[OBJECT], signature)
    if found.is_interface and of_object and not of_object.is_static and of_object.has(PUBLIC):
        return of_object
    return of_superinterfaces(program, name, signature)


def resolve_field(program: Program, name: str, key: tuple[str, str]) -> Optional[Field]:
    found = program.classes[name]
    for each in found.fields:
        if (each.name, each.descriptor) == key:
            return each
    above = found.interfaces + ([found.super_class] if found.super_class else [])
    return next((each for each in (resolve_field(program, other, key) for other in above) if each), None)


def special_target(program: Program, current: str, named: str, signature: tuple[str, str]) -> Optional[Method]:
    """The target of a special call in a class, if there is one and not several."""
    is_super_call = current != named and any(each.name == named for each in program.chain(current))
    start = program.classes[current].super_class if is_super_call and signature[0] != "<init>" else named
    for each in searched(program, program.classes[start]):
        target = declared(each, signature)
        if target and not target.is_static:
            return target
    defaults = program.defaults(start, signature)
    return defaults[0] if len(defaults) == 1 else None


# ---- what may be named


class Calling(NamedTuple):
    """A call of a method: its kind, the class that the instruction names, and the method that this leads to."""
    kind: str
    named: str
    method: Method


class Access(NamedTuple):
    """A field, and the class that the instruction names with it."""
    named: str
    field: Field


class Names:
    """What the code of a program may name. `calls` are refused for no object that there may be, and `risky` are the
    others, if the program may have them; `favourites` are the calls of one kind, which it has more often."""

    def __init__(self, plan: Plan, chance: random.Random):
        self.plan = plan
        self.program = plan.program
        self.own = [each.name for each in plan.folder] + [each.name for each in plan.stubs if not each.is_patch]
        calls = [call for name in self.own + LIBRARY for call in self.calls_of(name)]
        self.calls = [call for call in calls if self.is_sound(call)]
        self.risky = [call for call in calls if not self.is_sound(call) and self.is_of_theme(call)]
        self.own_calls = [call for call in self.calls if call.named in self.own]
        self.favourites = self.find_favourites(chance) or self.own_calls
        self.accesses = [access for name in self.own + ["java/lang/System"] for access in self.accesses_of(name)]
        made = plan.made_classes()
        ordinary = [name for name in self.own if not self.program.classes[name].is_interface]
        self.made = [name for name in ordinary if name in made or plan.may_be("missing")] + LIBRARY_MADE
        self.exceptions = [name for name in self.made if self.program.fits(THROWABLE, name)] or EXCEPTIONS[:1]
        self.types = self.own + [OBJECT, STRING, THROWABLE]
        self.arrays = [f"[{descriptor_of(name)}" for name in self.own + [OBJECT]] + ["[I"]
        self.arrays += [f"{signs}L{chance.choice(self.own + [OBJECT])};" for signs in ("[[", "[[", "[[[")]

    def calls_of(self, name: str) -> list[Calling]:
        """The calls that name this class."""
        above = [self.program.classes[each] for each in sorted(self.program.supertypes(name))]
        signatures = dict.fromkeys(method.signature for each in above for method in each.methods)
        found = []
        for signature in signatures:
            method = resolve_method(self.program, name, signature)
            if method is None or signature[0] in ("<init>", "<clinit>"):
                continue
            by_object = "interface" if self.program.classes[name].is_interface else "virtual"
            kind = "static" if method.is_static else by_object
            if kind != "interface" or not method.has(PRIVATE):
                found.append(Calling(kind, name, method))
        return found

    def is_sound(self, call: Calling) -> bool:
        """Whether the call is refused for no object, and leads to no method that has to be refused."""
        if call.method in self.plan.faults:
            return False
        if call.kind == "static":
            return not call.method.is_undescribed
        return self.plan.is_safe(call.kind == "interface", call.method)

    def is_of_theme(self, call: Calling) -> bool:
        """Whether the program may have the call though it may be refused; those of library methods are missing ones."""
        if call.method in self.plan.faults:
            return self.plan.may_be("code")
        return self.plan.may_be("missing") or (self.plan.theme is not None and call.method.class_name in self.own)

    def find_favourites(self, chance: random.Random) -> list[Calling]:
        described = [call for call in self.own_calls if call.method.stub is not None]
        selecting = [call for call in self.own_calls if call.kind != "static" and call.method.stub is None]
        interface = [call for call in selecting if call.kind == "interface"]
        return chance.choice([described, selecting, interface, self.own_calls, self.risky])

    def any_call(self, chance: random.Random, calls: list[Calling]) -> Optional[Calling]:
        """One of the calls, if there is one: mostly of the program's own methods."""
        favourites = [call for call in calls if call in self.favourites]
        own = [call for call in calls if call.named in self.own]
        preferred = calls
        if own and chance.random() < 0.8:
            preferred = own
        if favourites and chance.random() < 0.4:
            preferred = favourites
        return chance.choice(preferred) if preferred else None

    def accesses_of(self, name: str) -> list[Access]:
        above = [self.program.classes[each] for each in sorted(self.program.supertypes(name))]
        keys = dict.fromkeys((held.name, held.descriptor) for each in above for held in each.fields)
        found = [resolve_field(self.program, name, key) for key in keys]
        return [Access(name, held) for held in found if held]
