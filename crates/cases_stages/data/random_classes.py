"""Makes the classes of a random small program, for tests alone: class files with their superclasses, interfaces, fields
and methods, yet without code; and the stubs beside them. What a class file declares stands in the classes of
`plain_program`, so that a program can be asked where a reference leads."""

import json
import random
from dataclasses import dataclass, field
from typing import Iterable, NamedTuple, Optional, Union

from plain_program import (ABSTRACT, CLASHING_DEFAULTS, NATIVE, NO_IMPLEMENTATION, PRIVATE, PROTECTED, PUBLIC, ROOT,
                           STATIC, Class, Field, Method, Program, class_of_stub, describe_natives)
from stub_texts import OBJECT, StubClass, StubField, StubMethod, read_base_document

STRING, THROWABLE, LIST = "java/lang/String", "java/lang/Throwable", "java/util/ArrayList"
PRIMITIVES = "IIJJJDDZBF"
EXCEPTIONS = ["java/lang/RuntimeException", "java/lang/Exception", "java/lang/Error", THROWABLE, "java/io/IOException"]
LIBRARY_INTERFACES = ["java/lang/Runnable", "java/lang/Comparable", "java/util/Iterator"]
PACKAGES = [[""], ["", "p/"], ["p/", "q/"]]
# Classes of which there are no objects but those of the classes below.
NEVER_MADE = {"java/io/InputStream", "java/io/OutputStream", "java/io/FilterOutputStream", "java/lang/Thread",
              "java/lang/Enum", "java/lang/System"}

# What may be refused in a program: `missing` and `clashing` methods, `native` methods without a description, methods of
# another `package`, faults of `code`, or all but these in a `mixed` one.
THEMES = ["missing", "clashing", "native", "package", "code", "mixed", "mixed"]
# How often classes and interfaces declare the methods of the program, interfaces have defaults, and classes implement
# interfaces, where it is not left to chance.
SHARES = {"missing": (0.25, 0.9, 0.5, 0.75), "clashing": (0.15, 0.9, 0.9, 0.8), "mixed": (0.25, 0.75, 0.75, 0.75)}

# Faults of code, as the analyser names them: instructions, and how many units they push.
FAULTS = {
    "InvokeDynamic": [("invokedynamic 0 lam()V", 0)],
    "MethodConstant": [("ldc_w mtype ()V", 1)],
    "NoStub": [("new absent/Class", 1), ("getstatic java/lang/System.absent I", 1)],
    "MissingField": [("getstatic {owner}.absent LA;", 1)],
    "MissingMethod": [("invokestatic {owner}.absent()V", 0)],
    "Threads": [("new java/lang/Thread", 1)],
    "Reflection": [("new java/lang/reflect/Method", 1)],
    "BadOpcode": [("bytes cb", 0)],
    "Subroutine": [("bytes a80003", 1)],
    "BadLocal": [("aload 200", 1)],
    "StackUnder": [("pop", 0)],
    "KindMismatch": [("invokestatic {owner}.<init>()V", 0)],
}


def descriptor_of(name: str) -> str:
    """The descriptor of a class or an array."""
    return name if name.startswith("[") else f"L{name};"


def name_of(descriptor: str) -> str:
    """The name of the class or the array of a descriptor."""
    return descriptor[1:-1] if descriptor.startswith("L") else descriptor


def kinds_in(descriptor: str) -> list[str]:
    """The descriptors of the parameters of a method, one after the other."""
    kinds, start, at = [], 1, 1
    while descriptor[at] != ")":
        at = descriptor.index(";", at) if descriptor[at] == "L" else at
        if descriptor[at] != "[":
            kinds.append(descriptor[start:at + 1])
            start = at + 1
        at += 1
    return kinds


def result_of(descriptor: str) -> str:
    """The descriptor of the result of a method."""
    return descriptor[descriptor.index(")") + 1:]


class Signature(NamedTuple):
    name: str
    parameters: tuple[str, ...]
    result: str

    @property
    def descriptor(self) -> str:
        return f"({''.join(self.parameters)}){self.result}"


def declared(found: Class, signature: tuple[str, str]) -> Optional[Method]:
    """The method of a name and a descriptor that a class declares."""
    return next((method for method in found.methods if method.signature == signature), None)


def is_abstract(found: Class) -> bool:
    """Whether a class declares an abstract method: the classes that are made are abstract exactly then."""
    return any(method.has(ABSTRACT) for method in found.methods)


@dataclass
class Plan:
    """A program without code: its class files, its stubs, its theme if something may be refused, and of the methods
    whose code has a fault which fault this is."""
    program: Program
    folder: list[Class]
    stubs: list[StubClass]
    theme: Optional[str]
    faults: dict[Method, str] = field(default_factory=dict)

    def may_be(self, theme: str) -> bool:
        """Whether what is refused may be of this kind."""
        return may_be(self.theme, theme)

    def made_classes(self) -> list[str]:
        """The classes of which there may be objects, but for arrays."""
        return [each.name for each in self.program.classes.values()
                if not each.is_interface and each.name not in NEVER_MADE and not (each.is_folder and is_abstract(each))]

    def is_safe(self, by_interface: bool, resolved: Method) -> bool:
        """Whether each object of the class of a resolved method has a target for a call of it."""
        fitting = [name for name in self.made_classes() + ["[I"] if self.program.fits(resolved.class_name, name)]
        targets = [self.program.select(by_interface, name, resolved)[0] for name in fitting]
        return all(target is not None and not target.is_undescribed for target in targets)


def may_be(theme: Optional[str], other: str) -> bool:
    return theme == other or (theme == "mixed" and other != "code")


class ClassMaker:
    """Makes a plan by chance."""

    def __init__(self, chance: random.Random, theme: Optional[str]):
        self.chance = chance
        self.theme = theme
        shares = tuple(chance.choice([0.25, 0.5, 0.75]) for _ in range(4))
        self.class_declares, self.interface_declares, self.defaults, self.implements = SHARES.get(theme, shares)
        self.base = read_base_document(ROOT / "docs" / "BASE_STUBS.md")
        packages = chance.choice(PACKAGES[1:] if self.may_be("package") else PACKAGES)
        letters = chance.sample("ABCDEFGHIJKLMNOP", chance.randint(3, 7))
        self.names = [chance.choice(packages) + letter for letter in letters]
        self.lib_names = [f"lib/{letter}" for letter in "XYZ"[:chance.choice([0, 1, 1, 2, 3])]]
        self.lib_interfaces = ["lib/W"] if self.lib_names and self.happens(0.4) else []
        self.instance = [self.signature(f"m{k}") for k in range(chance.randint(2, 5))]
        self.static = [self.signature(f"s{k}") for k in range(chance.randint(1, 4))]
        self.classes: list[Class] = []
        self.stubs: list[StubClass] = []

    def happens(self, share: float) -> bool:
        return self.chance.random() < share

    def may_be(self, theme: str) -> bool:
        """Whether what is refused may be of this kind."""
        return may_be(self.theme, theme)

    # ---- types and members

    def reference(self) -> str:
        """The name of a class or an array."""
        name = self.chance.choice(self.names * 2 + self.lib_names + [OBJECT] * 4 + [STRING, THROWABLE, LIST])
        if self.happens(0.15):
            return self.chance.choice(["[", "[", "[["]) + descriptor_of(name)
        return name

    def kind(self) -> str:
        """The descriptor of a field or a parameter."""
        return descriptor_of(self.reference()) if self.happens(0.7) else self.chance.choice(PRIMITIVES)

    def signature(self, name: str) -> Signature:
        parameters = tuple(self.kind() for _ in range(self.chance.choice([0, 1, 1, 2, 3])))
        return Signature(name, parameters, "V" if self.happens(0.3) else self.kind())

    def method(self, owner: str, signature: Signature, flags: int) -> Method:
        """A method with code, but if it is abstract or native."""
        code_start = None if flags & (ABSTRACT | NATIVE) else 0
        return Method(owner, signature.name, signature.descriptor, flags, code_start=code_start)

    def access(self) -> int:
        """The flag of an access. Where nothing of this kind is refused, methods that are visible in their package alone
        stand in the only package."""
        one_package = len({name.rpartition("/")[0] for name in self.names}) == 1
        count = 4 if self.may_be("package") else 1 if one_package else 0
        return self.chance.choice([PUBLIC, PUBLIC, PUBLIC, PROTECTED] + [0] * count)

    def add_instance_methods(self, found: Class, may_be_abstract: bool) -> None:
        """Methods that others override; and in a class static or private ones that override none."""
        for signature in self.instance:
            if found.is_interface:
                if self.happens(self.interface_declares):
                    flags = PUBLIC | (0 if self.happens(self.defaults) else ABSTRACT)
                    found.methods.append(self.method(found.name, signature, flags))
            elif self.happens(self.class_declares):
                flags = self.access() | (ABSTRACT if may_be_abstract and self.happens(0.4) else 0)
                found.methods.append(self.method(found.name, signature, flags))
            elif self.happens(0.12):
                flags = PUBLIC | STATIC if self.happens(0.5) else PRIVATE
                found.methods.append(self.method(found.name, signature, flags))

    def add_other_methods(self, found: Class) -> None:
        for signature in self.static:
            if self.happens(0.15 if found.is_interface else 0.35):
                found.methods.append(self.method(found.name, signature, PUBLIC | STATIC))
        if not found.is_interface and self.happens(0.3):
            flags = PRIVATE | (STATIC if self.happens(0.4) else 0)
            found.methods.append(self.method(found.name, self.signature("own"), flags))
        if self.happens(0.15 if found.is_interface else 0.35):
            self.add_initialiser(found)

    def add_initialiser(self, found: Class) -> None:
        """An initialiser, also without the flag `static`; and now and then a method that is none, though it has the
        name."""
        flags = 0 if self.happens(0.1) else STATIC | (NATIVE if self.happens(0.05) else 0)
        found.methods.append(self.method(found.name, Signature("<clinit>", (), "V"), flags))
        if self.happens(0.05):
            found.methods.append(self.method(found.name, Signature("<clinit>", ("I",), "V"), STATIC))

    def add_fields(self, found: Class) -> None:
        for number in range(self.chance.choice([0, 1, 1, 2, 3])):
            kind = self.kind() if self.happens(0.85) else descriptor_of(STRING)
            found.fields.append(Field(found.name, f"f{number}", kind, found.is_interface or self.happens(0.4)))

    # ---- classes and interfaces

    def interface(self, name: str) -> Class:
        share = 0.2 if self.theme == "clashing" else 0.5
        above = [each.name for each in self.classes if each.is_interface and self.happens(share)]
        found = Class(name, OBJECT, above, True, name + ".class")
        self.add_instance_methods(found, True)
        self.add_other_methods(found)
        self.add_fields(found)
        return found

    def superclass(self) -> str:
        if self.happens(0.2):
            return self.chance.choice(EXCEPTIONS)
        if self.happens(0.05):
            return LIST
        ordinary = [each.name for each in self.classes if not each.is_interface]
        return self.chance.choice([OBJECT] * 3 + ordinary * 2 + self.lib_names[:1] * 2)

    def ordinary_class(self, name: str) -> Class:
        interfaces = [each.name for each in self.classes if each.is_interface and self.happens(self.implements)]
        interfaces += [each for each in LIBRARY_INTERFACES if self.happens(0.08)]
        interfaces += [each for each in self.lib_interfaces if self.happens(0.3)]
        found = Class(name, self.superclass(), interfaces, False, name + ".class")
        found.methods.append(self.method(name, Signature("<init>", (), "V"), PUBLIC))
        if self.happens(0.3):
            found.methods.append(self.method(name, Signature("<init>", (self.kind(),), "V"), PUBLIC))
        self.add_instance_methods(found, self.happens(0.25))
        self.add_other_methods(found)
        self.add_fields(found)
        self.chance.shuffle(found.methods)
        return found

    def add_natives(self) -> None:
        """Native methods, of names of their own, or that override others."""
        for found in self.classes:
            if self.happens(0.15):
                flags = PUBLIC | NATIVE | (STATIC if self.happens(0.5) else 0)
                found.methods.append(self.method(found.name, self.signature("n"), flags))
            share = 0.3 if self.may_be("native") else 0.04
            for place, method in enumerate(found.methods):
                if method.name.startswith("m") and not method.has(ABSTRACT) and self.happens(share):
                    found.methods[place] = Method(found.name, *method.signature, method.flags | NATIVE)

    # ---- stubs

    def described(self, name: str, descriptor: str, is_static: bool) -> StubMethod:
        """What a stub says of a method."""
        arguments = [] if is_static else ["this"]
        arguments += [f"arg{number}" for number, kind in enumerate(kinds_in(descriptor), 1) if kind[0] in "L["]
        thrown = EXCEPTIONS + [each.name for each in self.classes if each.super_class in EXCEPTIONS]
        throws = [self.chance.choice(thrown) for _ in range(self.chance.choice([0, 0, 0, 1, 2]))]
        keeps = [word for word in arguments if self.happens(0.4)]
        returns = self.listed_results(result_of(descriptor), arguments)
        if throws and name != "<init>" and self.happens(0.2):
            returns = []
        return StubMethod(name, descriptor, is_static, False, returns, throws, keeps)

    def listed_results(self, result: str, arguments: list[str]) -> list[str]:
        if result[0] not in "L[":
            return ["void" if result == "V" else "prim"]
        words = ["null", f"new:{self.chance.choice(self.result_classes(result))}"] + arguments
        words += ["kept"] if result[0] == "L" else []
        return self.chance.sample(words, self.chance.randint(1, min(3, len(words))))

    def result_classes(self, descriptor: str) -> list[str]:
        """Classes of which a stub may make an object as a result: some of them fit the descriptor."""
        ordinary = [each for each in self.classes if not each.is_interface]
        made = [each.name for each in ordinary if self.may_be("missing") or not is_abstract(each)]
        made += self.lib_names + [STRING, OBJECT]
        return made + [name for name in made if descriptor_of(name) == descriptor] * 5

    def lib_class(self, name: str, above: str) -> StubClass:
        stub = StubClass(name, above, self.lib_interfaces if self.happens(0.3) else [])
        stub.methods.append(self.described("<init>", "()V", False))
        for place, signature in enumerate(self.instance + [self.signature("of"), self.signature("take")]):
            if self.happens(0.5) or (stub.interfaces and place < 2):
                stub.methods.append(self.described(signature.name, signature.descriptor, False))
        for signature in self.static[:1] + [self.signature("make")]:
            if self.happens(0.5):
                stub.methods.append(self.described(signature.name, signature.descriptor, True))
        for number in range(self.chance.choice([0, 1, 2])):
            kind = descriptor_of(self.reference())
            holds = self.chance.choice(self.result_classes(kind)) if self.happens(0.7) else None
            stub.fields.append(StubField(f"held{number}", kind, True, holds))
        if self.happens(0.3):
            stub.fields.append(StubField("inner", descriptor_of(self.reference())))
        if self.happens(0.3):
            stub.fields.append(StubField("text", descriptor_of(STRING), True))
        return stub

    def add_stubs(self) -> None:
        for name in self.lib_interfaces:
            methods = [StubMethod(each.name, each.descriptor, is_abstract=True) for each in self.instance[:2]]
            self.stubs.append(StubClass(name, OBJECT, is_interface=True, methods=methods))
        for place, name in enumerate(self.lib_names):
            above = self.chance.choice([OBJECT] + self.lib_names[:place])
            self.stubs.append(self.lib_class(name, above))
        for method in [method for each in self.classes for method in each.methods if method.has(NATIVE)]:
            if not self.may_be("native") or self.happens(0.4):
                self.add_patch(method.class_name, method.name, method.descriptor, method.has(STATIC))
        if self.happens(0.15):
            self.add_patch(OBJECT, "toString", f"(){descriptor_of(STRING)}")
            self.add_patch(LIST, "hashCode", "()I")
            self.add_patch(LIST, "get", f"(I){descriptor_of(OBJECT)}")
        if self.lib_names and self.happens(0.2):
            self.add_patch(self.lib_names[0], "added", f"({descriptor_of(OBJECT)}){descriptor_of(OBJECT)}")

    def add_patch(self, name: str, method: str, descriptor: str, is_static: bool = False) -> None:
        methods = [self.described(method, descriptor, is_static)]
        self.stubs.append(StubClass(name, None, is_patch=True, methods=methods))

    # ---- the whole

    def link(self) -> Program:
        """The program as far as it is made."""
        patches: dict[str, list[StubMethod]] = {}
        for stub in self.stubs:
            if stub.is_patch:
                patches.setdefault(stub.name, []).extend(stub.methods)
        for each in self.classes:
            describe_natives(each, patches.get(each.name, []))
        own = [each for each in self.base + self.stubs if not each.is_patch]
        return Program(self.classes + [class_of_stub(each, patches.get(each.name, [])) for each in own])

    def complete(self) -> None:
        """Adds methods to each class that is not abstract, so that the methods that it inherits have a target."""
        for found in self.classes:
            if found.is_interface or is_abstract(found):
                continue
            program = self.link()
            above = [program.classes[name] for name in sorted(program.supertypes(found.name)) if name != OBJECT]
            for method in [method for each in above for method in each.methods]:
                is_inherited = not method.is_static and not method.has(PRIVATE) and method.name != "<init>"
                if not is_inherited or declared(found, method.signature):
                    continue
                _, reason = program.select(program.classes[method.class_name].is_interface, found.name, method)
                theme = {NO_IMPLEMENTATION: "missing", CLASHING_DEFAULTS: "clashing"}.get(reason, "")
                if reason is not None and not (self.may_be(theme) and self.happens(0.7)):
                    found.methods.append(Method(found.name, *method.signature, PUBLIC, code_start=0))

    def add_faults(self, plan: Plan) -> None:
        """Methods whose code has a fault: of names of their own, and where that may be reached, among the others."""
        ordinary = [each for each in plan.folder if not each.is_interface]
        for number in range(self.chance.choice([0, 0, 1, 2])):
            found = self.chance.choice(ordinary)
            method = self.method(found.name, Signature(f"r{number}", (), "V"), PUBLIC | STATIC)
            found.methods.insert(self.chance.randint(0, len(found.methods)), method)
            plan.faults[method] = self.chance.choice(sorted(FAULTS))
        if self.may_be("code"):
            for method in [method for each in ordinary for method in each.methods if method.code_start is not None]:
                if self.happens(0.06) and method not in plan.faults:
                    plan.faults[method] = self.chance.choice(sorted(FAULTS))

    def add_entry(self) -> Method:
        """The entry, as a method of one of the classes, seldom of an interface."""
        ordinary = [each for each in self.classes if not each.is_interface]
        owner = self.chance.choice(ordinary * 9 + self.classes)
        parameters = self.chance.choice([(), (f"[{descriptor_of(STRING)}",)])
        entry = self.method(owner.name, Signature("main", parameters, "V"), PUBLIC | STATIC)
        owner.methods.insert(self.chance.randint(0, len(owner.methods)), entry)
        return entry

    def plan(self) -> tuple[Plan, Method]:
        """The plan, and the entry."""
        most = len(self.names) - 2
        interfaces = min(self.chance.randint(2 if self.theme in SHARES else 0, 3), most)
        for place, name in enumerate(self.names):
            self.classes.append(self.interface(name) if place < interfaces else self.ordinary_class(name))
        self.add_natives()
        self.add_stubs()
        self.complete()
        plan = Plan(self.link(), self.classes, self.stubs, self.theme)
        self.add_faults(plan)
        entry = self.add_entry()
        plan.program = self.link()
        return plan, entry


# ---- the text of stubs


def stub_text(stubs: Iterable[StubClass]) -> str:
    """The stub file of these classes."""
    lines = ["version = 1"]
    for stub in stubs:
        lines += ["[[class]]", f"name = {json.dumps(stub.name)}"]
        lines += ["patch = true"] if stub.is_patch else [f"super = {json.dumps(stub.super_class)}"]
        lines += [f"interfaces = {json.dumps(stub.interfaces)}"] if stub.interfaces else []
        lines += ["interface = true"] if stub.is_interface else []
        for method in stub.methods:
            lines += ["[[class.method]]"] + member_lines(method)
            lines += ["abstract = true"] if method.is_abstract else []
            lists = [("returns", method.returns), ("throws", method.throws), ("keeps", method.keeps)]
            lines += [f"{key} = {json.dumps(words)}" for key, words in lists if words]
        for held in stub.fields:
            lines += ["[[class.field]]"] + member_lines(held)
            lines += [f"holds = {json.dumps(held.holds)}"] if held.holds else []
    return "\n".join(lines) + "\n"


def member_lines(member: Union[StubMethod, StubField]) -> list[str]:
    lines = [f"name = {json.dumps(member.name)}", f"descriptor = {json.dumps(member.descriptor)}"]
    return lines + (["static = true"] if member.is_static else [])
