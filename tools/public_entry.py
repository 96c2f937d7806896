"""Makes an entry into a library: classes that stand for its callers. `typestate/Callers.main` calls, in any order and any number of times, each
public method and constructor of the public classes, with any objects that callers may have.

For each type that a caller deals with there is a static field. What a call gives goes to the fields of its type, of the types above it, and of the
library's own types below it. An object for a parameter comes from the field of its type. Into it also goes what the class library may hand to callers,
by a native method that the stub file describes; and for an interface or an abstract class that callers may implement, an object of a class that is made: its methods take
their arguments over, may make any of the calls, and give what is in a field."""

import pathlib
import re
from collections.abc import Iterable, Iterator
from dataclasses import dataclass, field, replace

from asked import PUBLIC, Failed
from bodies import parameter_types, result_type, units
from class_file import ABSTRACT, INTERFACE, OBJECT, PRIVATE, STATIC, BadClassFile, ClassFile, parse
from class_file import PUBLIC as PUBLIC_FLAG
from class_maker import (
    AASTORE, ACONST_NULL, ALOAD_0, ANEWARRAY, ARETURN, DCONST_0, DRETURN, DUP, FCONST_0, FRETURN, GETSTATIC, GOTO, ICONST_0, ICONST_1, IFEQ, IFNE, INVOKESPECIAL,
    INVOKESTATIC, INVOKEVIRTUAL, IRETURN, LCONST_0, LRETURN, NEWARRAY, POP, POP2, PUTSTATIC, RETURN, ClassMaker, TooLarge, u2,
)
from facts import CALLERS
from library import Unusable, jdk_folder, open_jdk, read_folder
from sarif import Moment

# How the classes begin that callers implement.
IMPLEMENTED = "typestate/Caller$"
ENTRY = f"{CALLERS}.main"
PREMISE = (
    "public: told of callers on one thread that call the public methods and constructors of the public classes in any order, with null, with objects that such calls "
    "gave, with objects of the class library, and with objects of their own classes that implement interfaces and abstract classes and call back in any way. Not "
    "looked at: what callers do themselves with the objects that they get or make, methods with a body that they override, public fields that they write, "
    "protected members, and calls from the same package."
)
PROTECTED, CHECKCAST, ALOAD, INVOKEINTERFACE, MUCH_CODE, MOST_STACK = 0x0004, 0xC0, 0x19, 0xB9, 4_000, 300
KINDS = {"Z": 4, "C": 5, "F": 6, "D": 7, "B": 8, "S": 9, "I": 10, "J": 11}
ZEROS = {"J": LCONST_0, "F": FCONST_0, "D": DCONST_0, "L": ACONST_NULL, "[": ACONST_NULL}
RETURNS = {"V": RETURN, "J": LRETURN, "F": FRETURN, "D": DRETURN, "L": ARETURN, "[": ARETURN}
Key = tuple[str, str]


def class_of(kind: str) -> str:
    """The class of a type, or nothing for one of another kind."""
    return kind[1:-1] if kind.startswith("L") else ""


@dataclass
class Types:
    """The classes of a library and of the JDK, by their names."""
    library: dict[str, ClassFile]
    jdk: object
    known: dict[str, ClassFile | None] = field(default_factory=dict)
    uppers: dict[str, list[str]] = field(default_factory=dict)

    def get(self, name: str) -> ClassFile | None:
        """A class, if it is there."""
        if name in self.library:
            return self.library[name]
        if name not in self.known:
            self.known[name] = self.of_jdk(name)
        return self.known[name]

    def of_jdk(self, name: str) -> ClassFile | None:
        """A class of the JDK, if it can be read."""
        try:
            data = self.jdk.read(name)  # type: ignore[attr-defined]
            return parse(data) if data else None
        except (BadClassFile, Unusable):
            return None

    def above(self, name: str) -> list[str]:
        """A class and all that is above it."""
        if name not in self.uppers:
            found = [name]
            for each in found:
                there = self.get(each)
                found.extend(one for one in dict.fromkeys(there.supers() if there else []) if one not in found)
            self.uppers[name] = found if OBJECT in found else [*found, OBJECT]
        return self.uppers[name]

    def abstract_keys(self, name: str) -> list[Key]:
        """The methods that a class of one's own below this one has to have a body for."""
        found: dict[Key, bool] = {}
        for each in self.above(name):
            there = self.get(each)
            for key, member in (there.methods if there else {}).items():
                if not member.has(STATIC) and not member.has(PRIVATE) and not key[0].startswith("<"):
                    found[key] = found.get(key, True) and member.has(ABSTRACT)
        return [key for key, is_abstract in found.items() if is_abstract]


def can_be_implemented(found: ClassFile | None) -> bool:
    """Whether callers can have a class of their own below one: an interface, or an abstract class with a constructor that they may call."""
    if found is None or not found.has(PUBLIC_FLAG):
        return False
    return found.has(INTERFACE) or found.has(ABSTRACT) and bool(open_constructors(found))


def open_constructors(found: ClassFile) -> list[str]:
    """The descriptors of the constructors that a class below may call."""
    return [key[1] for key, member in found.methods.items() if key[0] == "<init>" and (member.has(PUBLIC_FLAG) or member.has(PROTECTED))]


class Callers:
    """The classes that stand for the callers of some classes of a library."""

    def __init__(self, types: Types, names: list[str]):
        self.types, self.names = types, names
        self.maker = ClassMaker(CALLERS)
        self.implementing: list[ClassMaker] = []
        self.fields: dict[str, str] = {}
        self.keepers: dict[str, str] = {}
        self.parts = 0
        self.maker.add_native("any", "()Z")
        for kind in self.kinds():
            self.fields[kind] = f"object{len(self.fields)}"
            self.maker.add_field(STATIC | PUBLIC_FLAG, self.fields[kind], f"L{kind};")

    # ---- what is called

    def kinds(self) -> list[str]:
        """The types of which callers need objects: those of receivers and of parameters."""
        found: dict[str, None] = {}
        for name in self.names:
            found[name] = None
            for _, descriptor in self.methods(self.types.library[name]):
                kinds = (class_of(kind.lstrip("[")) for kind in parameter_types(descriptor))
                found.update((kind, None) for kind in kinds if kind)
        return list(found)

    def methods(self, found: ClassFile) -> Iterator[Key]:
        """The public methods of a class, with those of classes above it that callers cannot name; and constructors, but those of an abstract class."""
        hidden = [self.types.library[each] for each in self.types.above(found.name)[1:]
                  if each in self.types.library and not self.types.library[each].has(PUBLIC_FLAG)]
        for each in [found, *hidden]:
            for key, member in each.methods.items():
                is_made = key[0] == "<init>" and each is found and not found.has(ABSTRACT)
                if member.has(PUBLIC_FLAG) and (is_made or not key[0].startswith("<")):
                    yield key

    def is_static(self, found: ClassFile, key: Key) -> bool:
        """Whether a public method is static."""
        owners = (self.types.get(each) for each in self.types.above(found.name))
        return next(each.methods[key].has(STATIC) for each in owners if each and key in each.methods)

    # ---- instructions

    def argument(self, maker: ClassMaker, kind: str) -> bytes:
        """Pushes what is given for a parameter of a type."""
        name = class_of(kind)
        if name in self.fields:
            return maker.access(GETSTATIC, CALLERS, self.fields[name], kind)
        if kind.startswith("[") and kind[1:] in KINDS:
            return bytes([ICONST_1, NEWARRAY, KINDS[kind[1:]]])
        if kind.startswith("[L"):
            made = bytes([ICONST_1, ANEWARRAY]) + u2(maker.class_entry(kind[2:-1]))
            return made + bytes([DUP, ICONST_0]) + self.argument(maker, kind[1:]) + bytes([AASTORE])
        return bytes([ZEROS.get(kind[0], ICONST_0)])

    def arguments(self, maker: ClassMaker, descriptor: str) -> bytes:
        """Pushes what is given for each parameter."""
        return b"".join(self.argument(maker, kind) for kind in parameter_types(descriptor))

    def taken(self, maker: ClassMaker, kind: str) -> bytes:
        """Takes a result, or an argument, over from the stack."""
        if kind == "V":
            return b""
        name = class_of(kind)
        if name:
            return maker.call(INVOKESTATIC, CALLERS, self.keeper(name), f"(L{name};)V")
        return bytes([POP2 if kind in "JD" else POP])

    def keeper(self, name: str) -> str:
        """The method that puts an object of a class into the fields where it may stand; it is made at first use."""
        if name not in self.keepers:
            self.keepers[name] = f"keep{len(self.keepers)}"
            above = self.types.above(name)
            code = b""
            for kind, field in self.fields.items():
                if kind in above or kind in self.types.library and name in self.types.above(kind):
                    cast = b"" if kind in above else bytes([CHECKCAST]) + u2(self.maker.class_entry(kind))
                    code += self.maybe(self.maker, bytes([ALOAD_0]) + cast + self.maker.access(PUTSTATIC, CALLERS, field, f"L{kind};"))
            self.maker.add_method(STATIC | PUBLIC_FLAG, self.keepers[name], f"(L{name};)V", 2, 1, code + bytes([RETURN]))
        return self.keepers[name]

    def maybe(self, maker: ClassMaker, code: bytes) -> bytes:
        """Code that may be left out."""
        return maker.call(INVOKESTATIC, CALLERS, "any", "()Z") + bytes([IFEQ]) + u2(3 + len(code)) + code

    def call(self, found: ClassFile, key: Key) -> bytes:
        """A call of a method of a class, with what becomes of its result."""
        maker, (name, descriptor), is_interface = self.maker, key, found.has(INTERFACE)
        given = self.arguments(maker, descriptor)
        if name == "<init>":
            return maker.new(found.name) + given + maker.call(INVOKESPECIAL, found.name, name, descriptor) + self.taken(maker, f"L{found.name};")
        after = self.taken(maker, result_type(descriptor))
        if self.is_static(found, key):
            return given + maker.call(INVOKESTATIC, found.name, name, descriptor, is_interface) + after
        receiver = self.argument(maker, f"L{found.name};")
        if not is_interface:
            return receiver + given + maker.call(INVOKEVIRTUAL, found.name, name, descriptor) + after
        count = 1 + sum(len(units(kind)) for kind in parameter_types(descriptor))
        return receiver + given + maker.call(INVOKEINTERFACE, found.name, name, descriptor, True) + bytes([count, 0]) + after

    # ---- the classes

    def calls(self) -> Iterator[bytes]:
        """What callers may do, one call after the other."""
        for name in self.names:
            found = self.types.library[name]
            for key in dict.fromkeys(self.methods(found)):
                yield self.call(found, key)
        for number, name in enumerate(list(self.fields)):
            if name not in self.types.library:
                self.maker.add_native(f"give{number}", f"()L{name};")
                yield self.maker.call(INVOKESTATIC, CALLERS, f"give{number}", f"()L{name};") + self.taken(self.maker, f"L{name};")
            if can_be_implemented(self.types.get(name)):
                yield from self.implemented(name)

    def implemented(self, name: str) -> Iterator[bytes]:
        """Makes a class of callers below an interface or an abstract class, and gives the code that makes its objects."""
        found = self.types.get(name)
        assert found is not None
        is_interface = found.has(INTERFACE)
        above, interfaces = (OBJECT, (name,)) if is_interface else (name, ())
        maker = ClassMaker(f"{IMPLEMENTED}{len(self.implementing)}", above, interfaces=interfaces)
        self.implementing.append(maker)
        for number, descriptor in enumerate(["()V"] if is_interface else open_constructors(found)):
            # The constructors are told apart by how many numbers they take.
            own = f"({'I' * number})V"
            code = bytes([ALOAD_0]) + self.arguments(maker, descriptor) + maker.call(INVOKESPECIAL, above, "<init>", descriptor) + bytes([RETURN])
            maker.add_method(PUBLIC_FLAG, "<init>", own, MOST_STACK, 1 + number, code)
            made = self.maker.new(maker.name) + bytes([ICONST_0]) * number + self.maker.call(INVOKESPECIAL, maker.name, "<init>", own)
            yield made + self.taken(self.maker, f"L{name};")
        for key in self.types.abstract_keys(name):
            self.add_body(maker, key)

    def add_body(self, maker: ClassMaker, key: Key) -> None:
        """Adds a method of callers: it takes its arguments over, may make any of the calls, and gives what is in a field."""
        code, at = b"", 1
        for kind in parameter_types(key[1]):
            if class_of(kind):
                code += bytes([ALOAD, at]) + self.taken(maker, kind)
            at += len(units(kind))
        code += self.maybe(maker, maker.call(INVOKESTATIC, CALLERS, "main", "()V"))
        outcome = result_type(key[1])
        code += (b"" if outcome == "V" else self.argument(maker, outcome)) + bytes([RETURNS.get(outcome[0], IRETURN)])
        maker.add_method(PUBLIC_FLAG, *key, 8, at, code)

    def add_part(self, calls: list[bytes]) -> None:
        """Adds a method that may make each of some calls, and goes on after an exception."""
        code, handlers = b"", b""
        for call in calls:
            body = call + bytes([GOTO]) + u2(4)
            begin = len(code) + 6
            code += self.maybe(self.maker, body + bytes([POP]))
            handlers += u2(begin) + u2(begin + len(body)) + u2(begin + len(body)) + u2(0)
        self.maker.add_method(STATIC, f"part{self.parts}", "()V", MOST_STACK, 0, code + bytes([RETURN]), handlers)
        self.parts += 1

    def files(self) -> dict[str, bytes]:
        """The class files by their names."""
        for part in in_parts(self.calls()):
            self.add_part(part)
        parts = (self.maker.call(INVOKESTATIC, CALLERS, f"part{number}", "()V") for number in range(self.parts))
        code = b"".join(self.maybe(self.maker, call) for call in parts) + self.maker.call(INVOKESTATIC, CALLERS, "any", "()Z")
        code += bytes([IFNE]) + (-len(code)).to_bytes(2, "big", signed=True) + bytes([RETURN])
        self.maker.add_method(PUBLIC_FLAG | STATIC, "main", "()V", 1, 0, code)
        return {maker.name: maker.content() for maker in [self.maker, *self.implementing]}


def in_parts(calls: Iterable[bytes]) -> list[list[bytes]]:
    """Calls in parts of about so much code."""
    parts: list[list[bytes]] = []
    size = MUCH_CODE
    for call in calls:
        if size >= MUCH_CODE:
            parts.append([])
            size = 0
        parts[-1].append(call)
        size += len(call)
    return parts


def write_entry(folder: pathlib.Path, jdk: str | None, own: set[str]) -> list[str]:
    """Writes the classes of the callers of some classes of a folder into it. Their names."""
    library = {name: found for name, found in read_folder(str(folder)).items() if not name.startswith("typestate/")}
    names = sorted(name for name, found in library.items() if name in own and found.has(PUBLIC_FLAG) and "package-info" not in name)
    if not names:
        raise Failed(66, f"the entry {PUBLIC} calls the public classes of the first place that is named, and it has none: name it first")
    try:
        files = Callers(Types(library, open_jdk(jdk_folder(jdk))), names).files()
    except (TooLarge, OverflowError) as fault:
        raise Failed(66, f"the entry {PUBLIC} would be too large ({fault}): name {PUBLIC}:PACKAGE for a part of the classes") from fault
    except Unusable as fault:
        raise Failed(66, str(fault)) from fault
    for name, content in files.items():
        path = folder / f"{name}.class"
        path.parent.mkdir(parents=True, exist_ok=True)
        path.write_bytes(content)
    return list(files)


# ---- what is told of them

# A class or a method that stands for callers, as a story names it, and the steps of a story that are of them alone.
OF_CALLERS = r"typestate\.Callers?(?:\$\d+)?"
OWN = re.compile(rf"(?:back in )?{OF_CALLERS}\.\w+(?: calls {OF_CALLERS}\.\w+\([^)]*\)| gives it to {OF_CALLERS}\.keep\d+\(.*)?")
PARTS = re.compile(r"typestate\.Callers\.\w+")
IMPLEMENTING = re.compile(r"typestate\.Caller\$\d+")


def without_callers(story: list[Moment]) -> list[Moment]:
    """A story without the steps that are of callers alone; in the others it says callers for the classes that stand for them."""
    kept = [each for each in story if not (OWN.fullmatch(each.text) or "the loop of line 0 " in each.text)]
    depths = sorted({each.depth for each in kept})
    told = [IMPLEMENTING.sub("a caller's class", PARTS.sub("the caller", each.text)) for each in kept]
    return [replace(each, text=text, depth=depths.index(each.depth)) for each, text in zip(kept, told)]
