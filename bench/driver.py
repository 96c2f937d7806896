"""Makes classes that call the public methods of a library, so that an analysis has an entry into it: a class `Driver`
with a static method `main` of `()V`, which calls others like it.

For each public class they call each static method and each constructor that is public, with 0 and null as arguments.
What the constructors give, and those static methods that give an object of just this class, goes to a static field.
On the object that is there each public method of the class is called, and each one that it has from a supertype of
the library of which no object is got so, as an abstract class or an interface. The code for one class stands in
methods of its own, of some thousand bytes each. How a call is written, and what it is given, is a `NullCalls`, or another one in its place.
"""

import pathlib
import sys
from collections.abc import Iterator

sys.path.append(str(pathlib.Path(__file__).resolve().parent.parent / "tools"))

from class_file import ABSTRACT, INTERFACE, ClassFile  # noqa: E402
from class_maker import (  # noqa: E402
    ACONST_NULL, ALOAD_0, ASTORE_0, DCONST_0, FCONST_0, GETSTATIC, ICONST_0, INVOKESPECIAL, INVOKESTATIC,
    INVOKEVIRTUAL, LCONST_0, POP, POP2, PUBLIC, PUTSTATIC, RETURN, STATIC, ClassMaker,
)
from empty_bodies import parameter_types, result_type  # noqa: E402

NAME = "Driver"
# About so much code stands in one method, and so many entries in one constant pool, before another one is begun.
MUCH_CODE = 4_000
MANY_ENTRIES = 40_000
# An object twice, 255 units of arguments, and what is on the stack while an argument is made.
MOST_STACK = 272

Key = tuple[str, str]


def dropped(descriptor: str) -> bytes:
    """Pops the result."""
    kind = result_type(descriptor)
    return b"" if kind == "V" else bytes([POP2 if kind in ("J", "D") else POP])


def own_type(found: ClassFile) -> str:
    """The type of the objects of a class."""
    return f"L{found.name};"


def constructors(found: ClassFile) -> list[str]:
    """The descriptors of the public constructors by which objects of a class are made; none of an abstract class."""
    if found.has(ABSTRACT):
        return []
    made = (key for key, member in found.methods.items() if key[0] == "<init>" and member.has(PUBLIC))
    return [descriptor for _, descriptor in made]


def public_methods(found: ClassFile, static: bool) -> Iterator[Key]:
    """The public methods that a class declares: the static ones, or the others but for constructors."""
    for key, member in found.methods.items():
        if member.has(PUBLIC) and member.has(STATIC) == static and not key[0].startswith("<"):
            yield key


def gives_objects(found: ClassFile) -> bool:
    """Whether objects of a class are got: it is public and no interface, and one of its methods gives one."""
    if not found.has(PUBLIC) or found.has(INTERFACE):
        return False
    static = (result_type(descriptor) for _, descriptor in public_methods(found, static=True))
    return bool(constructors(found)) or own_type(found) in static


def methods_on_object(library: dict[str, ClassFile], found: ClassFile) -> list[Key]:
    """The methods that are called on an object of a class, each once."""
    ways = [found]
    for each in ways:
        supers = [library[name] for name in each.supers() if name in library]
        ways.extend(above for above in supers if above not in ways and not gives_objects(above))
    return list(dict.fromkeys(key for each in ways for key in public_methods(each, static=False)))


def in_parts(calls: list[bytes], first: bytes = b"") -> list[bytes]:
    """The calls one after the other, in parts of about so much code; each part begins with this code."""
    parts = []
    for call in calls:
        if not parts or len(parts[-1]) + len(call) > MUCH_CODE:
            parts.append(first)
        parts[-1] += call
    return parts


class NullCalls:
    """How calls are made: with 0 and null, one after the other. The object of a class stands in a static field of the class that calls it."""

    def field_of(self, maker: ClassMaker, found: ClassFile) -> tuple[str, str]:
        """The field for the object of a class that this maker calls: its class and its name."""
        name = f"object{len(maker.fields)}"
        maker.add_field(STATIC, name, own_type(found))
        return maker.name, name

    def argument(self, _maker: ClassMaker, kind: str) -> bytes:
        """Pushes what is given for a parameter of a type."""
        pushed = {"J": LCONST_0, "F": FCONST_0, "D": DCONST_0, "L": ACONST_NULL, "[": ACONST_NULL}
        return bytes([pushed.get(kind[0], ICONST_0)])

    def arguments(self, maker: ClassMaker, descriptor: str) -> bytes:
        """Pushes what is given for each parameter."""
        return b"".join(self.argument(maker, kind) for kind in parameter_types(descriptor))

    def call(self, code: bytes) -> bytes:
        """The code of a call, as it stands among the others."""
        return code

    def further_makers(self) -> list[ClassMaker]:
        """What further classes there are."""
        return []


class ClassCalls:
    """The code that calls one class, as one class has it that is made."""

    def __init__(self, maker: ClassMaker, found: ClassFile, way: NullCalls) -> None:
        self.maker, self.found, self.way = maker, found, way
        self.field = way.field_of(maker, found) if gives_objects(found) else None

    def on_field(self, opcode: int) -> bytes:
        """Reads or writes the field of the object."""
        assert self.field
        return self.maker.access(opcode, *self.field, own_type(self.found))

    def after_static(self, descriptor: str) -> bytes:
        """What becomes of the result of a static method."""
        if gives_objects(self.found) and result_type(descriptor) == own_type(self.found):
            return self.on_field(PUTSTATIC)
        return dropped(descriptor)

    def statics(self) -> list[bytes]:
        """The code of each call of a static method."""
        name, is_interface = self.found.name, self.found.has(INTERFACE)
        return [
            self.way.call(
                self.way.arguments(self.maker, descriptor)
                + self.maker.call(INVOKESTATIC, name, method, descriptor, is_interface)
                + self.after_static(descriptor)
            )
            for method, descriptor in public_methods(self.found, static=True)
        ]

    def objects(self) -> list[bytes]:
        """The code of each making of an object."""
        name = self.found.name
        return [
            self.way.call(
                self.maker.new(name)
                + self.way.arguments(self.maker, descriptor)
                + self.maker.call(INVOKESPECIAL, name, "<init>", descriptor)
                + self.on_field(PUTSTATIC)
            )
            for descriptor in constructors(self.found)
        ]

    def calls(self, keys: list[Key]) -> list[bytes]:
        """The code of each call on the object, which stands in local variable 0."""
        return [
            self.way.call(
                bytes([ALOAD_0])
                + self.way.arguments(self.maker, descriptor)
                + self.maker.call(INVOKEVIRTUAL, self.found.name, method, descriptor)
                + dropped(descriptor)
            )
            for method, descriptor in keys
        ]

    def begin(self) -> bytes:
        """Puts the object into local variable 0."""
        return self.on_field(GETSTATIC) + bytes([ASTORE_0])


def public_classes(library: dict[str, ClassFile]) -> list[str]:
    """The names of the public classes, in order."""
    return [name for name in sorted(library) if library[name].has(PUBLIC)]


def spread(names: list[str], most: int) -> list[str]:
    """At most so many of the names, spread over all."""
    return names[::max(1, len(names) // most)][:most]


class Driver:
    """The classes that are made, and how many classes they call, and how many calls are in them. Without names they call all public classes."""

    def __init__(self, library: dict[str, ClassFile], way: NullCalls | None = None, names: list[str] | None = None) -> None:
        self.library, self.way = library, way or NullCalls()
        self.makers: list[ClassMaker] = []
        self.classes = self.calls = 0
        for name in public_classes(library) if names is None else names:
            self.add_class(library[name])

    def maker(self) -> ClassMaker:
        """The class that is being made."""
        if not self.makers or len(self.makers[-1].entries) > MANY_ENTRIES:
            self.makers.append(ClassMaker(f"{NAME}{len(self.makers)}"))
        return self.makers[-1]

    def add_class(self, found: ClassFile) -> None:
        """Adds the methods that call a class: its static methods, its constructors, and the methods of its object."""
        maker = self.maker()
        made = ClassCalls(maker, found, self.way)
        statics, objects, calls = made.statics(), [], []
        parts = in_parts(statics)
        if gives_objects(found):
            objects, calls = made.objects(), made.calls(methods_on_object(self.library, found))
            parts += in_parts(objects) + in_parts(calls, made.begin())
        for part in parts:
            maker.add_method(STATIC, f"part{len(maker.methods)}", "()V", MOST_STACK, 1, part + bytes([RETURN]))
        self.calls += len(statics) + len(objects) + len(calls)
        self.classes += bool(parts)

    def files(self) -> dict[str, bytes]:
        """The class files by their names."""
        for maker in self.makers:
            names = [f"part{number}" for number in range(len(maker.methods))]
            parts = b"".join(self.way.call(maker.call(INVOKESTATIC, maker.name, name, "()V")) for name in names)
            maker.add_method(STATIC, "main", "()V", 1, 0, parts + bytes([RETURN]))
        entry = ClassMaker(NAME)
        mains = b"".join(self.way.call(entry.call(INVOKESTATIC, maker.name, "main", "()V")) for maker in self.makers)
        entry.add_method(PUBLIC | STATIC, "main", "()V", 1, 0, mains + bytes([RETURN]))
        return {f"{maker.name}.class": maker.content() for maker in [*self.makers, entry, *self.way.further_makers()]}
