"""Calls of a driver (bench/driver.py) that are given objects, and may be left out: so the stages after the first, which follow the order of calls,
reach what stands behind a call that never returns, as null would make many.

An object for a parameter is that of the library's class, or of the first class below it, if the driver calls it; of a class of the JDK that is often asked
for it is one of a common class; and an array has one element. A parameter of another type gets 0 or null.
"""

from class_file import ClassFile
from class_maker import (
    AASTORE, ANEWARRAY, DUP, GETSTATIC, ICONST_0, ICONST_1, IFEQ, INVOKESPECIAL, INVOKESTATIC, NEWARRAY, STATIC, ClassMaker, u2,
)
from driver import NAME, NullCalls, gives_objects, own_type

STRING = "java/lang/String"
# The classes of the JDK of which an object is made with no arguments, by the types for which it stands.
PLAIN = {
    "java/lang/Object": "java/lang/Object",
    "java/lang/StringBuilder": "java/lang/StringBuilder",
    "java/io/OutputStream": "java/io/ByteArrayOutputStream",
    "java/io/Writer": "java/io/StringWriter",
    "java/util/List": "java/util/ArrayList",
    "java/util/Collection": "java/util/ArrayList",
    "java/lang/Iterable": "java/util/ArrayList",
    "java/util/Set": "java/util/HashSet",
    "java/util/Map": "java/util/HashMap",
}
# Those that are made with one argument, and its type.
FILLED = {
    "java/io/InputStream": ("java/io/ByteArrayInputStream", "[B"),
    "java/io/Reader": ("java/io/StringReader", f"L{STRING};"),
    "java/io/File": ("java/io/File", f"L{STRING};"),
}
# The kinds of arrays of numbers (JVMS 6.5, `newarray`).
KINDS = {"Z": 4, "C": 5, "F": 6, "D": 7, "B": 8, "S": 9, "I": 10, "J": 11}


def above(library: dict[str, ClassFile], name: str) -> list[str]:
    """A class and all its supertypes that the library names."""
    found = [name]
    for each in found:
        if each in library:
            found.extend(one for one in library[each].supers() if one not in found)
    return found


class ObjectCalls(NullCalls):
    """The calls of these classes of a library. Their objects stand in the static fields of a class of its own."""

    def __init__(self, library: dict[str, ClassFile], names: list[str]) -> None:
        self.holder = ClassMaker(f"{NAME}Objects")
        self.fields: dict[str, str] = {}
        self.first_below: dict[str, str] = {}
        for name in names:
            if gives_objects(library[name]):
                self.fields[name] = f"object{len(self.fields)}"
                self.holder.add_field(STATIC, self.fields[name], own_type(library[name]))
                for each in above(library, name):
                    self.first_below.setdefault(each, name)

    def field_of(self, _maker: ClassMaker, found: ClassFile) -> tuple[str, str]:
        return self.holder.name, self.fields[found.name]

    def call(self, code: bytes) -> bytes:
        return bytes([ICONST_0, IFEQ]) + u2(3 + len(code)) + code

    def further_makers(self) -> list[ClassMaker]:
        return [self.holder]

    def argument(self, maker: ClassMaker, kind: str) -> bytes:
        if kind.startswith("["):
            return self.array(maker, kind[1:]) or super().argument(maker, kind)
        return (self.object(maker, kind[1:-1]) if kind.startswith("L") else None) or super().argument(maker, kind)

    def array(self, maker: ClassMaker, kind: str) -> bytes | None:
        """An array with one element of a type; None for an array of arrays."""
        if kind in KINDS:
            return bytes([ICONST_1, NEWARRAY, KINDS[kind]])
        if not kind.startswith("L"):
            return None
        made = bytes([ICONST_1, ANEWARRAY]) + u2(maker.class_entry(kind[1:-1]))
        return made + bytes([DUP, ICONST_0]) + self.argument(maker, kind) + bytes([AASTORE])

    def object(self, maker: ClassMaker, name: str) -> bytes | None:
        """An object of a class or of one below it, if there is one."""
        if name in (STRING, "java/lang/CharSequence"):
            return bytes([ICONST_0]) + maker.call(INVOKESTATIC, STRING, "valueOf", f"(C)L{STRING};")
        if name in PLAIN:
            return maker.construct(PLAIN[name])
        if name in FILLED:
            owner, kind = FILLED[name]
            return maker.new(owner) + self.argument(maker, kind) + maker.call(INVOKESPECIAL, owner, "<init>", f"({kind})V")
        below = name if name in self.fields else self.first_below.get(name)
        return maker.access(GETSTATIC, self.holder.name, self.fields[below], f"L{below};") if below else None
