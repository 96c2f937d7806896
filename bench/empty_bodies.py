"""Empties methods of class files: such a method returns at once, 0 or null where it has a result, and throws nothing.
So a measure of code of real programs can leave out what an analysis refuses.

A constructor that is emptied calls none of its superclass. A JVM that verifies such a class refuses it; the analysis
looks at no such thing.
"""

import pathlib
import re
import sys
from dataclasses import dataclass

sys.path.append(str(pathlib.Path(__file__).resolve().parent.parent / "tools"))

from class_file import STATIC, Reader  # noqa: E402
from class_maker import (  # noqa: E402
    ACONST_NULL, ARETURN, DCONST_0, DRETURN, FCONST_0, FRETURN, ICONST_0, IRETURN, LCONST_0, LRETURN, RETURN,
    code_attribute,
)

PARAMETER = re.compile(r"\[*(?:L[^;]*;|[BCDFIJSZ])")
# By the first letter of a result's type: the code that returns its default value, and the units of stack for it.
RETURNS = {
    "V": (bytes([RETURN]), 0),
    "J": (bytes([LCONST_0, LRETURN]), 2),
    "F": (bytes([FCONST_0, FRETURN]), 1),
    "D": (bytes([DCONST_0, DRETURN]), 2),
    "L": (bytes([ACONST_NULL, ARETURN]), 1),
    "[": (bytes([ACONST_NULL, ARETURN]), 1),
}
RETURNS_INTEGER = (bytes([ICONST_0, IRETURN]), 1)


@dataclass
class Method:
    """A method of a class file: where its bytes begin and end, its flags, its name and its descriptor."""

    start: int
    end: int
    flags: int
    name: str
    descriptor: str


def parameter_types(descriptor: str) -> list[str]:
    """The types of the parameters of a method's descriptor."""
    return PARAMETER.findall(descriptor[1:descriptor.index(")")])


def result_type(descriptor: str) -> str:
    """The type of the result of a method's descriptor, or V."""
    return descriptor[descriptor.index(")") + 1:]


def units(kind: str) -> int:
    """The units of local variables, or of the stack, that a value of a type takes."""
    return 2 if kind in ("J", "D") else 1


def at_methods(data: bytes) -> Reader:
    """A reader of a class file before the number of its methods (JVMS 4.1)."""
    reader = Reader(data)
    reader.read_pool()
    for _ in ("flags", "class", "superclass"):
        reader.u2()
    for _ in range(reader.u2()):
        reader.u2()
    reader.members()
    return reader


def methods_of(reader: Reader) -> list[Method]:
    """The methods of a class file, in its order, by a reader that stands before their number."""
    found = []
    for _ in range(reader.u2()):
        start = reader.at
        (name, descriptor), member = reader.member()
        found.append(Method(start, reader.at, member.flags, name, descriptor))
    return found


def local_units(method: Method) -> int:
    """The units of local variables that the receiver and the parameters of a method take."""
    without_receiver = method.flags & STATIC or method.name == "<clinit>"
    return sum(map(units, parameter_types(method.descriptor))) + (0 if without_receiver else 1)


def emptied_method(reader: Reader, method: Method) -> bytes:
    """The bytes of a method with the default value as its code, and its other attributes as they were."""
    reader.at = method.start + 6
    count = reader.u2()
    code, stack = RETURNS.get(result_type(method.descriptor)[0], RETURNS_INTEGER)
    parts = [reader.data[method.start:reader.at]]
    for _ in range(count):
        start, name, length = reader.at, reader.u2(), reader.u4()
        reader.at += length
        is_code = reader.text(name) == "Code"
        new = code_attribute(name, stack, local_units(method), code) if is_code else reader.data[start:reader.at]
        parts.append(new)
    return b"".join(parts)


def offsets_of(data: bytes, named: set[str]) -> set[int]:
    """The offsets at which the methods begin of which the name and the descriptor, in one word, are among these."""
    return {method.start for method in methods_of(at_methods(data)) if method.name + method.descriptor in named}


def emptied(data: bytes, offsets: set[int]) -> bytes:
    """The class file with each method emptied in which one of the offsets stands."""
    reader = at_methods(data)
    parts, done, left = [], 0, set(offsets)
    for method in methods_of(reader):
        inside = {offset for offset in left if method.start <= offset < method.end}
        if inside:
            parts += [data[done:method.start], emptied_method(reader, method)]
            done = method.end
            left -= inside
    if left:
        raise ValueError(f"no method has the offset {min(left)}")
    return b"".join(parts) + data[done:]
