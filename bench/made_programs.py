"""Makes programs of any size, each of one kind of work for an analysis of what variables refer to. A program is class
files by their names; its entry is the static method `main` of `()V` in the class `Main`.
"""

import pathlib
import sys
from collections.abc import Callable

sys.path.append(str(pathlib.Path(__file__).resolve().parent.parent / "tools"))

from class_maker import (  # noqa: E402
    ALOAD_0, ASTORE_0, ATHROW, GETFIELD, GETSTATIC, GOTO, INVOKESTATIC, INVOKEVIRTUAL, OBJECT, POP, PUBLIC, PUTFIELD,
    PUTSTATIC, RETURN, STATIC, ClassMaker, u2,
)

MAIN = "Main"
FIELD_TYPE = f"L{OBJECT};"
PASSED = f"({FIELD_TYPE})V"
ERROR = "java/lang/RuntimeException"
# In class files of this version a JVM needs no frames where branches lead (JVMS 4.10.2).
VERSION = 49
# So many methods of a chain stand in one class, and so many objects go round in a cycle.
METHODS_OF_CLASS = 8_192
OBJECTS_OF_CYCLE = 64

Program = dict[str, bytes]


def plain_class(name: str, above: str = OBJECT) -> ClassMaker:
    """A class with a constructor."""
    maker = ClassMaker(name, above, VERSION)
    maker.add_constructor(above)
    return maker


def main_class() -> ClassMaker:
    """The class of the entry, of which objects are made too."""
    return plain_class(MAIN)


def with_entry(maker: ClassMaker, stack: int, local: int, code: bytes, handlers: bytes = b"") -> ClassMaker:
    """The class of the entry with this code as the entry."""
    maker.add_method(PUBLIC | STATIC, "main", "()V", stack, local, code + bytes([RETURN]), handlers)
    return maker


def program_of(*makers: ClassMaker) -> Program:
    """The class files of classes."""
    return {f"{maker.name}.class": maker.content() for maker in makers}


def chain(size: int) -> Program:
    """So many methods; each passes the object that it gets to the next one."""
    makers: list[ClassMaker] = []
    for place in range(size):
        if place % METHODS_OF_CLASS == 0:
            makers.append(plain_class(f"Chain{len(makers)}"))
        after = place + 1
        call = makers[-1].call(INVOKESTATIC, f"Chain{after // METHODS_OF_CLASS}", f"pass{after}", PASSED)
        code = bytes([ALOAD_0]) + call if after < size else b""
        makers[-1].add_method(STATIC, f"pass{place}", PASSED, 1, 1, code + bytes([RETURN]))
    main = main_class()
    code = main.construct(MAIN) + main.call(INVOKESTATIC, "Chain0", "pass0", PASSED)
    return program_of(with_entry(main, 2, 0, code), *makers)


def overriding(size: int) -> Program:
    """So many classes that override one method; an object of each may be what the method is called on."""
    base = plain_class("Base")
    base.add_method(PUBLIC, "run", "()V", 0, 1, bytes([RETURN]))
    makers = [base]
    main = main_class()
    main.add_field(STATIC, "object", "LBase;")
    code = b""
    for place in range(size):
        makers.append(plain_class(f"Below{place}", "Base"))
        makers[-1].add_method(PUBLIC, "run", "()V", 0, 1, bytes([RETURN]))
        code += main.construct(makers[-1].name) + main.access(PUTSTATIC, MAIN, "object", "LBase;")
    code += main.access(GETSTATIC, MAIN, "object", "LBase;") + main.call(INVOKEVIRTUAL, "Base", "run", "()V")
    return program_of(with_entry(main, 2, 0, code), *makers)


def handling(size: int) -> Program:
    """So many calls of a method that throws an object, each with a handler of its own that takes it."""
    thrown = plain_class("Thrown", ERROR)
    main = main_class()
    throws = main.construct("Thrown") + bytes([ATHROW])
    main.add_method(STATIC, "fail", "()V", 2, 0, throws)
    call = main.call(INVOKESTATIC, MAIN, "fail", "()V")
    taken = u2(main.class_entry("Thrown"))
    part = call + bytes([GOTO]) + u2(4) + bytes([POP])
    starts = [place * len(part) for place in range(size)]
    handlers = b"".join(u2(start) + u2(start + 3) + u2(start + 6) + taken for start in starts)
    return program_of(with_entry(main, 1, 0, part * size, handlers), thrown)


def cycle(size: int) -> Program:
    """So many static fields; what one holds is put into the next one, and what the last one holds into the first. Each
    of the objects that go round is made at a place of its own."""
    main = main_class()
    names = [f"object{place}" for place in range(size)]
    for name in names:
        main.add_field(STATIC, name, FIELD_TYPE)
    first = main.access(PUTSTATIC, MAIN, names[0], FIELD_TYPE)
    code = (main.construct(MAIN) + first) * OBJECTS_OF_CYCLE
    for before, after in zip(names, names[1:] + names[:1]):
        code += main.access(GETSTATIC, MAIN, before, FIELD_TYPE) + main.access(PUTSTATIC, MAIN, after, FIELD_TYPE)
    return program_of(with_entry(main, 2, 0, code))


def one_field(size: int) -> Program:
    """So many objects, each made at a place of its own, that are put into one field; it is read as often."""
    main = main_class()
    main.add_field(PUBLIC, "held", FIELD_TYPE)
    put = main.construct(MAIN) + main.access(PUTFIELD, MAIN, "held", FIELD_TYPE)
    get = bytes([ALOAD_0]) + main.access(GETFIELD, MAIN, "held", FIELD_TYPE) + bytes([POP])
    code = main.construct(MAIN) + bytes([ASTORE_0]) + (bytes([ALOAD_0]) + put + get) * size
    return program_of(with_entry(main, 3, 1, code))


# What each program is, and the sizes that are measured: a quarter, a half and the whole.
KINDS: list[tuple[str, Callable[[int], Program], tuple[int, int, int]]] = [
    ("methods that pass one object on", chain, (8_192, 16_384, 32_768)),
    ("classes that override one method", overriding, (1_024, 2_048, 4_096)),
    ("handlers of one thrown class", handling, (2_048, 4_096, 8_192)),
    (f"fields in a cycle of {OBJECTS_OF_CYCLE} objects", cycle, (2_048, 4_096, 8_192)),
    ("objects in one field", one_field, (256, 512, 1_024)),
]
