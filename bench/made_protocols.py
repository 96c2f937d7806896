"""Makes programs of any size for the stages after the first, each of one kind of work. The protocol is that of properties/lock. The first
stage proves nothing, since the order of events matters; the later ones prove nothing either, since each program breaks the protocol at its end:
so each stage looks at each site. A program is class files by their names, and its entry the static method `main` of `()V` in the class `Main`.
"""

import pathlib
import sys
from collections.abc import Callable

sys.path.append(str(pathlib.Path(__file__).resolve().parent.parent / "tools"))

from class_maker import (  # noqa: E402
    ALOAD_0, ALOAD_1, ASTORE_0, ASTORE_1, ATHROW, GETFIELD, GOTO, ICONST_0, IFEQ, IFNE, INVOKESTATIC, INVOKEVIRTUAL, POP, PUBLIC, PUTFIELD, RETURN,
    STATIC, TABLESWITCH, ClassMaker, u2, u4,
)
from made_programs import ERROR, MAIN, Program, main_class, plain_class, program_of, with_entry

PROTOCOL = "lock"
LOCK, OTHER, HOLDER, THROWN = "Lock", "Other", "Holder", "Thrown"
LOCK_TYPE = f"L{LOCK};"
PASSED = f"({LOCK_TYPE})V"
# So many methods make an object where the number of sites is measured.
METHODS = 256


def lock_class(name: str = LOCK) -> ClassMaker:
    """A class with the methods `lock` and `unlock`."""
    maker = plain_class(name)
    for event in ("lock", "unlock"):
        maker.add_method(PUBLIC, event, "()V", 0, 1, bytes([RETURN]))
    return maker


def events(maker: ClassMaker, *names: str, owner: str = LOCK) -> bytes:
    """Calls these methods on the object in local variable 0."""
    return b"".join(bytes([ALOAD_0]) + maker.call(INVOKEVIRTUAL, owner, name, "()V") for name in names)


def made(maker: ClassMaker, owner: str = LOCK) -> bytes:
    """Makes an object, and puts it into local variable 0."""
    return maker.construct(owner) + bytes([ASTORE_0])


def sites(size: int) -> Program:
    """Methods that each make an object and break the protocol with it. So many of the objects are of the property's class, and the others of
    one that is like it."""
    main = main_class()
    code = b""
    for place in range(METHODS):
        owner = LOCK if place % (METHODS // size) == 0 else OTHER
        body = made(main, owner) + events(main, "lock", "unlock", "unlock", owner=owner)
        main.add_method(STATIC, f"use{place}", "()V", 2, 1, body + bytes([RETURN]))
        code += main.call(INVOKESTATIC, MAIN, f"use{place}", "()V")
    return program_of(with_entry(main, 0, 0, code), lock_class(), lock_class(OTHER))


def calls(size: int) -> Program:
    """So many methods. Each passes the object that it gets on to the next one, and the last one locks and unlocks it."""
    main = main_class()
    for place in range(size):
        call = bytes([ALOAD_0]) + main.call(INVOKESTATIC, MAIN, f"pass{place + 1}", PASSED)
        body = call if place + 1 < size else events(main, "lock", "unlock")
        main.add_method(STATIC, f"pass{place}", PASSED, 1, 1, body + bytes([RETURN]))
    code = made(main) + bytes([ALOAD_0]) + main.call(INVOKESTATIC, MAIN, "pass0", PASSED) + events(main, "unlock")
    return program_of(with_entry(main, 2, 1, code), lock_class())


def switch(size: int) -> Program:
    """A `tableswitch` with so many ways, which each lock the object and lead to one place."""
    main = main_class()
    head = made(main) + bytes([ICONST_0])
    way = events(main, "lock") + bytes([GOTO])
    length = len(way) + 2
    padding = bytes(-(len(head) + 1) % 4)
    first = 1 + len(padding) + 4 * (3 + size)
    end = first + size * length
    table = b"".join(u4(number) for number in (end, 0, size - 1, *range(first, end, length)))
    ways = b"".join(way + u2((size - place) * length - len(way) + 1) for place in range(size))
    code = head + bytes([TABLESWITCH]) + padding + table + ways + events(main, "unlock", "unlock")
    return program_of(with_entry(main, 2, 1, code), lock_class())


def handlers(size: int) -> Program:
    """So many calls of a method that throws, each with a handler of its own that takes what is thrown. The object is locked before each."""
    main = main_class()
    main.add_method(STATIC, "fail", "()V", 2, 0, main.construct(THROWN) + bytes([ATHROW]))
    lock, call = events(main, "lock"), main.call(INVOKESTATIC, MAIN, "fail", "()V")
    part = lock + call + bytes([GOTO]) + u2(4) + bytes([POP])
    head = made(main)
    starts = [len(head) + place * len(part) + len(lock) for place in range(size)]
    taken = u2(main.class_entry(THROWN))
    table = b"".join(u2(start) + u2(start + 3) + u2(start + 6) + taken for start in starts)
    code = head + part * size + events(main, "unlock", "unlock")
    return program_of(with_entry(main, 2, 1, code, table), lock_class(), plain_class(THROWN, ERROR))


def holder_class(size: int) -> ClassMaker:
    """A class with so many fields that hold a lock."""
    maker = plain_class(HOLDER)
    for place in range(size):
        maker.add_field(PUBLIC, f"held{place}", LOCK_TYPE)
    return maker


def field_loop(size: int) -> Program:
    """A loop that puts the object into so many fields of another one, and takes it out again."""
    main = main_class()
    loop = b""
    for place in range(size):
        loop += bytes([ALOAD_1, ALOAD_0]) + main.access(PUTFIELD, HOLDER, f"held{place}", LOCK_TYPE)
        loop += bytes([ALOAD_1]) + main.access(GETFIELD, HOLDER, f"held{place}", LOCK_TYPE) + bytes([ASTORE_0])
    back = bytes([ICONST_0, IFNE]) + u2(0x10000 - len(loop) - 1)
    head = main.construct(HOLDER) + bytes([ASTORE_1]) + made(main)
    code = head + loop + back + events(main, "lock", "unlock", "unlock")
    return program_of(with_entry(main, 2, 2, code), lock_class(), holder_class(size))


def field_branches(size: int) -> Program:
    """So many branches, one after another. Each puts the object into a field of its own, or does not."""
    main = main_class()
    code = main.construct(HOLDER) + bytes([ASTORE_1]) + made(main)
    for place in range(size):
        put = bytes([ALOAD_1, ALOAD_0]) + main.access(PUTFIELD, HOLDER, f"held{place}", LOCK_TYPE)
        code += bytes([ICONST_0, IFEQ]) + u2(3 + len(put)) + put
    code += events(main, "lock", "unlock", "unlock")
    return program_of(with_entry(main, 2, 2, code), lock_class(), holder_class(size))


# What each program is, and the sizes that are measured.
KINDS: list[tuple[str, Callable[[int], Program], tuple[int, int, int, int]]] = [
    (f"sites of the property in {METHODS} methods", sites, (1, 4, 16, 64)),
    ("methods that call one another", calls, (256, 512, 1_024, 2_048)),
    ("ways of a switch", switch, (256, 512, 1_024, 2_048)),
    ("handlers of calls", handlers, (256, 512, 1_024, 2_048)),
    ("fields in a loop", field_loop, (16, 32, 64, 128)),
    ("branches that put into fields", field_branches, (6, 8, 10, 12)),
]
