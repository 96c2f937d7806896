"""Finds the instructions that the verifier refuses where they may run (docs/REASONS.md, "Lowering"), before it is run."""

import struct
from collections.abc import Iterator
from dataclasses import dataclass

from class_file import NATIVE, ClassFile, Member, element_class
from closure import LEFT_OUT, POLYMORPHIC, Closure

REASONS: dict[str, str] = {
    "InvokeDynamic": "lambdas, method references and texts joined by invokedynamic",
    "MethodConstant": "method handles",
    "Reflection": "reflection",
    "Threads": "threads",
    "NoStub": "classes and members that nothing describes, and methods of arrays",
    "Finalizer": "new objects with a finalizer",
    "Subroutine": "the old instructions jsr and ret",
}
NEW, INVOKE_DYNAMIC, TABLE_SWITCH, LOOKUP_SWITCH, WIDE, IINC, RET = 187, 186, 170, 171, 196, 132, 169
CALLS, MEMBERS = range(182, 186), range(178, 186)
# The bytes behind an opcode (JVMS 6.5), where these are always as many; no other opcode has any, but for switches and wide.
OPERANDS = {
    **dict.fromkeys([16, 18, 188, RET, *range(21, 26), *range(54, 59)], 1),
    **dict.fromkeys([17, 19, 20, IINC, *range(153, 169), *range(178, 185), NEW, 189, 192, 193, 198, 199], 2),
    197: 3, 185: 4, INVOKE_DYNAMIC: 4, 200: 4, 201: 4,
}
NAMES_A_CLASS = {NEW, 189, 192, 193, 197}
LOADS_CONSTANT = {18, 19}
WAITING = {("wait", "()V"), ("wait", "(J)V"), ("wait", "(JI)V"), ("notify", "()V"), ("notifyAll", "()V")}
FREE_OF_CLASS = {"desiredAssertionStatus", "getName"}


@dataclass
class Use:
    """An instruction that is refused: the reason, its method and offset, and what it names."""
    reason: str
    method: str
    offset: int
    what: str


def length_at(code: bytes, at: int) -> int:
    """How many bytes the instruction at an offset takes."""
    opcode, padded = code[at], at + 4 - at % 4
    if opcode == TABLE_SWITCH:
        low, high = struct.unpack_from(">ii", code, padded + 4)
        return padded + 12 + 4 * (high - low + 1) - at
    if opcode == LOOKUP_SWITCH:
        return padded + 8 + 8 * struct.unpack_from(">i", code, padded + 4)[0] - at
    if opcode == WIDE:
        return 6 if code[at + 1] == IINC else 4
    return 1 + OPERANDS.get(opcode, 0)


def instructions(code: bytes) -> Iterator[tuple[int, int]]:
    """The offsets and opcodes of a method's code; it ends where the code is cut off."""
    at = 0
    try:
        while at < len(code):
            yield at, code[at]
            at += max(1, length_at(code, at))
    except (IndexError, struct.error):
        return


def visible(name: str) -> str:
    """A name in visible ASCII characters, as a report spells it."""
    data = name.encode("utf-8", "surrogatepass")
    return "".join(chr(each) if 0x21 <= each <= 0x7e and each != 0x5c else f"\\x{each:02x}" for each in data)


class Pool:
    """The constant pool of a class file, as instructions use it."""

    def __init__(self, found: ClassFile):
        self.pool = found.pool

    def text(self, index: int) -> str:
        """The text of an entry."""
        return self.pool[index][1][2:].decode("utf-8", "surrogatepass")

    def class_name(self, index: int) -> str:
        """The class that an entry names."""
        return self.text(struct.unpack(">H", self.pool[index][1])[0])

    def reference(self, index: int) -> tuple[str, str, str]:
        """The class, name and descriptor of a field or a method."""
        owner, pair = struct.unpack(">HH", self.pool[index][1])
        name, descriptor = struct.unpack(">HH", self.pool[pair][1])
        return self.class_name(owner), self.text(name), self.text(descriptor)


class Finder:
    """Finds what is refused in the folder of a closure, under the stub file that is written for it."""

    def __init__(self, closure: Closure):
        self.closure = closure
        self.undescribed = closure.missing_members | closure.base_fields | closure.left_out | closure.object_fields

    def all(self) -> list[Use]:
        """What is refused in all methods of the folder, class by class."""
        found: list[Use] = []
        for name in sorted(self.closure.own):
            each = self.closure.own[name]
            with open(each.path, "rb") as file:
                data = file.read()
            for key, member in each.methods.items():
                found += self.in_method(each, key, data[member.code_at:member.code_at + member.code_length])
        return found

    def in_method(self, found: ClassFile, key: tuple[str, str], code: bytes) -> Iterator[Use]:
        """What is refused in the code of a method."""
        pool = Pool(found)
        for offset, opcode in instructions(code):
            try:
                reason, what = self.judge(pool, code, offset, opcode)
            except (KeyError, IndexError, struct.error, UnicodeDecodeError):
                return
            if reason:
                yield Use(reason, visible(f"{found.name}.{key[0]}{key[1]}"), offset, what)

    def judge(self, pool: Pool, code: bytes, at: int, opcode: int) -> tuple[str, str]:
        """The reason against an instruction, or an empty text, and what the instruction names."""
        if opcode == INVOKE_DYNAMIC:
            return "InvokeDynamic", "invokedynamic"
        if opcode in (168, RET, 201) or (opcode == WIDE and code[at + 1] == RET):
            return "Subroutine", "jsr or ret"
        if opcode in LOADS_CONSTANT:
            index = code[at + 1] if opcode == 18 else struct.unpack_from(">H", code, at + 1)[0]
            tag = pool.pool[index][0]
            if tag in (15, 16):
                return "MethodConstant", "a constant of a method handle or a method type"
            return self.of_class(pool.class_name(index)) if tag == 7 else ("", "")
        index = struct.unpack_from(">H", code, at + 1)[0] if OPERANDS.get(opcode, 0) >= 2 else 0
        if opcode in NAMES_A_CLASS:
            name = pool.class_name(index)
            return self.of_class(name) if self.of_class(name)[0] or opcode != NEW else self.of_new(name)
        if opcode in MEMBERS:
            return self.of_member(pool.reference(index), opcode in CALLS)
        return "", ""

    def of_class(self, name: str) -> tuple[str, str]:
        """The reason against an instruction that names a class."""
        element = element_class(name)
        if element is None:
            return "", ""
        if element.startswith("java/lang/reflect/"):
            return "Reflection", element
        if self.is_thread(element):
            return "Threads", element
        return ("NoStub", element) if element in self.closure.missing else ("", "")

    def is_thread(self, name: str) -> bool:
        """Whether the verifier takes a class for one of threads."""
        if name in ("java/lang/Thread", "java/lang/ThreadGroup") or name.startswith("java/util/concurrent/"):
            return True
        return "java/lang/Thread" in self.closure.library_supers(name)

    def of_new(self, name: str) -> tuple[str, str]:
        """The reason against a new object of a class."""
        for each in [name, *self.closure.library_supers(name)]:
            if each in self.closure.folder and LEFT_OUT & set(self.closure.folder[each].methods):
                return "Finalizer", each
        return "", ""

    def of_member(self, member: tuple[str, str, str], is_call: bool) -> tuple[str, str]:
        """The reason against an instruction that names a field or a method."""
        owner, name, descriptor = member
        what = f"{owner}.{name}{descriptor}" if is_call else f"{owner}.{name}"
        if owner in POLYMORPHIC and is_call:
            return "MethodConstant", what
        if owner == "java/lang/Class" and is_call and name not in FREE_OF_CLASS:
            return "Reflection", what
        reason, _ = self.of_class(owner)
        if reason in ("Reflection", "Threads"):
            return reason, what
        if is_call and (name, descriptor) in WAITING:
            return "Threads", what
        return (reason or ("NoStub" if owner.startswith("[") or self.is_undescribed(member) else "")), what

    def is_undescribed(self, member: tuple[str, str, str]) -> bool:
        """Whether a member of the library that is named stays undescribed, by the class that is named or the one that has it."""
        owner, *key = member
        if member in self.undescribed:
            return True
        declaring = self.closure.find_field(owner, tuple(key)) if "(" not in key[1] else None
        return declaring is not None and (declaring, *key) in self.undescribed


def natives(closure: Closure) -> list[str]:
    """The native methods of the folder: a stub has to describe them."""
    is_native = lambda member: isinstance(member, Member) and member.has(NATIVE)
    return [visible(f"{name}.{key[0]}{key[1]}") for name in sorted(closure.own)
            for key, member in closure.own[name].methods.items() if is_native(member)]


def named_at(found: ClassFile, code: bytes, at: int) -> str:
    """The class or the member that the instruction at an offset names, or an empty text."""
    pool = Pool(found)
    try:
        index = struct.unpack_from(">H", code, at + 1)[0]
        if code[at] in NAMES_A_CLASS:
            return pool.class_name(index)
        return ".".join(pool.reference(index)[:2]) if code[at] in MEMBERS else ""
    except (KeyError, IndexError, struct.error, UnicodeDecodeError):
        return ""


def counts(uses: list[Use], native: list[str]) -> dict[str, list[str]]:
    """How many instructions are refused for each reason and in how many methods, as a line, with these methods; and the native ones."""
    found = {}
    for reason, says in REASONS.items():
        of_reason = [use for use in uses if use.reason == reason]
        methods = list(dict.fromkeys(use.method for use in of_reason))
        if methods:
            found[f"{reason} {len(of_reason)} in {len(methods)} method{'s' * (len(methods) > 1)}: {says}"] = methods
    if native:
        found[f"native methods {len(native)}: they are described by assumption, and refused without"] = native
    return found


def listing(uses: list[Use], native: list[str]) -> str:
    """All of it: a line for each instruction, with its reason, method, offset and what it names, and then the native methods."""
    lines = [f"{use.reason} {use.method} {use.offset} {use.what}" for use in uses]
    return "".join(line + "\n" for line in lines + [f"native {name}" for name in native])
