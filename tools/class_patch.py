"""Cuts instructions out of class files: in place of one that calls, reads, writes or makes something stands a call of a static method that takes
and gives the same. The code keeps its length, so that offsets and lines stay."""

import struct

from bodies import parameter_types, result_type
from class_file import OBJECT, Reader, element_class
from class_maker import CLASS, METHOD, MOST_ENTRIES, NAME_AND_TYPE, TEXT, ClassMaker, u2
from refusals import instructions, length_at

# The class of the methods that stand for what is cut out, and their name; they are told apart by their descriptors.
CUT, NAME = "typestate/Cut", "cut"
NOP, LDC, LDC_WIDE, INVOKE_STATIC, INVOKE_DYNAMIC, NEW, OBJECT_ARRAY, CAST, INSTANCE, MANY_ARRAYS = 0, 18, 19, 184, 186, 187, 189, 192, 193, 197
CALLS, GETSTATIC, PUTSTATIC, GETFIELD, PUTFIELD = range(182, 186), 178, 179, 180, 181


class CannotCut(Exception):
    """The instruction is none that can be cut out; the text says why."""


def erased(kind: str) -> str:
    """A parameter's type, with Object for each class and array."""
    return f"L{OBJECT};" if kind[0] in "L[" else kind


def descriptor(takes: list[str], gives: str) -> str:
    """The descriptor of the method that stands for an instruction."""
    return f"({''.join(map(erased, takes))}){gives}"


class Patch:
    """A class file in which instructions are replaced, and entries of the constant pool added: `count` is the index of the first one."""

    def __init__(self, data: bytes):
        self.reader = Reader(data)
        self.reader.read_pool()
        self.pool, self.after_pool = self.reader.pool, self.reader.at
        self.count: int = struct.unpack_from(">H", data, 8)[0]
        self.data = bytearray(data)
        self.added: dict[bytes, int] = {}

    # ---- the constant pool

    def entry(self, tag: int, body: bytes) -> int:
        """The index of an entry that is added, or of one that was added with these bytes."""
        content = bytes([tag]) + body
        if content not in self.added:
            if self.count + len(self.added) >= MOST_ENTRIES:
                raise CannotCut("the constant pool of its class is full")
            self.added[content] = self.count + len(self.added)
        return self.added[content]

    def text(self, text: str) -> int:
        """The index of a text."""
        spelled = text.encode("utf-8", "surrogatepass")
        return self.entry(TEXT, u2(len(spelled)) + spelled)

    def class_entry(self, name: str) -> int:
        """The index of a class."""
        return self.entry(CLASS, u2(self.text(name)))

    def stand_in(self, takes_and_gives: str) -> int:
        """The index of the method that stands for an instruction."""
        pair = self.entry(NAME_AND_TYPE, u2(self.text(NAME)) + u2(self.text(takes_and_gives)))
        return self.entry(METHOD, u2(self.class_entry(CUT)) + u2(pair))

    def member(self, index: int) -> tuple[str, str, str]:
        """The class, the name and the descriptor of a field or a method."""
        return self.reader.reference(self.pool[index][1])

    def class_below_256(self) -> int:
        """The index of a class that a short instruction can load, which is the one of this file, or one that is surely there."""
        wanted = {self.reader.class_name(struct.unpack_from(">H", self.data, self.after_pool + 2)[0]), OBJECT}
        for index, (tag, _) in self.pool.items():
            if tag == CLASS and index < 256 and self.reader.class_name(index) in wanted:
                return index
        raise CannotCut("it loads a constant, and no other one is near")

    # ---- instructions

    def index(self, at: int) -> int:
        """The index of the constant pool that an instruction has, by its place in the file."""
        return struct.unpack_from(">H", self.data, at + 1)[0]

    def stands_for(self, at: int) -> str:
        """The descriptor of the method that stands for the instruction at a place of the file; empty where none does."""
        opcode, receiver = self.data[at], [f"L{OBJECT};"]
        if opcode == INVOKE_DYNAMIC:
            _, pair = struct.unpack(">HH", self.pool[self.index(at)][1])
            dynamic = self.reader.text(struct.unpack(">HH", self.pool[pair][1])[1])
            return descriptor(parameter_types(dynamic), result_type(dynamic))
        if opcode in CALLS:
            named = self.member(self.index(at))[2]
            return descriptor(receiver * (opcode != INVOKE_STATIC) + parameter_types(named), result_type(named))
        if GETSTATIC <= opcode <= PUTFIELD:
            kind = self.member(self.index(at))[2]
            takes = receiver * (opcode in (GETFIELD, PUTFIELD)) + [kind] * (opcode in (PUTSTATIC, PUTFIELD))
            return descriptor(takes, "V" if opcode in (PUTSTATIC, PUTFIELD) else kind)
        return {NEW: descriptor([], f"L{OBJECT};"), INSTANCE: descriptor(receiver, "I")}.get(opcode, "")

    def cut(self, at: int) -> None:
        """Cuts the instruction at a place of the file out."""
        opcode, length = self.data[at], length_at(bytes(self.data[at:at + 6]), 0)
        stands_for = self.stands_for(at)
        if stands_for:
            new = bytes([INVOKE_STATIC]) + u2(self.stand_in(stands_for))
        elif opcode == CAST:
            new = b""
        elif opcode in (OBJECT_ARRAY, MANY_ARRAYS):
            new = bytes([opcode]) + u2(self.class_entry(self.of_objects(at))) + bytes(self.data[at + 3:at + length])
        elif opcode == LDC:
            new = bytes([LDC, self.class_below_256()])
        elif opcode == LDC_WIDE:
            new = bytes([LDC_WIDE]) + u2(self.class_entry(OBJECT))
        else:
            raise CannotCut("it is an instruction that nothing can stand for")
        self.data[at:at + length] = new + bytes([NOP]) * (length - len(new))

    def of_objects(self, at: int) -> str:
        """The class that stands for the one that an instruction makes an array of: Object, with the same dimensions."""
        named = self.reader.class_name(self.index(at))
        ranks = len(named) - len(named.lstrip("["))
        if ranks and element_class(named) is None:
            return named
        return "[" * ranks + (f"L{OBJECT};" if ranks else OBJECT)

    def content(self) -> bytes:
        """The class file."""
        head = bytes(self.data[:8]) + u2(self.count + len(self.added))
        return head + bytes(self.data[10:self.after_pool]) + b"".join(self.added) + bytes(self.data[self.after_pool:])


def is_instruction(code: bytes, offset: int) -> bool:
    """Whether an instruction begins at an offset of a method's code."""
    return any(at == offset for at, _ in instructions(code))


def stand_ins(descriptors: list[str]) -> bytes:
    """The class file of the methods that stand for what is cut out: native ones, which the stub file describes."""
    made = ClassMaker(CUT)
    for each in descriptors:
        made.add_native(NAME, each)
    return made.content()
