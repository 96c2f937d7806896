"""The code of the methods of class files as words, for tests alone: each instruction as `expect.py` reads it, with its
mnemonic first, then what it names, and branch targets as offsets (JVMS 4.4, 4.7.3, 6.5)."""

import struct
from pathlib import Path
from typing import Iterator

from plain_program import Reader

MNEMONICS = (
    "nop aconst_null iconst_m1 iconst_0 iconst_1 iconst_2 iconst_3 iconst_4 iconst_5 lconst_0 lconst_1 fconst_0 "
    "fconst_1 fconst_2 dconst_0 dconst_1 bipush sipush ldc ldc_w ldc2_w iload lload fload dload aload iload_0 iload_1 "
    "iload_2 iload_3 lload_0 lload_1 lload_2 lload_3 fload_0 fload_1 fload_2 fload_3 dload_0 dload_1 dload_2 dload_3 "
    "aload_0 aload_1 aload_2 aload_3 iaload laload faload daload aaload baload caload saload istore lstore fstore "
    "dstore astore istore_0 istore_1 istore_2 istore_3 lstore_0 lstore_1 lstore_2 lstore_3 fstore_0 fstore_1 fstore_2 "
    "fstore_3 dstore_0 dstore_1 dstore_2 dstore_3 astore_0 astore_1 astore_2 astore_3 iastore lastore fastore dastore "
    "aastore bastore castore sastore pop pop2 dup dup_x1 dup_x2 dup2 dup2_x1 dup2_x2 swap iadd ladd fadd dadd isub "
    "lsub fsub dsub imul lmul fmul dmul idiv ldiv fdiv ddiv irem lrem frem drem ineg lneg fneg dneg ishl lshl ishr "
    "lshr iushr lushr iand land ior lor ixor lxor iinc i2l i2f i2d l2i l2f l2d f2i f2l f2d d2i d2l d2f i2b i2c i2s "
    "lcmp fcmpl fcmpg dcmpl dcmpg ifeq ifne iflt ifge ifgt ifle if_icmpeq if_icmpne if_icmplt if_icmpge if_icmpgt "
    "if_icmple if_acmpeq if_acmpne goto jsr ret tableswitch lookupswitch ireturn lreturn freturn dreturn areturn "
    "return getstatic putstatic getfield putfield invokevirtual invokespecial invokestatic invokeinterface "
    "invokedynamic new newarray anewarray arraylength athrow checkcast instanceof monitorenter monitorexit wide "
    "multianewarray ifnull ifnonnull goto_w jsr_w").split()
CONSTANTS = {3: "int", 4: "float", 5: "long", 6: "double", 7: "class", 8: "string", 15: "handle", 16: "mtype"}
ARRAYS = {4: "boolean", 5: "char", 6: "float", 7: "double", 8: "byte", 9: "short", 10: "int", 11: "long"}
WITH_LOCAL = {f"{kind}{move}" for kind in "ilfda" for move in ("load", "store")} | {"ret"}
WITH_MEMBER = {"getstatic", "putstatic", "getfield", "putfield"}
WITH_CALL = {"invokevirtual", "invokespecial", "invokestatic"}
WITH_CLASS = {"new", "anewarray", "checkcast", "instanceof"}

# The words of an instruction, and its size.
Instruction = tuple[list[str], int]


class CodeWords:
    """The code of a method, which begins at a place of a class file: its limits, handlers and instructions."""

    def __init__(self, path: Path, start: int):
        self.data, self.start = path.read_bytes(), start
        self.reader = Reader(self.data)
        self.reader.whole()
        self.stack, self.locals, self.length = struct.unpack_from(">HHI", self.data, start - 8)
        self.handlers = [self.handler(place) for place in range(self.number("H", self.length))]

    def number(self, form: str, offset: int) -> int:
        """The number of a form at an offset from the first byte of the code."""
        return struct.unpack_from(f">{form}", self.data, self.start + offset)[0]

    def handler(self, place: int) -> tuple[int, int, int, str]:
        """From which offset to which a handler covers the code, where it begins, and which class it takes."""
        begins, ends, target, taken = struct.unpack_from(">HHHH", self.data, self.start + self.length + 2 + 8 * place)
        return begins, ends, target, self.reader.class_name(taken) if taken else "any"

    def instructions(self) -> Iterator[tuple[int, list[str]]]:
        """Each instruction, with its offset."""
        offset = 0
        while offset < self.length:
            words, size = self.instruction(offset)
            yield offset, words
            offset += size

    def instruction(self, offset: int) -> Instruction:
        name = MNEMONICS[self.number("B", offset)]
        if name.endswith("switch"):
            return self.switch(name, offset)
        if name.startswith(("if", "goto", "jsr")):
            form, size = ("i", 5) if name.endswith("_w") else ("h", 3)
            return [name, str(offset + self.number(form, offset + 1))], size
        if name.startswith("ldc"):
            form, size = ("B", 2) if name == "ldc" else ("H", 3)
            tag, _ = self.reader.pool[self.number(form, offset + 1)]
            return [name, CONSTANTS[tag]], size
        if name == "wide":
            inner = MNEMONICS[self.number("B", offset + 1)]
            return [name, inner, str(self.number("H", offset + 2))], 6 if inner == "iinc" else 4
        return self.with_operand(name, offset)

    def with_operand(self, name: str, offset: int) -> Instruction:
        """An instruction with an operand of one form, or with none."""
        if name in WITH_LOCAL or name == "iinc":
            return [name, str(self.number("B", offset + 1))], 3 if name == "iinc" else 2
        if name in WITH_MEMBER:
            owner, member, descriptor = self.member(offset)
            return [name, f"{owner}.{member}", descriptor], 3
        if name in WITH_CALL or name == "invokeinterface":
            owner, member, descriptor = self.member(offset)
            return [name, f"{owner}.{member}{descriptor}"], 3 if name in WITH_CALL else 5
        if name in WITH_CLASS:
            return [name, self.named(offset)], 3
        if name == "multianewarray":
            return [name, self.named(offset), str(self.number("B", offset + 3))], 4
        if name == "newarray":
            return [name, ARRAYS[self.number("B", offset + 1)]], 2
        return [name], {"bipush": 2, "sipush": 3, "invokedynamic": 5}.get(name, 1)

    def switch(self, name: str, offset: int) -> Instruction:
        """A switch, with its default and its other targets, in the order in which `expect.py` reads them."""
        at = offset + 1 + -(offset + 1) % 4
        otherwise, low, high = (self.number("i", at + 4 * place) for place in range(3))
        if name == "tableswitch":
            steps = [self.number("i", at + 12 + 4 * place) for place in range(high - low + 1)]
            targets = [str(offset + step) for step in [otherwise] + steps]
            return [name, str(low), str(high)] + targets, at + 12 + 4 * len(steps) - offset
        pairs = [(self.number("i", at + 8 + 8 * place), self.number("i", at + 12 + 8 * place)) for place in range(low)]
        targets = [f"{key}:{offset + step}" for key, step in pairs]
        return [name, str(offset + otherwise)] + targets, at + 8 + 8 * len(pairs) - offset

    def named(self, offset: int) -> str:
        """The class that the index behind the opcode names."""
        return self.reader.class_name(self.number("H", offset + 1))

    def member(self, offset: int) -> tuple[str, str, str]:
        """The class, the name and the descriptor of the member that the index behind the opcode names."""
        _, body = self.reader.pool[self.number("H", offset + 1)]
        return self.reader.reference(body)
