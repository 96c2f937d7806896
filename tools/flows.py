"""Where the instructions of a method lead, what they call and initialise, and in which slots their operands are. Slots are the local variables
and, numbered on from these, the units of the operand stack."""

from dataclasses import dataclass
from functools import cached_property

from bodies import (ARRAY_STORE, CALLS, CAST, FIELDS, GETSTATIC, INVOKE_INTERFACE, INVOKE_STATIC, INVOKE_VIRTUAL, NEW, PUTSTATIC, THROW,
                    THROWABLE, Body, Key, Typing, parameter_types, units)
from program import Program
from refusals import WIDE

RETURNS = set(range(172, 178))
# The instructions that store into a local variable: those with its number as operand, and the first of those with the number in the opcode.
STORES, SHORT_STORES, IINC = set(range(54, 59)), 59, 132
INITIALISING = {NEW, GETSTATIC, PUTSTATIC, INVOKE_STATIC}
# The exceptions that instructions may throw themselves (JVMS 6.5), all in java/lang, but for those of initialisation; a throw may throw any.
NULL, BOUNDS, SIZE = "NullPointerException", "ArrayIndexOutOfBoundsException", "NegativeArraySizeException"
RAISES: dict[int, tuple[str, ...]] = {
    **dict.fromkeys((*range(46, 54), *range(79, 87)), (NULL, BOUNDS)), ARRAY_STORE: (NULL, BOUNDS, "ArrayStoreException"),
    **dict.fromkeys((108, 109, 112, 113), ("ArithmeticException",)), **dict.fromkeys((180, 181, 182, 183, 185, 190, 194, 195), (NULL,)),
    **dict.fromkeys((188, 189, 197), (SIZE,)), CAST: ("ClassCastException",), THROW: ("Throwable",),
}
OF_INITIALISATION = ("ExceptionInInitializerError", "NoClassDefFoundError")
INITIALISER: Key = ("<clinit>", "()V")


@dataclass(frozen=True)
class Call:
    """A call: its opcode, the class and the method that it names, and the slots of its arguments, the receiver first, unit by unit."""
    opcode: int
    owner: str
    key: Key
    slots: tuple[int, ...]

    @property
    def selects(self) -> bool:
        """Whether the object that it is made on selects what is called."""
        return self.opcode in (INVOKE_VIRTUAL, INVOKE_INTERFACE)


class Flow:
    """The instructions of a method, by their offsets."""

    def __init__(self, body: Body, program: Program):
        self.body = body
        self.typing = Typing(body, program.join)
        self.heights = {offset: len(stack) for offset, stack in self.typing.stacks().items()}
        self.locals = body.slots()
        self.after = {offset: set(self.typing.targets(offset, self.opcode(offset))) for offset in self.heights}

    @cached_property
    def parameters(self) -> dict[int, int]:
        """The parameters, counted from 1, by the local variables that hold them at the start."""
        found, at = {}, 0 if self.body.is_static else 1
        for number, kind in enumerate(parameter_types(self.body.key[1]), 1):
            found[at] = number
            at += len(units(kind))
        return found

    @cached_property
    def without_handlers(self) -> set[int]:
        """The instructions that are reached without an exception."""
        found, waiting = {0}, [0]
        while waiting:
            new = self.after[waiting.pop()] - found
            found |= new
            waiting += new
        return found

    @cached_property
    def before(self) -> dict[int, set[int]]:
        """The instructions that may lead to one: without an exception, or by one to a handler."""
        found: dict[int, set[int]] = {offset: set() for offset in self.heights}
        ways = [(offset, target) for offset, targets in self.after.items() for target in targets]
        ways += [(offset, row.target) for row in self.typing.handlers for offset in self.heights if row.start <= offset < row.end]
        for offset, target in ways:
            found.setdefault(target, set()).add(offset)
        return found

    def opcode(self, offset: int) -> int:
        """The instruction at an offset."""
        return self.typing.opcodes[offset]

    def next(self, offset: int) -> int:
        """The offset of the instruction that stands behind one."""
        return self.typing.next[offset]

    def catches(self, offset: int, target: int) -> list[str]:
        """The classes of exceptions with which an instruction may lead to a handler that begins at the target; Throwable for any."""
        rows = [each for each in self.typing.handlers if each.target == target and each.start <= offset < each.end]
        return [THROWABLE if each.catches == "any" else each.catches for each in rows]

    def operand(self, offset: int, below: int = 0) -> int:
        """The slot of the highest operand of an instruction, or of one that stands below it."""
        return self.locals + self.heights[offset] - 1 - below

    def member(self, offset: int) -> tuple[str, Key]:
        """The class and the member that an instruction names."""
        owner, name, descriptor = self.body.pool.reference(self.body.index(offset))
        return owner, (name, descriptor)

    def call(self, offset: int) -> Call | None:
        """The call at an offset, if there is one."""
        opcode = self.opcode(offset)
        if opcode not in CALLS:
            return None
        owner, key = self.member(offset)
        count = sum(len(units(kind)) for kind in parameter_types(key[1])) + (opcode != INVOKE_STATIC)
        top = self.locals + self.heights[offset]
        return Call(opcode, owner, key, tuple(range(top - count, top)))

    def initialises(self, offset: int) -> str | None:
        """The class whose initialiser an instruction may start."""
        opcode = self.opcode(offset)
        if opcode not in INITIALISING:
            return None
        return self.body.pool.class_name(self.body.index(offset)) if opcode == NEW else self.member(offset)[0]

    def stored(self, offset: int) -> int | None:
        """The local variable into which an instruction stores."""
        opcode, code = self.opcode(offset), self.body.code
        if opcode == WIDE:
            return int.from_bytes(code[offset + 2:offset + 4], "big") if code[offset + 1] in {*STORES, IINC} else None
        if opcode in STORES or opcode == IINC:
            return code[offset + 1]
        return (opcode - SHORT_STORES) % 4 if SHORT_STORES <= opcode < SHORT_STORES + 20 else None

    def names_member(self, offset: int) -> bool:
        """Whether an instruction calls a method, or reads or writes a field."""
        return self.opcode(offset) in CALLS | FIELDS
