"""Reads the code of methods: the instructions that name something, each with the types of what it takes from the operand stack, the
handlers, and the lines. Types are those that can be seen in the method alone: where two ways meet with different ones, Object."""

import struct
from collections.abc import Callable, Iterator
from dataclasses import dataclass, field

from class_file import OBJECT, ClassFile
from refusals import LOADS_CONSTANT, LOOKUP_SWITCH, TABLE_SWITCH, WIDE, Pool, instructions

STRING, THROWABLE = "java/lang/String", "java/lang/Throwable"
# A type on the operand stack or in a local variable: a primitive value of one unit, a unit of one of two, null, or nothing that is
# known; any other one is the name of a class, or the descriptor of an array.
ONE, TWO, NULL, NOTHING = "1", "2", "0", ""
GETSTATIC, PUTSTATIC, GETFIELD, PUTFIELD = 178, 179, 180, 181
INVOKE_VIRTUAL, INVOKE_SPECIAL, INVOKE_STATIC, INVOKE_INTERFACE = 182, 183, 184, 185
NEW, NEW_ARRAY, OBJECT_ARRAY, THROW, CAST, INSTANCE, MANY_ARRAYS = 187, 188, 189, 191, 192, 193, 197
# Each instruction that loads the object of a class, as one opcode, and each one that loads a text.
CLASS_CONSTANT, TEXT_CONSTANT = 18, 19
ARRAY_LOAD, ARRAY_STORE, OBJECT_RETURN, ACONST_NULL, POP = 50, 83, 176, 1, 87
CALLS = {INVOKE_VIRTUAL, INVOKE_SPECIAL, INVOKE_STATIC, INVOKE_INTERFACE}
FIELDS = {GETSTATIC, PUTSTATIC, GETFIELD, PUTFIELD}
NAMES_CLASS = {NEW, OBJECT_ARRAY, CAST, INSTANCE, MANY_ARRAYS}
PRIMITIVE_ARRAYS = {4: "[Z", 5: "[C", 6: "[F", 7: "[D", 8: "[B", 9: "[S", 10: "[I", 11: "[J"}
JUMPS = {*range(153, 169), 198, 199}
ENDS = {167, 169, TABLE_SWITCH, LOOKUP_SWITCH, *range(172, 178), THROW, 200}


def plain_effects() -> dict[int, tuple[int, str]]:
    """The units that an instruction takes, and what it puts, of all that move primitive values alone (JVMS 6.5)."""
    found: dict[int, tuple[int, str]] = {0: (0, ""), 132: (0, ""), 167: (0, ""), 200: (0, ""), 190: (1, ONE), 177: (0, "")}
    for opcodes, taken, put in [
        ((*range(2, 9), *range(11, 14), 16, 17, 21, 23, *range(26, 30), *range(34, 38)), 0, ONE),
        ((9, 10, 14, 15, 20, 22, 24, *range(30, 34), *range(38, 42)), 0, TWO + TWO),
        ((46, 48, 51, 52, 53), 2, ONE), ((47, 49), 2, TWO + TWO),
        ((79, 81, 84, 85, 86), 3, ""), ((80, 82), 4, ""), ((87,), 1, ""), ((88,), 2, ""),
        ((*range(96, 115, 4), *range(98, 116, 4), 120, 122, 124, 126, 128, 130), 2, ONE),
        ((*range(97, 116, 4), *range(99, 116, 4), 127, 129, 131), 4, TWO + TWO),
        ((121, 123, 125), 3, TWO + TWO), ((116, 118, 134, 139, 145, 146, 147), 1, ONE), ((117, 119, 138, 143), 2, TWO + TWO),
        ((133, 135, 140, 141), 1, TWO + TWO), ((136, 137, 142, 144), 2, ONE),
        ((148, 151, 152), 4, ONE), ((149, 150), 2, ONE),
        ((*range(153, 159), TABLE_SWITCH, LOOKUP_SWITCH, 172, 174, OBJECT_RETURN, THROW, 194, 195, 198, 199), 1, ""),
        ((*range(159, 167), 173, 175), 2, ""),
    ]:
        found.update(dict.fromkeys(opcodes, (taken, put)))
    return found


EFFECTS = plain_effects()
# Of the instructions that copy units: how many are taken, and which of these are put, counted from the lowest.
COPIES = {89: (1, (0, 0)), 90: (2, (1, 0, 1)), 91: (3, (2, 0, 1, 2)), 92: (2, (0, 1, 0, 1)), 93: (3, (1, 2, 0, 1, 2)),
          94: (4, (2, 3, 0, 1, 2, 3)), 95: (2, (1, 0))}
Key = tuple[str, str]


def parameter_types(descriptor: str) -> list[str]:
    """The descriptors of the parameters of a method."""
    found, at = [], 1
    while descriptor[at] != ")":
        start = at
        while descriptor[at] == "[":
            at += 1
        at = descriptor.index(";", at) + 1 if descriptor[at] == "L" else at + 1
        found.append(descriptor[start:at])
    return found


def result_type(descriptor: str) -> str:
    """The descriptor of the result of a method."""
    return descriptor[descriptor.index(")") + 1:]


def named_type(descriptor: str) -> str:
    """A reference type as a constant pool names it: a class by its name, an array by its descriptor; of a primitive type nothing."""
    return descriptor[1:-1] if descriptor[0] == "L" else descriptor if descriptor[0] == "[" else NOTHING


def units(descriptor: str) -> str:
    """The units of a value of this type on the operand stack."""
    return "" if descriptor == "V" else TWO + TWO if descriptor in "JD" else ONE


@dataclass
class Use:
    """An instruction that names something or moves an object: its offset and opcode; the class, the member and its descriptor, of a class
    the name alone; and the types of the objects that it takes, the receiver first. `after` is the class to which the next instruction casts
    what it gives, or `pop` where that drops it."""
    offset: int
    opcode: int
    owner: str = ""
    name: str = ""
    descriptor: str = ""
    takes: list[str] = field(default_factory=list)
    after: str = ""


@dataclass
class Handler:
    """An exception handler: where its range begins and ends, where it begins itself, and the class it catches, or any."""
    start: int
    end: int
    target: int
    catches: str


class Body:
    """The code of a method of a class."""

    def __init__(self, found: ClassFile, key: Key, data: bytes):
        self.found, self.key = found, key
        member = found.methods[key]
        self.is_static = member.has(8)
        self.code = data[member.code_at:member.code_at + member.code_length]
        self.pool = Pool(found)
        self.data, self.after_code = data, member.code_at + member.code_length
        self.typed: dict[int, list[str]] | None = None

    def handlers(self) -> list[Handler]:
        """The handlers, in the order of their table."""
        (count,) = struct.unpack_from(">H", self.data, self.after_code)
        rows = struct.iter_unpack(">4H", self.data[self.after_code + 2:self.after_code + 2 + 8 * count])
        return [Handler(start, end, target, self.pool.class_name(kind) if kind else "any") for start, end, target, kind in rows]

    def rows(self, table: str, row: str) -> Iterator[tuple]:
        """The rows of the tables of a name among the attributes of the code, as many numbers each as the format of a row has."""
        (count,) = struct.unpack_from(">H", self.data, self.after_code)
        at = self.after_code + 2 + 8 * count
        (attributes,) = struct.unpack_from(">H", self.data, at)
        at += 2
        for _ in range(attributes):
            name, length = struct.unpack_from(">HI", self.data, at)
            if self.pool.text(name) == table:
                yield from struct.iter_unpack(row, self.data[at + 8:at + 6 + length])
            at += 6 + length

    def line(self, offset: int) -> int:
        """The line of an offset by the table of line numbers, or 0."""
        rows = self.rows("LineNumberTable", ">2H")
        return max([(-1, 0), *((start, line) for start, line in rows if start <= offset)])[1]

    def variable(self, slot: int, offset: int) -> str:
        """The name of the local variable in a slot at an offset, by the table of local variables; empty where it has none."""
        rows = self.rows("LocalVariableTable", ">5H")
        return next((self.pool.text(name) for start, length, name, _, index in rows if index == slot and start <= offset < start + length), "")

    def slots(self) -> int:
        """How many local variables there are; units of the operand stack are numbered on from these."""
        return struct.unpack_from(">H", self.data, self.after_code - len(self.code) - 6)[0]

    def uses(self) -> list[Use]:
        """The instructions that name a class or a member, or move an object into an array, a throw or a result."""
        found: list[Use] = []
        for offset, opcode in instructions(self.code):
            if found and found[-1].after == "?":
                found[-1].after = self.use_of_result(offset, opcode)
            if opcode in CALLS or opcode in FIELDS:
                owner, name, descriptor = self.pool.reference(self.index(offset))
                found.append(Use(offset, opcode, owner, name, descriptor, after="?"))
            elif opcode in NAMES_CLASS:
                found.append(Use(offset, opcode, self.pool.class_name(self.index(offset))))
            elif opcode in (ARRAY_STORE, THROW, OBJECT_RETURN):
                found.append(Use(offset, opcode))
            elif opcode in LOADS_CONSTANT:
                found += self.constant(offset, opcode)
        return found

    def instructions(self) -> Iterator[tuple[int, int]]:
        """The offsets and opcodes of the code."""
        return instructions(self.code)

    def index(self, offset: int) -> int:
        """The index of the constant pool that an instruction has."""
        return struct.unpack_from(">H", self.code, offset + 1)[0]

    def constant(self, offset: int, opcode: int) -> list[Use]:
        """The instruction there, if it loads the object of a class, or a text."""
        index = self.code[offset + 1] if opcode == 18 else self.index(offset)
        kind = {7: CLASS_CONSTANT, 8: TEXT_CONSTANT}.get(self.pool.pool[index][0])
        if kind is None:
            return []
        (text,) = struct.unpack(">H", self.pool.pool[index][1])
        return [Use(offset, kind, self.pool.pool[text][1][2:].decode("utf-8", "replace"))]

    def use_of_result(self, offset: int, opcode: int) -> str:
        """What the instruction there does with what the one before gave."""
        if opcode == CAST:
            return self.pool.class_name(self.index(offset))
        return "pop" if opcode == POP else ""

    def takes(self, offset: int, join: Callable[[str, str], str]) -> list[str]:
        """The operand stack before the instruction at an offset, as types; empty where the code is not followed there."""
        if self.typed is None:
            self.typed = Typing(self, join).stacks()
        return self.typed.get(offset, [])


class This(str):
    """The class of the object that a constructor makes, as the type of just this object."""


class Typing:
    """Follows the types of local variables and the operand stack through a method, until nothing is new."""

    def __init__(self, body: Body, join: Callable[[str, str], str]):
        self.body, self.join_types = body, join
        self.next: dict[int, int] = {}
        self.opcodes: dict[int, int] = {}
        offsets = list(instructions(body.code))
        for (offset, opcode), after in zip(offsets, [at for at, _ in offsets[1:]] + [len(body.code)]):
            self.next[offset], self.opcodes[offset] = after, opcode
        self.states: dict[int, tuple[dict[int, str], list[str]]] = {}
        self.waiting: list[int] = []
        try:
            self.handlers = body.handlers()
        except (struct.error, KeyError):
            self.handlers = []

    def stacks(self) -> dict[int, list[str]]:
        """The operand stacks before each instruction that is reached."""
        self.states[0] = self.first(), []
        self.waiting.append(0)
        while self.waiting:
            at = self.waiting.pop()
            try:
                self.step(at)
            except (IndexError, KeyError, struct.error):
                continue
        return {at: stack for at, (_, stack) in self.states.items()}

    def first(self) -> dict[int, str]:
        """The local variables at the start."""
        own = This(self.body.found.name) if self.body.key[0] == "<init>" else self.body.found.name
        found, at = ({} if self.body.is_static else {0: own}), 0 if self.body.is_static else 1
        for kind in parameter_types(self.body.key[1]):
            found[at] = named_type(kind) or ONE
            at += 2 if kind in "JD" else 1
        return found

    def step(self, at: int) -> None:
        """Follows an instruction to all that come after it."""
        slots, stack = self.states[at]
        for handler in self.handlers:
            if handler.start <= at < handler.end:
                self.reach(handler.target, slots, [THROWABLE if handler.catches == "any" else handler.catches])
        opcode = self.opcodes[at]
        slots, stack = dict(slots), list(stack)
        self.apply(at, opcode, slots, stack)
        for target in self.targets(at, opcode):
            self.reach(target, slots, stack)
            for handler in self.handlers:
                if handler.start <= at < handler.end:
                    self.reach(handler.target, slots, [THROWABLE if handler.catches == "any" else handler.catches])

    def targets(self, at: int, opcode: int) -> Iterator[int]:
        """Where an instruction goes on."""
        code = self.body.code
        if opcode in JUMPS:
            yield at + struct.unpack_from(">h", code, at + 1)[0]
        elif opcode == 200:
            yield at + struct.unpack_from(">i", code, at + 1)[0]
        elif opcode in (TABLE_SWITCH, LOOKUP_SWITCH):
            padded = at + 4 - at % 4
            yield at + struct.unpack_from(">i", code, padded)[0]
            first, step = (padded + 12, 4) if opcode == TABLE_SWITCH else (padded + 12, 8)
            for place in range(first, self.next[at], step):
                yield at + struct.unpack_from(">i", code, place)[0]
        if opcode not in ENDS:
            yield self.next[at]

    def reach(self, at: int, slots: dict[int, str], stack: list[str]) -> None:
        """Joins a state into that of an offset."""
        if at not in self.states:
            self.states[at] = dict(slots), list(stack)
            self.waiting.append(at)
            return
        old_slots, old_stack = self.states[at]
        joined = {slot: self.join(kind, slots[slot]) for slot, kind in old_slots.items() if slot in slots}
        stacked = [self.join(kind, other) for kind, other in zip(old_stack, stack)]
        if joined != old_slots or stacked != old_stack:
            self.states[at] = joined, stacked
            self.waiting.append(at)

    def join(self, one: str, other: str) -> str:
        """A type that has the values of both."""
        if one == other:
            return one if isinstance(other, This) else other
        if other == NULL:
            return one
        if one == NULL:
            return other
        return NOTHING if {one, other} & {ONE, TWO, NOTHING} else self.join_types(one, other)

    def apply(self, at: int, opcode: int, slots: dict[int, str], stack: list[str]) -> None:
        """What an instruction does with the operand stack and the local variables."""
        if opcode in EFFECTS:
            self.move(stack, *EFFECTS[opcode])
        elif opcode in COPIES:
            count, order = COPIES[opcode]
            taken = stack[len(stack) - count:]
            del stack[len(stack) - count:]
            stack.extend(taken[each] for each in order)
        elif opcode in CALLS or opcode == 186:
            self.call(at, opcode, stack)
        elif opcode in FIELDS:
            self.field(at, opcode, stack)
        elif opcode == WIDE:
            self.local(self.body.code[at + 1], struct.unpack_from(">H", self.body.code, at + 2)[0], slots, stack)
        elif 21 <= opcode <= 45 or 54 <= opcode <= 78:
            self.local_of(at, opcode, slots, stack)
        else:
            self.object(at, opcode, stack)

    def move(self, stack: list[str], count: int, put: str) -> None:
        """Takes units, and puts others."""
        if count:
            del stack[len(stack) - count:]
        stack.extend(put)

    def local_of(self, at: int, opcode: int, slots: dict[int, str], stack: list[str]) -> None:
        """Loads or stores a local variable, by an instruction that has its number as operand or in the opcode."""
        if opcode in (*range(21, 26), *range(54, 59)):
            self.local(opcode, self.body.code[at + 1], slots, stack)
        elif opcode < 54:
            self.local(21 + (opcode - 26) // 4, (opcode - 26) % 4, slots, stack)
        else:
            self.local(54 + (opcode - 59) // 4, (opcode - 59) % 4, slots, stack)

    def local(self, opcode: int, slot: int, slots: dict[int, str], stack: list[str]) -> None:
        """Loads or stores a local variable of one of five kinds."""
        if opcode == 132:
            return
        if opcode < 54:
            wide = opcode in (22, 24)
            stack.extend([TWO, TWO] if wide else [slots.get(slot, NOTHING) if opcode == 25 else ONE])
            return
        wide = opcode in (55, 57)
        value = stack.pop()
        if wide:
            stack.pop()
        slots[slot] = value if opcode == 58 else TWO if wide else ONE
        if wide:
            slots[slot + 1] = TWO

    def call(self, at: int, opcode: int, stack: list[str]) -> None:
        """Takes the arguments of a call, and puts its result."""
        if opcode == 186:
            _, pair = struct.unpack(">HH", self.body.pool.pool[self.body.index(at)][1])
            descriptor = self.body.pool.text(struct.unpack(">HH", self.body.pool.pool[pair][1])[1])
        else:
            descriptor = self.body.pool.reference(self.body.index(at))[2]
        count = sum(len(units(kind)) for kind in parameter_types(descriptor))
        self.move(stack, count + (opcode not in (INVOKE_STATIC, 186)), "")
        outcome = result_type(descriptor)
        stack.extend([named_type(outcome)] if named_type(outcome) else units(outcome))

    def field(self, at: int, opcode: int, stack: list[str]) -> None:
        """Reads or writes a field."""
        descriptor = self.body.pool.reference(self.body.index(at))[2]
        self.move(stack, (opcode in (GETFIELD, PUTFIELD)) + (len(units(descriptor)) if opcode in (PUTSTATIC, PUTFIELD) else 0), "")
        if opcode in (GETSTATIC, GETFIELD):
            stack.extend([named_type(descriptor)] if named_type(descriptor) else units(descriptor))

    def object(self, at: int, opcode: int, stack: list[str]) -> None:
        """The instructions on objects and arrays, and constants."""
        pool, body = self.body.pool, self.body
        if opcode == ACONST_NULL:
            stack.append(NULL)
        elif opcode in LOADS_CONSTANT:
            index = body.code[at + 1] if opcode == 18 else body.index(at)
            stack.append({7: "java/lang/Class", 8: STRING, 15: OBJECT, 16: OBJECT}.get(pool.pool[index][0], ONE))
        elif opcode == NEW:
            stack.append(pool.class_name(body.index(at)))
        elif opcode == CAST:
            stack[-1] = pool.class_name(body.index(at))
        elif opcode == INSTANCE:
            stack[-1] = ONE
        elif opcode == NEW_ARRAY:
            stack[-1] = PRIMITIVE_ARRAYS.get(body.code[at + 1], OBJECT)
        elif opcode == OBJECT_ARRAY:
            stack[-1] = array_of(pool.class_name(body.index(at)))
        elif opcode == MANY_ARRAYS:
            self.move(stack, body.code[at + 3], "")
            stack.append(pool.class_name(body.index(at)))
        elif opcode == ARRAY_LOAD:
            stack.pop()
            stack[-1] = element_type(stack[-1])
        elif opcode == ARRAY_STORE:
            self.move(stack, 3, "")
        else:
            raise KeyError(opcode)


def array_of(name: str) -> str:
    """The type of an array of elements of a type."""
    return "[" + (name if name.startswith("[") else f"L{name};")


def element_type(kind: str) -> str:
    """The type of the elements of an array."""
    if kind == NULL:
        return NULL
    return (named_type(kind[1:]) or ONE) if kind.startswith("[") else OBJECT
