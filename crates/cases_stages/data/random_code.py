"""Makes the code of a random small program, for tests alone. The operand stack has one height wherever two ways meet,
and each local variable is there; types are mostly, but not always, those that a verifier would ask for. A comment
behind an instruction says what a reference leads to, if it is another class's member, and why it is refused."""

import random
from dataclasses import dataclass, field
from types import ModuleType
from typing import Callable, Optional

from plain_program import ABSTRACT, Class, Method
from random_classes import FAULTS, STRING, THROWABLE, descriptor_of, kinds_in, name_of, result_of
from random_names import Access, Calling, Names, resolve_method, special_target
from stub_texts import OBJECT

CATCHES = ["any", "any", THROWABLE, "java/lang/Exception", "java/lang/RuntimeException",
           "java/lang/NullPointerException"]
BRANCHES = ["ifeq", "ifne", "iflt", "ifge"]
INVOKES = {"virtual": "invokevirtual", "static": "invokestatic", "interface": "invokeinterface"}
# Instructions of the operand stack, with how many units they take and leave.
SHUFFLES = [("dup", 1, 2), ("dup_x1", 2, 3), ("dup_x2", 3, 4), ("dup2", 2, 4), ("dup2_x1", 3, 5), ("dup2_x2", 4, 6),
            ("swap", 2, 2)]


def units(descriptor: str) -> int:
    return 0 if descriptor == "V" else 2 if descriptor in "JD" else 1


# ---- instructions


@dataclass
class Line:
    """An instruction, with labels in the place of offsets, and a comment."""
    text: str
    note: str


@dataclass
class Writer:
    """The instructions of a method, the height of the operand stack, and where labels stand."""
    lines: list[Line] = field(default_factory=list)
    places: dict[str, int] = field(default_factory=dict)
    handlers: list[tuple[str, str, str, str]] = field(default_factory=list)
    height: int = 0
    peak: int = 0
    labels: int = 0

    def put(self, text: str, pops: int = 0, pushes: int = 0, note: str = "") -> None:
        if pops > self.height:
            raise ValueError(f"{text} pops {pops} of {self.height}")
        self.lines.append(Line(text, note))
        self.set_height(self.height + pushes - pops)

    def set_height(self, height: int) -> None:
        self.height = height
        self.peak = max(self.peak, height)

    def label(self) -> str:
        self.labels += 1
        return f"@{self.labels}"

    def place(self, label: str) -> None:
        """The label stands here."""
        self.places[label] = len(self.lines)

    def offsets(self, assembler: ModuleType) -> list[int]:
        """The offset of each instruction, and that behind the last one."""
        offsets = [0]
        for line in self.lines:
            words = [with_offset(word, lambda label: 0) for word in line.text.split(" ")]
            offsets.append(offsets[-1] + len(assembler.instruction(assembler.Pool(), words, offsets[-1])[0]))
        return offsets

    def listing(self, assembler: ModuleType, max_locals: int) -> list[str]:
        """The lines of a listing, with offsets for labels."""
        offsets = self.offsets(assembler)

        def filled(text: str) -> str:
            return " ".join(with_offset(word, lambda label: offsets[self.places[label]]) for word in text.split(" "))

        lines = [f"  stack {self.peak}", f"  locals {max_locals}"]
        for offset, line in zip(offsets, self.lines):
            lines.append(f"  {offset} {filled(line.text)}" + (f" # {line.note}" if line.note else ""))
        return lines + [f"  handler {filled(' '.join(words))}" for words in self.handlers]


def with_offset(word: str, offset_of: Callable[[str], int]) -> str:
    """A word with the offset of the label in which it ends, if there is one."""
    head, sign, label = word.partition("@")
    return f"{head}{offset_of(sign + label)}" if sign else word


# ---- values


class ValueMaker:
    """Makes the code of one method, as far as it pushes values."""

    def __init__(self, names: Names, chance: random.Random, owner: Class, method: Method):
        self.names, self.chance, self.owner, self.method = names, chance, owner, method
        self.program = names.program
        self.out = Writer()
        # The local variables: references with their types, and the first ones of primitives of one unit and of two.
        self.types: dict[int, str] = {}
        self.numbers: list[int] = []
        self.wide: list[int] = []
        self.count = 0
        # How many references may still be made of others.
        self.fuel = chance.randint(10, 25) if method.name == "main" else chance.randint(1, 7)
        kinds = [] if method.is_static else [descriptor_of(owner.name)]
        kinds += kinds_in(method.descriptor)
        kinds += [descriptor_of(chance.choice(names.types + names.arrays)) for _ in range(chance.randint(1, 4))]
        for kind in kinds + ["I"] * chance.randint(0, 1) + ["J"] * chance.randint(0, 1):
            self.add_local(kind)

    def add_local(self, descriptor: str) -> None:
        if descriptor[0] in "L[":
            self.types[self.count] = name_of(descriptor)
        elif descriptor in "JD":
            self.wide.append(self.count)
        else:
            self.numbers.append(self.count)
        self.count += units(descriptor)

    def happens(self, share: float) -> bool:
        return self.chance.random() < share

    def pick(self, weighted: list[tuple[int, Callable]]) -> Callable:
        return self.chance.choices([each for _, each in weighted], [weight for weight, _ in weighted])[0]

    # ---- primitives

    def push_number(self) -> None:
        if self.numbers and self.happens(0.5):
            self.out.put(f"iload {self.chance.choice(self.numbers)}", 0, 1)
        else:
            self.out.put(self.chance.choice(["iconst_0", "iconst_1", "bipush 7", "ldc_w int 9"]), 0, 1)

    def push_wide(self) -> None:
        if self.wide and self.happens(0.5):
            self.out.put(f"lload {self.chance.choice(self.wide)}", 0, 2)
        else:
            self.out.put(self.chance.choice(["lconst_1", "dconst_0", "ldc2_w long 5"]), 0, 2)

    def push_kind(self, descriptor: str, depth: int) -> None:
        """A value of the type of a descriptor."""
        if descriptor[0] in "L[":
            self.push(name_of(descriptor), depth)
        elif descriptor in "JD":
            self.push_wide()
        else:
            self.push_number()

    # ---- references: each function pushes one, or tells that it has none to push

    def push(self, want: str, depth: int) -> None:
        """A reference, mostly of a type."""
        makers: list[tuple[int, Callable[[str, int], bool]]] = [
            (7, self.push_local), (1, self.push_null), (1, self.push_any_local), (2, self.push_static),
            (1, self.push_constant)]
        if depth > 0 and self.fuel > 0:
            self.fuel -= 1
            makers += [(4, self.push_new), (5, self.push_call), (3, self.push_field), (2, self.push_element),
                       (1, self.push_cast), (1, self.push_choice), (1, self.push_shuffled)]
        if want.startswith("["):
            makers.append((6, self.push_array))
        while makers:
            maker = self.pick(makers)
            if maker(want, depth - 1):
                return
            makers = [each for each in makers if each[1] != maker]

    def push_null(self, want: str, depth: int) -> bool:
        self.out.put("aconst_null", 0, 1)
        return True

    def push_local(self, want: str, depth: int) -> bool:
        slots = [slot for slot, name in self.types.items() if self.program.fits(want, name)]
        if slots:
            self.out.put(f"aload {self.chance.choice(slots)}", 0, 1)
        return bool(slots)

    def push_any_local(self, want: str, depth: int) -> bool:
        self.out.put(f"aload {self.chance.randrange(self.count)}", 0, 1)
        return True

    def push_constant(self, want: str, depth: int) -> bool:
        if self.program.fits(want, STRING):
            self.out.put('ldc_w string "s"', 0, 1)
        elif self.program.fits(want, "java/lang/Class"):
            self.out.put(f"ldc_w class {self.owner.name}", 0, 1)
        else:
            return False
        return True

    def any_access(self, want: str, is_static: bool) -> Optional[Access]:
        """A field of a reference type."""
        fitting = [each for each in self.names.accesses if each.field.is_static == is_static
                   and each.field.descriptor[0] in "L[" and self.program.fits(want, name_of(each.field.descriptor))]
        return self.chance.choice(fitting) if fitting else None

    def put_access(self, instruction: str, access: Access, pops: int, pushes: int) -> None:
        found = access.field
        note = "" if found.class_name == access.named else f"resolves {found.text}"
        self.out.put(f"{instruction} {access.named}.{found.name} {found.descriptor}", pops, pushes, note)

    def push_static(self, want: str, depth: int) -> bool:
        access = self.any_access(want, True)
        if access:
            self.put_access("getstatic", access, 0, 1)
        return access is not None

    def push_field(self, want: str, depth: int) -> bool:
        access = self.any_access(want, False)
        if access:
            self.push(access.named, depth)
            self.put_access("getfield", access, 1, 1)
        return access is not None

    def push_element(self, want: str, depth: int) -> bool:
        self.push(f"[{descriptor_of(want)}" if want.count("[") < 3 else f"[L{OBJECT};", depth)
        self.push_number()
        self.out.put("aaload", 2, 1)
        return True

    def push_cast(self, want: str, depth: int) -> bool:
        self.push(self.chance.choice(self.names.arrays if want.startswith("[") else self.names.types), depth)
        self.out.put(f"checkcast {want}", 1, 1)
        return True

    def push_new(self, want: str, depth: int) -> bool:
        names = [name for name in self.names.made if self.program.fits(want, name)]
        if names:
            self.put_new(self.chance.choice(names), depth)
        return bool(names)

    def put_new(self, name: str, depth: int) -> None:
        """A new object, with a call of a constructor."""
        constructors = [each for each in self.program.classes[name].methods if each.name == "<init>"]
        constructor = self.chance.choice(constructors)
        self.out.put(f"new {name}", 0, 1)
        self.out.put("dup", 1, 2)
        pops = 1 + self.put_arguments(constructor, depth)
        self.out.put(f"invokespecial {constructor.text}", pops, 0)

    def push_array(self, want: str, depth: int) -> bool:
        element, dimensions = want[1:], self.chance.randint(1, want.count("["))
        for _ in range(dimensions):
            self.push_number()
        if dimensions > 1:
            self.out.put(f"multianewarray {want} {dimensions}", dimensions, 1)
        elif element[0] in "L[":
            self.out.put(f"anewarray {name_of(element)}", 1, 1)
        else:
            self.out.put("newarray int", 1, 1)
        return True

    def push_choice(self, want: str, depth: int) -> bool:
        self.put_either(lambda: self.push(want, depth))
        return True

    def put_either(self, push: Callable[[], None]) -> None:
        """One of two references: two ways meet with more on the operand stack."""
        other, end = self.out.label(), self.out.label()
        self.put_test(other)
        height = self.out.height
        push()
        self.out.put(f"goto {end}")
        self.out.place(other)
        self.out.set_height(height)
        push()
        self.out.place(end)

    def push_shuffled(self, want: str, depth: int) -> bool:
        """One of several references that instructions of the operand stack moved about."""
        self.push(want, depth)
        self.push(want if self.happens(0.6) else OBJECT, depth)
        pushed = 2
        for _ in range(self.chance.randint(1, 4)):
            name, pops, pushes = self.chance.choice([each for each in SHUFFLES if each[1] <= pushed])
            self.out.put(name, pops, pushes)
            pushed += pushes - pops
        while pushed > 1:
            takes = 2 if pushed > 2 and self.happens(0.3) else 1
            stores = [f"astore {slot}" for slot in self.types]
            self.out.put("pop2" if takes == 2 else self.chance.choice(["pop", self.chance.choice(stores)]), takes)
            pushed -= takes
        return True

    # ---- calls

    def put_arguments(self, method: Method, depth: int) -> int:
        """The parameters of a call, and how many units they are."""
        kinds = kinds_in(method.descriptor)
        for kind in kinds:
            self.push_kind(kind, depth)
        return sum(units(kind) for kind in kinds)

    def gives(self, method: Method, want: str) -> bool:
        result = result_of(method.descriptor)
        return result[0] in "L[" and self.program.fits(want, name_of(result))

    def push_call(self, want: str, depth: int) -> bool:
        calls = [call for call in self.names.calls if self.gives(call.method, want)]
        call = self.names.any_call(self.chance, calls)
        if call:
            self.put_call(call, depth)
        return call is not None

    def put_call(self, call: Calling, depth: int) -> str:
        """A call, and the descriptor of what it leaves on the stack."""
        method, result = call.method, result_of(call.method.descriptor)
        if call.kind != "static":
            self.push_receiver(call, depth)
        pops = (call.kind != "static") + self.put_arguments(method, depth)
        note = "" if call.named == method.class_name else f"resolves {method.text}"
        is_interface = self.program.classes[call.named].is_interface
        suffix = " interface" if call.kind == "static" and is_interface else ""
        text = f"{INVOKES[call.kind]} {call.named}.{method.name}{method.descriptor}{suffix}"
        self.out.put(text, pops, units(result), note)
        return result

    def push_receiver(self, call: Calling, depth: int) -> None:
        """The object of a call: often a new one, and where some have no target one of these, or one of two that lack it
        for two reasons."""
        made = [name for name in self.names.made if self.program.fits(call.named, name)]
        lacking: dict[Optional[str], str] = {}
        for name in made:
            target, reason = self.program.select(call.kind == "interface", name, call.method)
            if target is None or target.is_undescribed:
                lacking[reason] = name
        if len(lacking) > 1 and self.happens(0.7):
            names = self.chance.sample(list(lacking.values()), 2)
            self.put_either(lambda: self.put_new(names.pop(), depth))
        elif made and self.happens(0.6 if lacking else 0.35):
            self.put_new(self.chance.choice(list(lacking.values()) or made), depth)
        else:
            self.push(call.named, depth)

    # ---- tests

    def put_test(self, label: str) -> None:
        """A branch to a label, or on."""
        way = self.chance.randrange(5)
        if way < 3:
            self.push(self.chance.choice(self.names.types), 0)
        if way == 0:
            self.out.put(f"{self.chance.choice(['ifnull', 'ifnonnull'])} {label}", 1)
        elif way == 1:
            self.push(self.chance.choice(self.names.types), 0)
            self.out.put(f"{self.chance.choice(['if_acmpeq', 'if_acmpne'])} {label}", 2)
        elif way == 2:
            self.out.put(f"instanceof {self.chance.choice(self.names.types)}", 1, 1)
            self.out.put(f"ifeq {label}", 1)
        else:
            self.push_number()
            self.out.put(f"{self.chance.choice(BRANCHES)} {label}", 1)


# ---- statements


class BodyMaker(ValueMaker):
    """Makes the code of one method of statements, each of which begins and ends with an empty operand stack. `depth` is
    how many may stand one in another."""

    def statement(self, depth: int) -> None:
        makers: list[tuple[int, Callable[[int], None]]] = [
            (6, self.assign), (5, self.call), (4, self.put_field), (3, self.put_static), (3, self.put_element),
            (2, self.special), (1, self.odd), (1, self.throw), (1, self.give_back)]
        if depth > 0:
            makers += [(2, self.branch), (2, self.loop), (2, self.attempt), (1, self.switch)]
        self.pick(makers)(depth)

    def statements(self, count: int, depth: int) -> None:
        for _ in range(count):
            self.statement(depth)

    def any_reference(self) -> int:
        """A local variable of a reference type."""
        return self.chance.choice(list(self.types))

    def store(self, name: str) -> None:
        """Stores a reference into a local variable, mostly one of its type."""
        slots = [slot for slot, held in self.types.items() if self.program.fits(held, name)]
        slot = self.any_reference() if not slots or self.happens(0.1) else self.chance.choice(slots)
        self.out.put(f"astore {slot}", 1)

    def put_away(self, descriptor: str) -> None:
        """Takes a value from the operand stack."""
        if descriptor == "V":
            return
        if descriptor in "JD":
            self.out.put(f"lstore {self.wide[0]}" if self.wide and self.happens(0.5) else "pop2", 2)
        elif descriptor[0] in "L[" and self.happens(0.7):
            self.store(name_of(descriptor))
        else:
            self.out.put(f"istore {self.numbers[0]}" if self.numbers and self.happens(0.5) else "pop", 1)

    def assign(self, depth: int) -> None:
        slot = self.any_reference()
        self.push(self.types[slot], 2)
        self.out.put(f"astore {slot}", 1)

    def call(self, depth: int) -> None:
        calls = self.names.risky if self.names.risky and self.happens(0.4) else self.names.calls
        self.put_away(self.put_call(self.names.any_call(self.chance, calls), 2))

    def special(self, depth: int) -> None:
        """A call of a private method, of one of a superclass or a superinterface, or even of one of another class."""
        above = sorted(self.program.supertypes(self.owner.name))
        named = self.chance.choice(self.names.own if self.happens(0.3) else above)
        methods = [each for each in self.program.classes[named].methods if each.name not in ("<init>", "<clinit>")]
        if not methods:
            return self.assign(depth)
        signature = self.chance.choice(methods).signature
        resolved = resolve_method(self.program, named, signature)
        target = special_target(self.program, self.owner.name, named, signature)
        if target is None or resolved.is_static or target.has(ABSTRACT) or target.is_undescribed:
            return self.assign(depth)
        if self.happens(0.7) and not self.method.is_static:
            self.out.put("aload 0", 0, 1)
        else:
            self.push(OBJECT, 1)
        pops = 1 + self.put_arguments(target, 1)
        note = "" if target is resolved else f"chosen {target.text}"
        suffix = " interface" if self.program.classes[named].is_interface else ""
        result = result_of(target.descriptor)
        self.out.put(f"invokespecial {named}.{''.join(signature)}{suffix}", pops, units(result), note)
        self.put_away(result)

    def put_field(self, depth: int) -> None:
        accesses = [each for each in self.names.accesses if not each.field.is_static]
        if not accesses:
            return self.assign(depth)
        access = self.chance.choice(accesses)
        self.push(access.named, 1)
        self.push_kind(access.field.descriptor, 2)
        self.put_access("putfield", access, 1 + units(access.field.descriptor), 0)

    def put_static(self, depth: int) -> None:
        access = self.chance.choice([each for each in self.names.accesses if each.field.is_static])
        self.push_kind(access.field.descriptor, 2)
        self.put_access("putstatic", access, units(access.field.descriptor), 0)

    def put_element(self, depth: int) -> None:
        array = self.chance.choice([each for each in self.names.arrays if each != "[I"])
        self.push(array, 1)
        self.push_number()
        self.push(name_of(array[1:]), 2)
        self.out.put("aastore", 3)

    def odd(self, depth: int) -> None:
        """What leads to no object: probes, primitives in the place of references, and branches to where they go on."""
        way = self.chance.randrange(5)
        if way == 0:
            self.push(self.chance.choice(self.names.arrays), 1)
            self.out.put("arraylength", 1, 1)
            self.out.put("pop", 1)
        elif way == 1:
            self.push(OBJECT, 1)
            self.out.put(self.chance.choice(["monitorenter", "monitorexit"]), 1)
        elif way == 2:
            self.push_number()
            self.out.put(f"istore {self.any_reference()}", 1)
        elif way == 3:
            self.out.put(f"iinc {self.chance.randrange(self.count)} 1")
        else:
            label = self.out.label()
            self.put_test(label)
            self.out.place(label)

    def throw(self, depth: int) -> None:
        past = self.out.label()
        self.put_test(past)
        if self.happens(0.15):
            self.push(OBJECT, 1)
        elif self.happens(0.5):
            self.put_new(self.chance.choice(self.names.exceptions), 1)
        else:
            self.push(THROWABLE, 1)
        self.out.put("athrow", 1)
        self.out.place(past)

    def give_back(self, depth: int) -> None:
        past = self.out.label()
        self.put_test(past)
        self.put_return()
        self.out.place(past)

    def branch(self, depth: int) -> None:
        other, end = self.out.label(), self.out.label()
        self.put_test(other)
        self.statements(self.chance.randint(1, 2), depth - 1)
        if self.happens(0.6):
            self.out.put(f"goto {end}")
            self.out.place(other)
            self.statements(self.chance.randint(0, 2), depth - 1)
            self.out.place(end)
        else:
            self.out.place(other)

    def loop(self, depth: int) -> None:
        head, end = self.out.label(), self.out.label()
        tests_first = self.happens(0.5)
        self.out.place(head)
        if tests_first:
            self.put_test(end)
        self.statements(self.chance.randint(1, 2), depth - 1)
        if tests_first:
            self.out.put(f"goto {head}")
            self.out.place(end)
        else:
            self.put_test(head)

    def switch(self, depth: int) -> None:
        labels = [self.out.label() for _ in range(self.chance.randint(1, 3))]
        end = self.out.label()
        self.push_number()
        if self.happens(0.5):
            words = ["tableswitch", "0", str(len(labels) - 1), end] + labels
        else:
            words = ["lookupswitch", end] + [f"{3 * key}:{label}" for key, label in enumerate(labels)]
        self.out.put(" ".join(words), 1)
        for label in labels:
            self.out.place(label)
            self.statement(depth - 1)
            if self.happens(0.5):
                self.out.put(f"goto {end}")
        self.out.place(end)

    # ---- exceptions

    def attempt(self, depth: int) -> None:
        """Statements with handlers. A handler may cover itself, and a single one may be entered as other code too."""
        start, finish, end = self.out.label(), self.out.label(), self.out.label()
        self.out.place(start)
        self.statements(self.chance.randint(1, 2), depth - 1)
        self.out.put("nop")
        self.out.place(finish)
        is_entered = self.happens(0.15)
        if is_entered:
            self.push(THROWABLE, 1)
        else:
            self.out.put(f"goto {end}")
        for _ in range(1 if is_entered else self.chance.randint(1, 2)):
            handler, past = self.out.label(), self.out.label()
            taken = self.chance.choice(CATCHES + self.names.exceptions)
            self.out.place(handler)
            self.out.set_height(1)
            self.handle(depth)
            self.out.place(past)
            self.out.put(f"goto {end}")
            covers_itself = taken == "any" and self.happens(0.25)
            self.out.handlers.append((start, past if covers_itself else finish, handler, taken))
        self.out.place(end)

    def handle(self, depth: int) -> None:
        """What is done with the object that a handler takes."""
        way = self.chance.randrange(5)
        if way == 0:
            self.out.put("pop", 1)
        elif way == 1:
            slot, past = self.any_reference(), self.out.label()
            self.out.put(f"astore {slot}", 1)
            self.statements(self.chance.randint(0, 1), depth - 1)
            self.put_test(past)
            self.out.put(f"aload {slot}", 0, 1)
            self.out.put("athrow", 1)
            self.out.place(past)
        elif way == 2:
            self.out.put(f"checkcast {self.chance.choice(self.names.exceptions)}", 1, 1)
            self.store(THROWABLE)
        else:
            self.store(THROWABLE)
            self.statements(self.chance.randint(0, 1), depth - 1)

    # ---- the whole

    def put_return(self) -> None:
        result = result_of(self.method.descriptor)
        if result == "V":
            self.out.put("return")
        else:
            self.push_kind(result, 2)
            letter = "a" if result[0] in "L[" else {"J": "l", "D": "d", "F": "f"}.get(result, "i")
            self.out.put(f"{letter}return", units(result))

    def begin_constructor(self) -> None:
        """The call of a constructor of the superclass."""
        above = self.program.classes[self.owner.super_class]
        constructor = self.chance.choice([each for each in above.methods if each.name == "<init>"])
        self.out.put("aload 0", 0, 1)
        self.out.put(f"invokespecial {constructor.text}", 1 + self.put_arguments(constructor, 1), 0)

    def put_fault(self, reason: str) -> None:
        text, pushes = self.chance.choice(FAULTS[reason])
        owner = next(each.name for each in self.names.plan.folder if not each.is_interface)
        self.out.put(text.format(owner=owner), 0, pushes, f"refused {reason}")
        if pushes:
            self.out.put("pop", 1)

    def body(self, count: int, assembler: ModuleType) -> list[str]:
        """The lines of the method's code: now and then it goes back to its first instruction."""
        if self.method.name == "<init>":
            self.begin_constructor()
        head = self.out.label()
        self.out.place(head)
        for slot in [slot for slot in self.types if self.happens(0.6 if self.method.name == "main" else 0.15)]:
            self.push(self.types[slot], 1)
            self.out.put(f"astore {slot}", 1)
        self.statements(count, 2)
        if self.method in self.names.plan.faults:
            self.put_fault(self.names.plan.faults[self.method])
        if self.happens(0.25):
            self.put_test(head)
        self.statements(self.chance.randint(0, 1), 1)
        self.put_return()
        return self.out.listing(assembler, self.count)
