#!/usr/bin/env python3
"""Makes folders of random small programs in which objects of one class are passed on, for tests alone: through slots,
fields, static fields, arrays, calls, results, exceptions, an initialiser, and methods that stubs describe.

  random_protocols.py COUNT SEED FOLDER ASSEMBLER

It writes COUNT case folders into FOLDER, which is made: each with class files, `source.txt`, which they are made of,
`stubs.toml`, and the file `entry`. ASSEMBLER is the path of `assemble.py`. The same SEED gives the same folders. A
method does one step after the other, and between two of them its operand stack is empty."""

import random
import sys
from pathlib import Path
from types import ModuleType
from typing import Callable, NamedTuple

sys.dont_write_bytecode = True
from random_folders import load_assembler  # noqa: E402

STUBS = """version = 1
[[class]]
name = "lib/Base"
[[class.method]]
name = "<init>"
descriptor = "()V"
returns = ["void"]
[[class.method]]
name = "self"
descriptor = "()Llib/Base;"
returns = ["this"]
[[class.method]]
name = "either"
descriptor = "(LF;LF;)LF;"
static = true
returns = ["arg1", "arg2", "null"]
throws = ["java/lang/Error"]
[[class.method]]
name = "keep"
descriptor = "(LF;)V"
static = true
returns = ["void"]
throws = ["java/lang/Error"]
keeps = ["arg1"]
[[class.method]]
name = "kept"
descriptor = "()LF;"
static = true
returns = ["kept", "null"]
[[class.method]]
name = "fresh"
descriptor = "(LF;)LF;"
static = true
returns = ["new:F", "arg1"]
keeps = ["arg1"]
"""

# The classes but for the bodies of some methods. G is below F and has an event of its own; H holds objects.
CLASSES = """class public super F
super java/lang/RuntimeException
method public <init>()V
  0 aload_0
  1 invokespecial java/lang/RuntimeException.<init>()V
  4 return
end
method public open()V
  0 return
end
method public close()V
  0 return
end
method public me()LF;
  0 aload_0
  1 areturn
end

class public super G
super F
method public <init>()V
  0 aload_0
  1 invokespecial F.<init>()V
  4 return
end
{close}
class public super H
super lib/Base
field public f LF;
field public h LH;
field public static s LF;
field public static t LH;
method public <init>()V
  0 aload_0
  1 invokespecial lib/Base.<init>()V
  4 return
end
{initialiser}{methods}
class public super Main
super java/lang/Object
{statics}"""

CLOSE = "method public close()V\n  0 aload_0\n  1 invokespecial F.close()V\n  4 return\nend\n"

SIZES = {1: "aconst_null iconst_0 iconst_1 dup swap pop aaload aastore areturn return athrow",
         2: "aload astore",
         3: "new anewarray checkcast getfield putfield getstatic putstatic invokevirtual invokespecial invokestatic "
            "goto ifeq ifnull ifnonnull if_acmpeq if_acmpne"}
SIZE_OF = {name: size for size, names in SIZES.items() for name in names.split()}


class Head(NamedTuple):
    """A method with a random body: its class, flags, name, and the classes of its parameters and its result."""
    owner: str
    flags: str
    name: str
    parameters: str
    result: str

    @property
    def descriptor(self) -> str:
        result = f"L{self.result};" if self.result else "V"
        return f"({''.join(f'L{each};' for each in self.parameters)}){result}"

    @property
    def is_static(self) -> bool:
        return "static" in self.flags

    @property
    def text(self) -> str:
        return f"{self.owner}.{self.name}{self.descriptor}"


ENTRY = Head("Main", "public static", "main", "", "")
INITIALISER = Head("H", "static", "<clinit>", "", "")
OTHERS = [Head("Main", "public static", "give", "", "F"), Head("Main", "public static", "use", "F", ""),
          Head("Main", "public static", "pass", "HF", "F"), Head("Main", "public static", "link", "H", "H"),
          Head("H", "public", "put", "F", ""), Head("H", "public", "get", "", "F")]


class Body:
    """Makes the body of a method: instructions, in which `@N` is where the mark N stands, and handlers."""

    def __init__(self, chance: random.Random, head: Head, callable_heads: list[Head]):
        self.chance, self.head, self.heads = chance, head, callable_heads
        self.lines: list[str] = []
        self.handlers: list[str] = []
        self.marks = 0
        kinds = ([] if head.is_static else ["H"]) + list(head.parameters)
        self.parameters = len(kinds)
        kinds += ["F", "F", "H", "H", "A", "H"][:chance.randint(3, 6)]
        self.locals = {kind: [slot for slot, each in enumerate(kinds) if each == kind] for kind in "FHA"}
        self.size = len(kinds)

    def local(self, kind: str) -> int:
        return self.chance.choice(self.locals[kind])

    def add(self, *lines: str) -> None:
        self.lines += lines

    def mark(self) -> str:
        self.marks += 1
        return f"@{self.marks}"

    # ---- steps

    def step(self, depth: int) -> None:
        makers: list[Callable[[], None]] = [
            self.make_any, self.move, self.move, self.field, self.field, self.field, self.static_field, self.event,
            self.event, self.event, self.call, self.call, self.described, self.twice, self.cast,
            self.chain, self.chain, self.build]
        if self.locals["A"]:
            makers += [self.element]
        if depth < 2:
            makers += [lambda: self.branch(depth), lambda: self.branch(depth), lambda: self.covered(depth)]
        self.chance.choice(makers)()

    def steps(self, count: int, depth: int) -> None:
        for _ in range(count):
            self.step(depth)

    def make(self, kind: str, slot: int) -> None:
        name = self.chance.choice("FFG") if kind == "F" else kind
        self.add(f"new {name}", "dup", f"invokespecial {name}.<init>()V", f"astore {slot}")

    def make_any(self) -> None:
        kind = self.chance.choice("FFFH")
        self.make(kind, self.local(kind))

    def move(self) -> None:
        kind = self.chance.choice("FFH")
        self.add(f"aload {self.local(kind)}", f"astore {self.local(kind)}")

    def field(self) -> None:
        kind = self.chance.choice("FFH")
        base, name = f"aload {self.local('H')}", f"H.{kind.lower()} L{kind};"
        if self.chance.random() < 0.5:
            self.add(base, f"getfield {name}", f"astore {self.local(kind)}")
        else:
            self.add(base, f"aload {self.local(kind)}", f"putfield {name}")

    def build(self) -> None:
        """A new holder gets an object while no slot but those of the operand stack has it."""
        self.add("new H", "dup", "invokespecial H.<init>()V", "dup", f"aload {self.local('F')}", "putfield H.f LF;")
        if self.chance.random() < 0.6:
            self.add("invokevirtual lib/Base.self()Llib/Base;", "checkcast H")
        self.add(f"astore {self.local('H')}")

    def chain(self) -> None:
        """An object is put behind several fields, or taken from there; or a holder gets a static field on the way."""
        holders = [f"aload {self.local('H')}" for _ in range(self.chance.randint(1, 3))]
        inner = ["getfield H.h LH;"] * (len(holders) - 1)
        form = self.chance.random()
        if form < 0.3:
            self.add(holders[0], *inner, "getfield H.f LF;", f"astore {self.local('F')}")
        elif form < 0.4:
            self.add(holders[0], *inner, f"aload {self.local('F')}", "putfield H.f LF;")
        else:
            self.add(holders[0], f"aload {self.local('F')}", "putfield H.f LF;")
            for lower, upper in zip(holders, holders[1:]):
                self.add(upper, lower, "putfield H.h LH;")
            if self.chance.random() < 0.3:
                self.add(holders[-1], "putstatic H.t LH;")

    def static_field(self) -> None:
        kind, name = self.chance.choice([("F", "H.s LF;"), ("H", "H.t LH;")])
        if self.chance.random() < 0.5:
            self.add(f"getstatic {name}", f"astore {self.local(kind)}")
        else:
            self.add(f"aload {self.local(kind)}", f"putstatic {name}")

    def event(self) -> None:
        name = self.chance.choice(["open", "close"])
        self.add(f"aload {self.local('F')}", f"invokevirtual F.{name}()V")

    def call(self) -> None:
        """A call of one of the methods with random bodies, or of the one that gives its receiver."""
        if self.chance.random() < 0.2 or not self.heads:
            self.add(f"aload {self.local('F')}", "invokevirtual F.me()LF;", f"astore {self.local('F')}")
            return
        head = self.chance.choice(self.heads)
        kinds = ("" if head.is_static else "H") + head.parameters
        self.add(*(f"aload {self.local(kind)}" for kind in kinds))
        self.add(f"{'invokestatic' if head.is_static else 'invokevirtual'} {head.text}")
        if head.result:
            self.add(self.chance.choice([f"astore {self.local(head.result)}", "pop"]))

    def described(self) -> None:
        first, second, target = self.local("F"), self.local("F"), f"astore {self.local('F')}"
        self.chance.choice([
            lambda: self.add(f"aload {self.local('H')}", "invokevirtual lib/Base.self()Llib/Base;", "checkcast H",
                             f"astore {self.local('H')}"),
            lambda: self.add(f"aload {first}", f"aload {second}", "invokestatic lib/Base.either(LF;LF;)LF;", target),
            lambda: self.add(f"aload {first}", "invokestatic lib/Base.keep(LF;)V"),
            lambda: self.add("invokestatic lib/Base.kept()LF;", target),
            lambda: self.add(f"aload {first}", "invokestatic lib/Base.fresh(LF;)LF;", target)])()

    def twice(self) -> None:
        """An object stands twice on the operand stack: the field of the one is read or written, and the other one is
        taken off, or asked for its field."""
        self.add(f"aload {self.local('H')}", "dup")
        if self.chance.random() < 0.5:
            self.add(f"aload {self.local('F')}", "putfield H.f LF;")
        else:
            self.add("getfield H.f LF;", f"astore {self.local('F')}")
        self.chance.choice([
            lambda: self.add(f"astore {self.local('H')}"),
            lambda: self.add("invokevirtual lib/Base.self()Llib/Base;", "checkcast H", f"astore {self.local('H')}"),
            lambda: self.add("getfield H.f LF;", f"astore {self.local('F')}")])()

    def cast(self) -> None:
        kind = self.chance.choice("FH")
        name = kind if kind == "H" or self.chance.random() < 0.5 else "G"
        self.add(f"aload {self.local(kind)}", f"checkcast {name}", f"astore {self.local(kind)}")

    def element(self) -> None:
        array, value = f"aload {self.local('A')}", self.local("F")
        self.chance.choice([
            lambda: self.add("iconst_1", "anewarray F", f"astore {self.local('A')}"),
            lambda: self.add(array, "iconst_0", f"aload {value}", "aastore"),
            lambda: self.add(array, "iconst_0", "aaload", f"astore {value}")])()

    def test(self) -> list[str]:
        """A test that may jump to the mark that is added."""
        first, second = f"aload {self.local('F')}", f"aload {self.local('F')}"
        return self.chance.choice([["iconst_0", "ifeq"], [first, "ifnull"], [first, "ifnonnull"],
                                   [first, second, "if_acmpeq"], [first, second, "if_acmpne"]])

    def branch(self, depth: int) -> None:
        """Steps that may be left out, or that may be done again; or a throw that may be left out."""
        mark, test = self.mark(), self.test()
        jump = test[:-1] + [f"{test[-1]} {mark}"]
        form = self.chance.random()
        if form < 0.4:
            self.add(*jump)
            self.steps(self.chance.randint(1, 2), depth + 1)
            self.add(mark)
        elif form < 0.7:
            self.add(mark)
            self.steps(self.chance.randint(1, 2), depth + 1)
            self.add(*jump)
        else:
            self.add(*jump, f"aload {self.local('F')}", "athrow", mark)

    def covered(self, depth: int) -> None:
        """Steps with a handler, which takes what it gets as an object or lets it go."""
        start, end, over = self.mark(), self.mark(), self.mark()
        taken = self.chance.choice(["F", "G", "java/lang/RuntimeException", "java/lang/Error", "any"])
        self.add(start)
        self.steps(self.chance.randint(1, 2), depth + 1)
        self.add(f"goto {over}", end)
        self.add(f"astore {self.local('F')}" if taken in ("F", "G") else "pop", over)
        self.handlers.append(f"handler {start} {end} {end} {taken}")

    # ---- text

    def begin(self) -> None:
        """The local variables get values: new objects, most often in the entry."""
        share = 0.6 if self.head == ENTRY else 0.2
        for kind, slots in self.locals.items():
            for slot in slots:
                if slot < self.parameters:
                    continue
                if kind == "A":
                    self.add("iconst_1", "anewarray F", f"astore {slot}")
                elif self.chance.random() < share:
                    self.make(kind, slot)
                else:
                    self.add("aconst_null", f"astore {slot}")

    def text(self, count: int) -> str:
        self.begin()
        self.steps(count, 0)
        kind = self.head.result
        self.add(*([f"aload {self.local(kind)}", "areturn"] if kind else ["return"]))
        head = f"method {self.head.flags} {self.head.name}{self.head.descriptor}"
        return "\n".join([head, "  stack 4", f"  locals {self.size}", *self.placed(), "end"]) + "\n"

    def placed(self) -> list[str]:
        """The instructions, and the handlers in the order in which they end, with offsets in the place of marks."""
        places, offset = {}, 0
        for line in self.lines:
            if line.startswith("@"):
                places[line] = str(offset)
            else:
                offset += SIZE_OF[line.split(" ")[0]]
        lines = [line for line in self.lines if not line.startswith("@")] + self.handlers
        return ["  " + " ".join(places.get(word, word) for word in line.split(" ")) for line in lines]


def source_text(chance: random.Random) -> str:
    """The classes of a case."""
    heads = chance.sample(OTHERS, chance.randint(1, 4))
    bodies = {head: Body(chance, head, heads).text(chance.randint(1, 4)) for head in heads}
    statics = Body(chance, ENTRY, heads).text(chance.randint(4, 12))
    statics += "".join(text for head, text in bodies.items() if head.owner == "Main")
    methods = "".join(text for head, text in bodies.items() if head.owner == "H")
    initialiser = Body(chance, INITIALISER, heads).text(chance.randint(1, 3)) if chance.random() < 0.3 else ""
    close = CLOSE if chance.random() < 0.5 else ""
    return CLASSES.format(close=close, initialiser=initialiser, methods=methods, statics=statics)


def write_protocol(chance: random.Random, folder: Path, assembler: ModuleType) -> None:
    """Writes a case."""
    folder.mkdir(parents=True)
    source = source_text(chance)
    (folder / "source.txt").write_text(source, encoding="utf-8")
    for name, data in assembler.assemble(source).items():
        (folder / f"{name}.class").write_bytes(data)
    (folder / "stubs.toml").write_text(STUBS, encoding="utf-8")
    (folder / "entry").write_text("Main.main()V\n", encoding="utf-8")


def write_protocols(count: int, seed: int, folder: Path, assembler: ModuleType) -> None:
    """Writes cases, each of which depends on the seed and its own number alone."""
    for number in range(count):
        write_protocol(random.Random(f"{seed} {number} protocol"), folder / f"protocol{number:06}", assembler)


def main(words: list[str]) -> None:
    if len(words) != 4:
        sys.exit("usage: random_protocols.py COUNT SEED FOLDER ASSEMBLER")
    write_protocols(int(words[0]), int(words[1]), Path(words[2]), load_assembler(Path(words[3])))


if __name__ == "__main__":
    main(sys.argv[1:])
