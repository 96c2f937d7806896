"""Finds what may run from an entry: the methods of the folder, the classes of which objects are made, and the calls that may reach what the
library does. It is at least what the verifier reaches: a call reaches each method that it may select on any object that is made."""

from collections import defaultdict
from dataclasses import dataclass

from bodies import CALLS, FIELDS, GETFIELD, INVOKE_SPECIAL, INVOKE_STATIC, NEW, PUTFIELD, Body, Key, Use
from program import Program

Method = tuple[str, Key]
INITIALISER = ("<clinit>", "()V")
# The classes of objects that no instruction `new` and no description makes: constants, and what instructions throw (JVMS 6.5, 2.10).
OF_THE_MACHINE = [f"java/lang/{name}" for name in ("String", "Class", "NullPointerException", "ArithmeticException", "ClassCastException", "ArrayStoreException",
                  "NegativeArraySizeException", "ArrayIndexOutOfBoundsException", "NoClassDefFoundError", "ExceptionInInitializerError")]


@dataclass
class LibraryCall:
    """A call that may reach a method which stubs describe: the method that has it, the instruction, and the class that it is looked for in."""
    method: Method
    use: Use
    owner: str

    @property
    def key(self) -> Key:
        """The name and descriptor of what is called."""
        return self.use.name, self.use.descriptor


class Reach:
    """What may run. `methods` are those with code, `natives` those of the folder without; `made` are classes of objects; `first` those that are
    initialised at the start."""

    def __init__(self, program: Program, entry: list[Method]):
        self.program = program
        self.methods: dict[Method, Body] = {}
        self.natives: dict[Method, None] = {}
        self.uses: dict[Method, list[Use]] = {}
        self.made: dict[str, None] = {}
        self.library: dict[tuple[Method, int, str], LibraryCall] = {}
        self.started: set[str] = set()
        self.first = {each for name in {name for name, _ in entry} for each in [name, *program.supers(name)]}
        self.called: dict[Key, set[str]] = defaultdict(set)
        self.callers: dict[tuple[Key, str], list[tuple[Method, Use]]] = defaultdict(list)
        self.selects: dict[tuple[Key, str], set[str]] = defaultdict(set)
        self.answering: dict[Key, list[str]] = defaultdict(list)
        self.waiting: list[Method] = []
        self.new_of = news_by_key(program)
        self.follow(entry)

    def follow(self, entry: list[Method]) -> None:
        """Takes methods until there are no new ones."""
        for each in [*OF_THE_MACHINE, *(holds for stub in self.program.stubs.values() for holds in stub.holds)]:
            self.make(each)
        for name, key in entry:
            self.start(name)
            self.run(name, key)
        while self.waiting:
            self.scan(self.waiting.pop())

    def run(self, name: str, key: Key) -> None:
        """Takes a method of the folder."""
        body = self.program.body(name, key)
        if body is None:
            if self.program.is_native(name, key):
                self.natives.setdefault((name, key))
            return
        if (name, key) not in self.methods:
            self.methods[name, key] = body
            self.waiting.append((name, key))

    def start(self, name: str) -> None:
        """Runs the initialisers of a class and of those above it."""
        for each in [name, *self.program.supers(name)]:
            if each not in self.started and each in self.program.code:
                self.started.add(each)
                self.run(each, INITIALISER)

    def make(self, name: str) -> None:
        """Takes a class of which objects are made, and what calls select on them."""
        if name in self.made or name.startswith("["):
            return
        self.made[name] = None
        keys = {key for each in [name, *self.program.supers(name)] for key in self.program.keys(each)}
        for key in keys:
            self.answering[key].append(name)
            for owner in list(self.called.get(key, ())):
                if self.program.is_below(name, owner):
                    self.select(name, key, owner)

    def select(self, name: str, key: Key, owner: str) -> None:
        """Takes the methods that a call of an owner's method selects on an object of a class."""
        for each in self.program.selected(name, key):
            if each in self.selects[key, owner]:
                continue
            self.selects[key, owner].add(each)
            if each in self.program.code:
                self.run(each, key)
                self.give(each, key)
            else:
                for method, use in self.callers[key, owner]:
                    self.meet(method, use, each)

    def scan(self, method: Method) -> None:
        """Takes what a method does."""
        self.uses[method] = self.methods[method].uses()
        for use in self.uses[method]:
            if use.opcode == NEW:
                self.start(use.owner)
                self.make(use.owner)
            elif use.opcode in FIELDS and use.opcode not in (GETFIELD, PUTFIELD):
                self.start(use.owner)
            elif use.opcode in CALLS:
                self.call(method, use)

    def call(self, method: Method, use: Use) -> None:
        """Takes a call."""
        key = use.name, use.descriptor
        if use.opcode in (INVOKE_STATIC, INVOKE_SPECIAL):
            self.start(use.owner if use.opcode == INVOKE_STATIC else "")
            found = self.program.declaring(use.owner, key)
            if found in self.program.code:
                self.run(found, key)
                self.give(found, key)
            else:
                self.meet(method, use, found if found and use.owner in self.program.code else use.owner)
            return
        owner = use.owner
        self.callers[key, owner].append((method, use))
        for each in self.selects[key, owner]:
            if each not in self.program.code:
                self.meet(method, use, each)
        if owner not in self.called[key]:
            self.called[key].add(owner)
            for name in list(self.answering[key]):
                if self.program.is_below(name, owner):
                    self.select(name, key, owner)

    def meet(self, method: Method, use: Use, owner: str) -> None:
        """Takes a call that stubs answer, and makes the objects that they may give."""
        place = method, use.offset, owner
        if place not in self.library:
            self.library[place] = LibraryCall(method, use, owner)
            for name in self.new_of.get((use.name, use.descriptor), ()):
                self.make(name)

    def give(self, name: str, key: Key) -> None:
        """Makes the objects that the description of a native method gives."""
        if self.program.is_native(name, key):
            for each in self.new_of.get(key, ()):
                self.make(each)


def news_by_key(program: Program) -> dict[Key, list[str]]:
    """The classes of new objects that descriptions of a method of this name and descriptor give or throw."""
    found: dict[Key, dict[str, None]] = defaultdict(dict)
    for stub in program.stubs.values():
        for key, each in stub.methods.items():
            found[key].update((word[4:], None) for word in each.returns if word.startswith("new:"))
            found[key].update(dict.fromkeys(each.throws))
    return {key: list(names) for key, names in found.items()}


def entry_methods(program: Program, entry: str) -> list[Method]:
    """The methods that an entry CLASS.NAME names; those of all classes where none is named."""
    if not entry:
        return [(name, key) for name, each in program.code.items() if name not in program.models for key in each.methods]
    owner, _, name = entry.rpartition(".")
    return [(owner, key) for key in ((name, "([Ljava/lang/String;)V"), (name, "()V")) if owner in program.code]
