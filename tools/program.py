"""The program of a run as the tools see it: the class files of a folder, models of library classes among them, and what the stub file and the
base stubs describe."""

import os
import tomllib
from dataclasses import dataclass, field

import facts
from bodies import Body, Key
from class_file import ABSTRACT, NATIVE, OBJECT, PRIVATE, STATIC, BadClassFile, ClassFile, parse
from closure import MADE
from library import BASE_DOCUMENT, Unusable, read_base

# The folder of the models, below the folder of a run.
MODELS = "models"


@dataclass
class Stub:
    """A method that stubs describe: whether it is static or abstract, and what it returns, throws and keeps; `is_base` where the base stubs
    describe it, and then `base_throws` is what it throws."""
    is_static: bool = False
    is_abstract: bool = False
    returns: list[str] = field(default_factory=list)
    throws: list[str] = field(default_factory=list)
    keeps: list[str] = field(default_factory=list)
    is_base: bool = False
    base_throws: list[str] = field(default_factory=list)


@dataclass
class StubClass:
    """A class that stubs describe: its direct supertypes, the superclass first, its methods and fields in their order, and the classes that its
    static fields hold."""
    name: str
    supers: list[str]
    is_interface: bool = False
    methods: dict[Key, Stub] = field(default_factory=dict)
    holds: list[str] = field(default_factory=list)
    fields: list[Key] = field(default_factory=list)


class Program:
    """Classes by their names, `code` those of the folder and `stubs` the others."""

    def __init__(self, folder: str, stub_files: list[str]):
        self.code: dict[str, ClassFile] = {}
        self.data: dict[str, bytes] = {}
        self.models: set[str] = set()
        self.above: dict[str, list[str]] = {}
        self.own_keys: dict[str, dict[Key, bool]] = {}
        self.selections: dict[tuple[str, Key], list[str]] = {}
        self.read_folder(folder)
        self.stubs = base_stubs()
        for path in stub_files:
            self.read_stubs(path)
        self.bodies: dict[tuple[str, Key], Body] = {}

    # ---- reading

    def read_folder(self, folder: str) -> None:
        """Reads the class files of a folder; what is none is left out, since the verifier refuses it."""
        inside = os.path.join(folder, MODELS) + os.sep
        for place, _, names in os.walk(folder, followlinks=True):
            for name in sorted(names):
                if name.endswith(".class"):
                    self.read_class(os.path.join(place, name), inside)

    def read_class(self, path: str, inside: str) -> None:
        """Reads a class file; `inside` is how the paths of models begin."""
        with open(path, "rb") as file:
            data = file.read()
        try:
            found = parse(data)
        except BadClassFile:
            return
        found.path = path
        self.code[found.name], self.data[found.name] = found, data
        if path.startswith(inside):
            self.models.add(found.name)

    def read_stubs(self, path: str) -> None:
        """Takes what a stub file describes, classes before patches."""
        try:
            with open(path, "rb") as file:
                tables = tomllib.load(file).get("class", [])
        except (OSError, tomllib.TOMLDecodeError) as fault:
            raise Unusable(f"{path} cannot be read ({fault}): name the stub file of the run") from fault
        for table in sorted(tables, key=lambda each: bool(each.get("patch"))):
            methods = {(each["name"], each["descriptor"]): stub_of(each) for each in table.get("method", [])}
            if table.get("patch"):
                self.stubs.setdefault(table["name"], StubClass(table["name"], [])).methods.update(methods)
                continue
            supers = [table.get("super", OBJECT), *table.get("interfaces", [])]
            holds = [each["holds"] for each in table.get("field", []) if "holds" in each]
            fields = [(each["name"], each["descriptor"]) for each in table.get("field", [])]
            self.stubs[table["name"]] = StubClass(table["name"], supers, table.get("interface", False), methods, holds, fields)

    # ---- classes

    def direct_supers(self, name: str) -> list[str]:
        """The superclass, if there is one, and the superinterfaces."""
        if name in self.code:
            return self.code[name].supers()
        return self.stubs[name].supers if name in self.stubs else []

    def supers(self, name: str) -> list[str]:
        """All supertypes of a class, from the nearest on."""
        if name not in self.above:
            found = dict.fromkeys([name])
            for each in (ways := [name]):
                new = [above for above in self.direct_supers(each) if above not in found]
                found.update(dict.fromkeys(new))
                ways.extend(new)
            self.above[name] = list(found)[1:]
        return self.above[name]

    def is_below(self, name: str, upper: str) -> bool:
        """Whether objects of the first class are ones of the second; an array is one of Object alone, and as itself."""
        return name == upper or upper == OBJECT or upper in self.supers(name)

    def join(self, one: str, other: str) -> str:
        """A type that has the objects of both."""
        if self.is_below(one, other):
            return other
        return one if self.is_below(other, one) else OBJECT

    def superclasses(self, name: str) -> list[str]:
        """A class and its superclasses."""
        found: list[str] = []
        while name and name not in found:
            found.append(name)
            above = self.direct_supers(name)
            is_class = not (name in self.stubs and self.stubs[name].is_interface)
            name = above[0] if above and is_class else ""
        return found

    def is_library(self, name: str) -> bool:
        """Whether a class is described, and not in the folder."""
        return name not in self.code

    def keys(self, name: str) -> dict[Key, bool]:
        """The instance methods that a class itself has, each with whether it is abstract; constructors are none."""
        if name not in self.own_keys:
            self.own_keys[name] = self.find_keys(name)
        return self.own_keys[name]

    def find_keys(self, name: str) -> dict[Key, bool]:
        """Looks for them."""
        if name in self.code:
            return {key: each.has(ABSTRACT) for key, each in self.code[name].methods.items()
                    if not each.has(STATIC) and not key[0].startswith("<")}
        stub = self.stubs.get(name)
        return {key: each.is_abstract for key, each in stub.methods.items() if not each.is_static and not key[0].startswith("<")} if stub else {}

    def declaring_field(self, owner: str, name: str) -> str | None:
        """The class of the folder, no model, that has a field of a name, from a class upward; None where it is the library's."""
        return next((each for each in [owner, *self.supers(owner)] if each in self.code and each not in self.models
                     and any(key[0] == name for key in self.code[each].fields)), None)

    # ---- methods

    def declaring(self, name: str, key: Key) -> str | None:
        """The class that has the method which a reference finds: a superclass first, then an interface."""
        for each in [*self.superclasses(name), *self.supers(name)]:
            if each in self.code and key in self.code[each].methods or each in self.stubs and key in self.stubs[each].methods:
                return each
        return None

    def selected(self, name: str, key: Key) -> list[str]:
        """The classes whose method may run at a call on an object of a class: that of the first superclass which has one, and else
        those of the interfaces with a body. A private one counts, and what is found behind it too: Java 8 and later ones differ."""
        if (name, key) not in self.selections:
            self.selections[name, key] = self.look_for_selected(name, key)
        return self.selections[name, key]

    def look_for_selected(self, name: str, key: Key) -> list[str]:
        """Looks for them."""
        hidden: list[str] = []
        for each in self.superclasses(name):
            if self.keys(each).get(key) is False and not self.is_private(each, key):
                return [each, *hidden]
            if self.is_private(each, key):
                hidden.append(each)
        return hidden + [each for each in self.supers(name) if each not in hidden and self.keys(each).get(key) is False]

    def is_private(self, name: str, key: Key) -> bool:
        """Whether a method of the folder is private."""
        return name in self.code and key in self.code[name].methods and self.code[name].methods[key].has(PRIVATE)

    def body(self, name: str, key: Key) -> Body | None:
        """The code of a method of the folder, if it has some."""
        member = self.code[name].methods.get(key) if name in self.code else None
        if member is None or not member.code_length:
            return None
        if (name, key) not in self.bodies:
            self.bodies[name, key] = Body(self.code[name], key, self.data[name])
        return self.bodies[name, key]

    def is_native(self, name: str, key: Key) -> bool:
        """Whether a method of the folder is native."""
        return name in self.code and key in self.code[name].methods and self.code[name].methods[key].has(NATIVE)

    def described(self, owner: str, key: Key) -> list[tuple[str, Stub]]:
        """The descriptions that a call of a method may meet, each with its class: at the class, above it, and below it."""
        found = [(name, stub.methods[key]) for name, stub in self.stubs.items() if key in stub.methods]
        return [(name, each) for name, each in found if self.is_below(name, owner) or self.is_below(owner, name)]

    def said(self, listed: str, owner: str, key: Key) -> facts.Words | None:
        """What a list of tools/facts says of a method of the library; that of a class that is made stands at the type that it is made for."""
        owner = owner.removeprefix(MADE)
        return facts.nearest(listed, [owner, *self.supers(owner)], key, lambda each: self.has(each, key))

    def has(self, name: str, key: Key) -> bool:
        """Whether a class of the library has a method itself, by a description or in its model."""
        return name in self.stubs and key in self.stubs[name].methods or name in self.models and key in self.code[name].methods



def stub_of(table: dict) -> Stub:
    """A method of a stub file."""
    return Stub(table.get("static", False), table.get("abstract", False), table.get("returns", []), table.get("throws", []), table.get("keeps", []))


def base_stubs() -> dict[str, StubClass]:
    """The classes that the base stubs describe."""
    found = {}
    for name, each in read_base(BASE_DOCUMENT).items():
        methods = {key: Stub(key in each.statics, is_abstract, each.returns.get(key, []), keeps=each.keeps.get(key, []), is_base=True,
                             base_throws=each.throws.get(key, [])) for key, is_abstract in each.methods.items()}
        holds = [result[1:-1] for _, result in each.fields if result.startswith("L")]
        found[name] = StubClass(name, each.supers, each.is_interface, methods, holds, list(each.fields))
    return found
