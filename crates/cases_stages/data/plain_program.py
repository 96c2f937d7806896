"""The program that the class files and the stubs of a case link to, for tests alone: its classes, methods and fields;
subtypes (JVMS 4.10.1.2, 5.5); and the method that a call selects by the class of an object (JVMS 5.4.5,
6.5.invokevirtual, 6.5.invokeinterface). All of it is computed in the plainest way, and nothing is judged: whether a
case has a program is told elsewhere."""

import sys
from dataclasses import dataclass, field
from functools import cache
from pathlib import Path
from typing import Iterator, Optional

from stub_texts import OBJECT, StubClass, StubMethod, read_base_document, read_stub_file

# The folder of the repository, which has the reader of class files and the document of the base stubs.
ABOVE = Path(__file__).resolve().parents
ROOT = next((folder for folder in ABOVE if (folder / "tools" / "class_file.py").is_file()), None)
if ROOT is None:
    sys.exit(f"no folder above {__file__} has tools/class_file.py")
sys.path.append(str(ROOT / "tools"))
from class_file import ABSTRACT, INTERFACE, NATIVE, PRIVATE, STATIC, Reader  # noqa: E402

PUBLIC, PROTECTED = 0x0001, 0x0004
ARRAY_SUPERS = (OBJECT, "java/lang/Cloneable", "java/io/Serializable")
NO_STUB, NO_IMPLEMENTATION, CLASHING_DEFAULTS, PACKAGE_OVERRIDE = CALL_REASONS = (
    "NoStub", "NoImplementation", "ClashingDefaults", "PackageOverride")


@dataclass(eq=False)
class Method:
    """A method: a stub may describe it; else it is one of a class file, which may have code, from this offset on."""
    class_name: str
    name: str
    descriptor: str
    flags: int
    stub: Optional[StubMethod] = None
    code_start: Optional[int] = None

    @property
    def text(self) -> str:
        return f"{self.class_name}.{self.name}{self.descriptor}"

    @property
    def signature(self) -> tuple[str, str]:
        return self.name, self.descriptor

    @property
    def is_class_initialiser(self) -> bool:
        return self.signature == ("<clinit>", "()V")

    @property
    def is_static(self) -> bool:
        """The initialiser of a class counts as static whatever its flags are."""
        return self.has(STATIC) or self.is_class_initialiser

    @property
    def is_undescribed(self) -> bool:
        """Whether it is a native method that no stub describes."""
        return self.has(NATIVE) and self.stub is None

    def has(self, flag: int) -> bool:
        return self.flags & flag != 0


@dataclass(eq=False)
class Field:
    """A field. A static one may hold an object of a class from the start."""
    class_name: str
    name: str
    descriptor: str
    is_static: bool
    holds: Optional[str] = None

    @property
    def text(self) -> str:
        return f"{self.class_name}.{self.name}:{self.descriptor}"


@dataclass(eq=False)
class Class:
    """A class or an interface, of a class file or of a stub."""
    name: str
    super_class: Optional[str]
    interfaces: list[str]
    is_interface: bool
    file: Optional[str] = None
    methods: list[Method] = field(default_factory=list)
    fields: list[Field] = field(default_factory=list)

    @property
    def is_folder(self) -> bool:
        """Whether it is one of a class file."""
        return self.file is not None

    def supers(self) -> list[str]:
        return ([self.super_class] if self.super_class else []) + self.interfaces


# ---- class files


@dataclass
class FileMember:
    flags: int
    code_start: Optional[int]


class MemberReader(Reader):
    """Reads a class file, and of each method where its code begins: behind two limits and the length (JVMS 4.7.3)."""

    def member(self) -> tuple[tuple[str, str], FileMember]:
        flags, name, descriptor = self.u2(), self.text(self.u2()), self.text(self.u2())
        code_start = None
        for _ in range(self.u2()):
            attribute, length = self.text(self.u2()), self.u4()
            if attribute == "Code" and code_start is None:
                code_start = self.at + 8
            self.at += length
        return (name, descriptor), FileMember(flags, code_start)


def read_class(path: Path, file: str) -> Class:
    """The class of a class file."""
    read = MemberReader(path.read_bytes()).whole()
    methods = [Method(read.name, *key, member.flags, code_start=member.code_start)
               for key, member in read.methods.items()]
    fields = [Field(read.name, *key, member.flags & STATIC != 0) for key, member in read.fields.items()]
    return Class(read.name, read.super_class or None, read.interfaces, read.has(INTERFACE), file, methods, fields)


# ---- stubs


def add_description(held: list[StubMethod], stub: StubMethod) -> None:
    """A description takes the place of an earlier one of its name and descriptor, and else comes last."""
    for place, earlier in enumerate(held):
        if (earlier.name, earlier.descriptor) == (stub.name, stub.descriptor):
            held[place] = stub
            return
    held.append(stub)


def class_of_stub(stub: StubClass, patches: list[StubMethod]) -> Class:
    """A class that a stub describes, with what its patches add. Its members count as public."""
    held = list(stub.methods)
    for patch in patches:
        add_description(held, patch)
    flags = [PUBLIC | (STATIC if each.is_static else 0) | (ABSTRACT if each.is_abstract else 0) for each in held]
    methods = [Method(stub.name, each.name, each.descriptor, flag, stub=each) for each, flag in zip(held, flags)]
    fields = [Field(stub.name, each.name, each.descriptor, each.is_static, each.holds) for each in stub.fields]
    return Class(stub.name, stub.super_class, stub.interfaces, stub.is_interface, methods=methods, fields=fields)


def describe_natives(found: Class, patches: list[StubMethod]) -> None:
    """Patches describe native methods of a class file, of their names, descriptors and flag `static`."""
    for patch in patches:
        for method in found.methods:
            alike = method.signature == (patch.name, patch.descriptor) and method.has(STATIC) == patch.is_static
            if alike and method.has(NATIVE) and not patch.is_abstract:
                method.stub = patch


# ---- the program


class Program:
    """Classes, in byte order of their names; methods, in the order of their numbers; and fields; each by its text."""

    def __init__(self, classes: list[Class]):
        classes = sorted(classes, key=lambda each: each.name.encode("utf-8", "surrogatepass"))
        self.classes = {each.name: each for each in classes}
        self.methods = {method.text: method for each in classes for method in each.methods}
        self.fields = {held.text: held for each in classes for held in each.fields}
        # What was asked once is kept, as long as the program is.
        self.supertypes = cache(self.find_supertypes)
        self.select = cache(self.find_selected)
        self.initialisers = cache(self.find_initialisers)

    # ---- subtypes

    def find_supertypes(self, name: str) -> frozenset[str]:
        """The class itself and all above it."""
        found = {name}
        for above in self.classes[name].supers():
            found |= self.supertypes(above)
        return frozenset(found)

    def is_proper_subtype(self, name: str, above: str) -> bool:
        return name != above and above in self.supertypes(name)

    def fits(self, upper: str, lower: str) -> bool:
        """Whether an object of the type with the lower name is one of the type with the upper name."""
        if not lower.startswith("["):
            return lower in self.classes and upper in self.supertypes(lower)
        if upper in ARRAY_SUPERS or upper == lower:
            return True
        above, below = element_name(upper), element_name(lower)
        return above is not None and below is not None and self.fits(above, below)

    def chain(self, name: str) -> Iterator[Class]:
        """The class and its superclasses."""
        above: Optional[str] = name
        while above is not None:
            yield self.classes[above]
            above = self.classes[above].super_class

    # ---- selection

    def overrides(self, method: Method, other: Method) -> bool:
        if method.has(PRIVATE) or method.signature != other.signature:
            return False
        if not self.is_proper_subtype(method.class_name, other.class_name):
            return False
        same_package = package_of(method.class_name) == package_of(other.class_name)
        return other.has(PUBLIC) or other.has(PROTECTED) or (not other.has(PRIVATE) and same_package)

    def found_upward(self, by_interface: bool, name: str, resolved: Method) -> Optional[Method]:
        """The first instance method upward that may be the target."""
        for each in self.chain(name):
            for method in each.methods:
                if method.is_static or method.signature != resolved.signature:
                    continue
                if by_interface or method is resolved or self.overrides(method, resolved):
                    return method
        return None

    def defaults(self, name: str, signature: tuple[str, str]) -> list[Method]:
        """The maximally specific methods of the superinterfaces that are not abstract."""
        interfaces = [above for above in self.supertypes(name) if above != name and self.classes[above].is_interface]
        inherited = [method for above in interfaces for method in self.classes[above].methods
                     if method.signature == signature and not method.has(PRIVATE) and not method.is_static]
        lowest = [method for method in inherited
                  if not any(self.is_proper_subtype(other.class_name, method.class_name) for other in inherited)]
        return [method for method in lowest if not method.has(ABSTRACT)]

    def is_package_overridden(self, name: str, resolved: Method) -> bool:
        """Whether the resolved method is visible in its package alone, and a class from the receiver's upward to below
        the method's own has one of its name and descriptor in another package."""
        if resolved.has(PUBLIC) or resolved.has(PROTECTED) or resolved.has(PRIVATE):
            return False
        for each in self.chain(name):
            if each.name == resolved.class_name:
                return False
            declares = any(method.signature == resolved.signature for method in each.methods)
            if declares and package_of(each.name) != package_of(resolved.class_name):
                return True
        return False

    def find_selected(self, by_interface: bool, name: str, resolved: Method) -> tuple[Optional[Method], Optional[str]]:
        """What a call of a resolved method selects for an object of a class or an array: the target, or why none."""
        name = OBJECT if name.startswith("[") else name
        target: Optional[Method] = resolved
        if by_interface or not resolved.has(PRIVATE):
            target = self.found_upward(by_interface, name, resolved)
            defaults = self.defaults(name, resolved.signature)
            if target is None and len(defaults) > 1:
                return None, CLASHING_DEFAULTS
            if target is None and defaults:
                target = defaults[0]
        if target is None or target.has(ABSTRACT):
            return None, NO_IMPLEMENTATION
        if self.is_package_overridden(name, resolved):
            return None, PACKAGE_OVERRIDE
        return target, None

    # ---- initialisation

    def find_initialisers(self, name: str) -> tuple[Method, ...]:
        """The initialisers of a class and of its supertypes for which class files have code."""
        methods = [method for above in self.supertypes(name) for method in self.classes[above].methods]
        return tuple(method for method in methods
                     if method.is_class_initialiser and method.stub is None and method.code_start is not None)


def element_name(name: str) -> Optional[str]:
    """The name of the class or array of which an array's elements are; none where they are primitive, or it is no
    array."""
    element = name[1:]
    if not name.startswith("[") or not element.startswith(("L", "[")):
        return None
    return element[1:-1] if element.startswith("L") else element


def package_of(name: str) -> str:
    return name[:name.rfind("/") + 1]


def link(folder: Path, stub_file: Optional[str] = "stubs.toml") -> Program:
    """The program of the files of a folder, with the stubs of the file of this name, if it is there."""
    stubs = read_base_document(ROOT / "docs" / "BASE_STUBS.md")
    stubs += read_stub_file(folder / stub_file) if stub_file is not None else []
    patches: dict[str, list[StubMethod]] = {}
    for stub in stubs:
        if stub.is_patch:
            patches.setdefault(stub.name, []).extend(stub.methods)
    classes = [class_of_stub(stub, patches.get(stub.name, [])) for stub in stubs if not stub.is_patch]
    for path in folder.rglob("*.class"):
        found = read_class(path, path.relative_to(folder).as_posix())
        describe_natives(found, patches.get(found.name, []))
        classes.append(found)
    return Program(classes)
