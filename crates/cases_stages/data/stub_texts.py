"""The stubs of a case, as texts say them: those of its file `stubs.toml` (docs/FORMATS.md), and those that are there
from the start, which are read from the tables of docs/BASE_STUBS.md. They are for tests alone, and are not judged: a
case whose stubs break a rule has no program, and nothing of them is asked."""

import re
import tomllib
from dataclasses import dataclass, field
from pathlib import Path
from typing import Optional

OBJECT = "java/lang/Object"
MESSAGE, CAUSE = "(Ljava/lang/String;)V", "(Ljava/lang/String;Ljava/lang/Throwable;)V"
CONSTRUCTORS = {
    "-": [("()V", [])],
    "message": [("()V", []), (MESSAGE, ["arg1"])],
    "cause": [("()V", []), (MESSAGE, ["arg1"]), (CAUSE, ["arg1", "arg2"])],
}
METHOD = re.compile(r"- `(static )?([^(` ]+)(\([^` ]*)` (.*)")
FIELD = re.compile(r"`(\S+) (\S+)` holds ([^\s,.]+)")
QUOTED = re.compile(r"`([^`]*)`")


@dataclass
class StubMethod:
    """What a stub says of a method, in the words of a stub file."""
    name: str
    descriptor: str
    is_static: bool = False
    is_abstract: bool = False
    returns: list[str] = field(default_factory=list)
    throws: list[str] = field(default_factory=list)
    keeps: list[str] = field(default_factory=list)


@dataclass
class StubField:
    """What a stub says of a field: the class of the object that it holds from the start, if it does."""
    name: str
    descriptor: str
    is_static: bool = False
    holds: Optional[str] = None


@dataclass
class StubClass:
    """A class of a stub file, or one that only adds methods to the class of its name."""
    name: str
    super_class: Optional[str]
    interfaces: list[str] = field(default_factory=list)
    is_interface: bool = False
    is_patch: bool = False
    methods: list[StubMethod] = field(default_factory=list)
    fields: list[StubField] = field(default_factory=list)


# ---- a file


def read_stub_file(path: Path) -> list[StubClass]:
    """The classes of a stub file; none where it is not there."""
    if not path.is_file():
        return []
    with open(path, "rb") as file:
        return [stub_class(table) for table in tomllib.load(file)["class"]]


def stub_class(table: dict) -> StubClass:
    is_patch = table.get("patch", False)
    return StubClass(
        name=table["name"],
        super_class=None if is_patch else table.get("super", OBJECT),
        interfaces=table.get("interfaces", []),
        is_interface=table.get("interface", False),
        is_patch=is_patch,
        methods=[stub_method(each) for each in table.get("method", [])],
        fields=[StubField(each["name"], each["descriptor"], each.get("static", False), each.get("holds"))
                for each in table.get("field", [])],
    )


def stub_method(table: dict) -> StubMethod:
    return StubMethod(
        name=table["name"],
        descriptor=table["descriptor"],
        is_static=table.get("static", False),
        is_abstract=table.get("abstract", False),
        returns=table.get("returns", []),
        throws=table.get("throws", []),
        keeps=table.get("keeps", []),
    )


# ---- the document


def read_base_document(path: Path) -> list[StubClass]:
    """The classes that the document lists."""
    classes: list[StubClass] = []
    for line in path.read_text(encoding="utf-8").splitlines():
        quoted = QUOTED.findall(line)
        if line.startswith("### "):
            classes.append(StubClass(quoted[0], None if quoted[0] == OBJECT else OBJECT))
        elif line.startswith("| `"):
            classes.append(table_row([cell.strip() for cell in line.strip("|").split("|")]))
        elif line.startswith("Extends "):
            classes[-1].super_class = quoted[0]
        elif line.startswith("Implements "):
            classes[-1].interfaces = quoted
        elif line.startswith("Static fields: "):
            found = FIELD.findall(line)
            classes[-1].fields = [StubField(name, descriptor, True, holds) for name, descriptor, holds in found]
        elif line.startswith("- `"):
            classes[-1].methods.append(method_line(line))
    return classes


def table_row(cells: list[str]) -> StubClass:
    """A row of the table of interfaces, or of that of exceptions."""
    name, above = (cell.strip("`") for cell in cells[:2])
    if cells[2] in CONSTRUCTORS:
        constructors = [StubMethod("<init>", descriptor, returns=["void"], keeps=list(keeps))
                        for descriptor, keeps in CONSTRUCTORS[cells[2]]]
        return StubClass(name, above, methods=constructors)
    interface = StubClass(name, OBJECT, [] if above == "-" else [above], is_interface=True)
    for text in QUOTED.findall(cells[2]):
        at = text.index("(")
        interface.methods.append(StubMethod(text[:at], text[at:], is_abstract=True))
    return interface


def method_line(line: str) -> StubMethod:
    """A line of a method: its results, and what it throws and keeps behind these words, with commas in between."""
    found = METHOD.fullmatch(line)
    if found is None:
        raise ValueError(f"no method of the base stubs: {line}")
    static, name, descriptor, says = found.groups()
    method = StubMethod(name, descriptor, is_static=static is not None, is_abstract=says == "abstract")
    if method.is_abstract:
        return method
    results, *others = says.split(", ")
    method.returns = results.split(" or ")
    listed = method.throws
    for part in others:
        word, _, behind = part.partition(" ")
        if behind:
            listed = {"throws": method.throws, "keeps": method.keeps}[word]
        listed.append(behind or word)
    return method
