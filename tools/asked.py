"""What a check is asked: the words of tools/check, and a file typestate.toml that holds them. A word of the command goes before the file's."""

import pathlib
import tomllib
from collections.abc import Callable
from dataclasses import dataclass, field, fields
from typing import Any

# The entry that stands for all public methods, and the file that is read where it stands in the folder of the call.
PUBLIC = "public"
CONFIG = "typestate.toml"
# What a run can be told to fail on, and what it fails on without a word.
FAILINGS = ("unproved", "limit", "safe-if")
TOP = pathlib.Path(__file__).resolve().parent.parent
PROPERTIES = TOP / "properties"


class Failed(Exception):
    """The run ends with a status and a message that says what to do."""

    def __init__(self, status: int, message: str):
        super().__init__(message)
        self.status = status


@dataclass
class Asked:
    """What a run is asked. Without properties all ready ones are taken; `fail_on` is None where nothing is said of it."""
    places: list[str] = field(default_factory=list)
    properties: list[str] = field(default_factory=list)
    entries: list[str] = field(default_factory=list)
    stubs: str | None = None
    jdk: str | None = None
    drop: bool = False
    desugar: bool = False
    partial: bool = False
    keep: str | None = None
    trace: bool = False
    assumptions: bool = False
    assume: str | None = None
    sources: list[str] = field(default_factory=list)
    baseline: str | None = None
    write_baseline: str | None = None
    fail_on: list[str] | None = None
    sarif: str | None = None
    sarif_all: bool = False
    html: str | None = None
    stages: str | None = None
    depth: str | None = None
    fact_limit: str | None = None
    pair_limit: str | None = None


# ---- typestate.toml


def a_flag(value: Any, _: pathlib.Path) -> bool:
    """A value that is true or false."""
    if not isinstance(value, bool):
        raise ValueError("it is true or false")
    return value


def a_number(value: Any, _: pathlib.Path) -> str:
    """A value that is a number."""
    if not isinstance(value, int) or isinstance(value, bool):
        raise ValueError("it is a number")
    return str(value)


def a_path(value: Any, below: pathlib.Path) -> str:
    """A value that is a path, from the folder of the file on."""
    if not isinstance(value, str) or not value:
        raise ValueError("it is a text")
    return str(below / value)


def texts(value: Any, _: pathlib.Path) -> list[str]:
    """A value that is a text or a list of texts."""
    found = [value] if isinstance(value, str) else value
    if not isinstance(found, list) or not all(isinstance(each, str) and each for each in found):
        raise ValueError("it is a text or a list of texts")
    return list(found)


def paths(value: Any, below: pathlib.Path) -> list[str]:
    """A value that is a path or a list of paths."""
    return [str(below / each) for each in texts(value, below)]


def property_names(value: Any, below: pathlib.Path) -> list[str]:
    """Properties: files, from the folder of the file on, or names of ready ones."""
    return [str(below / each) if (below / each).is_file() else each for each in texts(value, below)]


# The keys of the file that have another form than a flag, by their attributes.
FORMS: dict[str, Callable[[Any, pathlib.Path], Any]] = {
    "places": paths, "properties": property_names, "entries": texts, "sources": paths, "fail_on": texts,
    **dict.fromkeys(("stubs", "jdk", "keep", "assume", "baseline", "write_baseline", "sarif", "html"), a_path),
    **dict.fromkeys(("stages", "depth", "fact_limit", "pair_limit"), a_number),
}


def read_config(path: pathlib.Path) -> dict[str, Any]:
    """What a file typestate.toml says, by attributes."""
    try:
        table = tomllib.loads(path.read_text(encoding="utf-8"))
    except (OSError, UnicodeDecodeError, tomllib.TOMLDecodeError) as fault:
        raise Failed(65, f"{path} cannot be read ({fault}): write it as docs/GUIDE.md shows") from fault
    known = {each.name.replace("_", "-"): each.name for each in fields(Asked)}
    found: dict[str, Any] = {}
    for key, value in table.items():
        if key not in known:
            raise Failed(64, f"{path} has the key {key}; the keys are {', '.join(known)}")
        try:
            found[known[key]] = FORMS.get(known[key], a_flag)(value, path.parent)
        except ValueError as fault:
            raise Failed(64, f"{path}, key {key}: {fault}") from fault
    return found


def is_said(value: Any) -> bool:
    """Whether a word was given."""
    return value is not None and value is not False and value != []


def with_config(words: dict[str, Any], config: pathlib.Path | None) -> Asked:
    """The words of a call, and what the file adds: the one that is named, or else the one of the folder, if there is one."""
    named = config or pathlib.Path(CONFIG)
    said = {key: value for key, value in words.items() if is_said(value)}
    table = read_config(named) if config is not None or named.is_file() else {}
    return settled(Asked(**(table | said)))


# ---- what stands for what


def settled(asked: Asked) -> Asked:
    """The same, where it can be done; it fails else."""
    if not asked.places:
        raise Failed(64, "no jar and no folder is named: name the build first, or write a file typestate.toml (docs/GUIDE.md)")
    if not asked.entries:
        raise Failed(64, "no entry is named: give --entry CLASS.NAME, or --entry public for a library")
    for name in [*asked.places, *([asked.stubs] if asked.stubs else [])]:
        if not pathlib.Path(name).exists():
            raise Failed(65, f"{name} is not there: name a file or a folder that is")
    if asked.stubs and asked.drop:
        raise Failed(64, "--drop has a say only where the stub file is written: leave out --drop or --stubs")
    if asked.stubs and asked.partial:
        raise Failed(64, "--partial writes the stub file anew: leave out --partial or --stubs")
    wrong = [each for each in asked.fail_on or [] if each not in (*FAILINGS, "nothing")]
    if wrong:
        raise Failed(64, f"--fail-on {wrong[0]}: it is of {', '.join(FAILINGS)} and nothing")
    asked.entries = list(dict.fromkeys(map(entry_of, asked.entries)))
    if sum(map(is_public, asked.entries)) > 1:
        raise Failed(64, f"--entry {PUBLIC} may be named once: give one package, or none")
    return asked


def entry_of(named: str) -> str:
    """An entry as the verifier takes it: the class with slashes, and the method behind the last full stop."""
    if is_public(named):
        return named
    owner, point, name = named.rpartition(".")
    if not point or not owner or not name:
        raise Failed(64, f"the entry {named} is none: write it as org.example.Main.main, or {PUBLIC}")
    return f"{owner.replace('.', '/')}.{name}"


def is_public(entry: str) -> bool:
    """Whether an entry stands for public methods: `public`, or `public:PACKAGE`."""
    return entry == PUBLIC or entry.startswith(f"{PUBLIC}:")


def ready_protocols() -> list[str]:
    """The names of the ready protocols."""
    return sorted(path.parent.parent.name for path in PROPERTIES.glob("*/folder/p.toml"))


def property_file(named: str) -> pathlib.Path:
    """The property file that is named, or that of the ready protocol."""
    ready = PROPERTIES / named / "folder" / "p.toml"
    if pathlib.Path(named).is_file():
        return pathlib.Path(named)
    if "/" not in named and ready.is_file():
        return ready
    raise Failed(65, f"there is no property {named}: name a file, or one of {', '.join(ready_protocols())}")


def property_files(asked: Asked) -> dict[str, pathlib.Path]:
    """The property files of a run, by short names: those that are asked, or all ready ones."""
    found: dict[str, pathlib.Path] = {}
    for each in asked.properties or ready_protocols():
        path = property_file(each)
        name = each if path != pathlib.Path(each) else path.stem
        if found.get(name, path) != path:
            raise Failed(64, f"two properties have the name {name}: rename one of the files")
        found[name] = path
    return found
