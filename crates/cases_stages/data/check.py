#!/usr/bin/env python3
"""Checks the worked cases of points-to sets: that each folder is complete, and what is expected is well put.

  check.py ASSEMBLER CASES [--write]

ASSEMBLER is the folder of `assemble.py`, and CASES that of the cases. With `--write` the class files are written first
that the texts give.

A case is a folder with `source.txt`, the class files that are made of it, perhaps `stubs.toml`, the file `entry`, and
the file `expected`: what the program has to print of the case, but for its name and the empty line at its end. It was
worked out from the rules, and not taken from the program. It is one line, if the files have no program, if the entry is
not there, or if the end is a limit or a refusal. Else the first line is `end solved`, and after it stand the lines of
each kind together: `reached`, `target`, `holds`, `writes`. Those of one kind stand in byte order, and none twice.
Nothing is printed where all of this holds; else each breach is, and the status is 1.
"""
import re
import sys
import tomllib
from pathlib import Path
from typing import Any, Iterator

DEFAULT_LIMIT = 20000000
METHOD = r"[^\s()]+\.[^\s().]+\([^\s()]*\)[^\s()]+"
FIELD = r"[^\s:]+:\S+"
NUMBER = r"(?:0|[1-9][0-9]*)"
SITE = rf"\[(?:Boot - 0|(?:New|Result|Thrown) {METHOD} {NUMBER}) \S+\]"
PLACE = (rf"(?:param {METHOD} {NUMBER}|at {METHOD} {NUMBER} {NUMBER}|field {SITE} {FIELD}|elements {SITE}"
         rf"|static {FIELD}|kept|result {METHOD}|thrown {METHOD})")
REFUSAL = rf"refused (\S+) {NUMBER} [A-Za-z]+"
KINDS = {
    "reached": re.compile(rf"reached {METHOD}"),
    "target": re.compile(rf"target (?:start|{METHOD} {NUMBER}) > {METHOD}"),
    "holds": re.compile(rf"holds {PLACE} : {SITE}"),
    "writes": re.compile(rf"writes {METHOD} : {FIELD}"),
}


def class_files(assembler: Any, source: str) -> dict[str, bytes]:
    """The class files of a text, by their names in the folder."""
    return {name + ".class": data for name, data in assembler.assemble(source).items()}


def write_files(folder: Path, made: dict[str, bytes]) -> None:
    for name, data in made.items():
        path = folder / name
        path.parent.mkdir(parents=True, exist_ok=True)
        path.write_bytes(data)


def check_files(folder: Path, made: dict[str, bytes]) -> Iterator[str]:
    """The folder has just the files of a case, and the class files are those of its text."""
    found = {path.relative_to(folder).as_posix() for path in folder.rglob("*") if not path.is_dir()}
    wanted = {"source.txt", "entry", "expected"} | made.keys()
    yield from (f"{name} is not there" for name in sorted(wanted - found))
    yield from (f"{name} does not belong there" for name in sorted(found - wanted - {"stubs.toml"}))
    for name in sorted(made.keys() & found):
        if (folder / name).read_bytes() != made[name]:
            yield f"{name} is not what source.txt gives"


def check_stubs(folder: Path) -> Iterator[str]:
    """The stub file, if there is one, is a TOML document."""
    path = folder / "stubs.toml"
    if path.is_file():
        try:
            tomllib.loads(path.read_text(encoding="utf-8"))
        except ValueError as error:
            yield f"stubs.toml: {error}"


def lines_of(folder: Path, name: str) -> list[str]:
    """The lines of a file, each of which has to end."""
    text = (folder / name).read_text(encoding="utf-8")
    if not text.endswith("\n"):
        raise ValueError(f"{name} does not end with the end of a line")
    return text[:-1].split("\n")


def read_entry(folder: Path) -> tuple[str, int]:
    """The entry method and the limit of pairs."""
    method, *limits = lines_of(folder, "entry")
    if not re.fullmatch(METHOD, method):
        raise ValueError(f"entry: no method: {method}")
    if len(limits) > 1 or any(not re.fullmatch(r"[1-9][0-9]{0,7}", limit) for limit in limits):
        raise ValueError("entry: no limit, or more lines than two")
    return method, int(limits[0]) if limits else DEFAULT_LIMIT


def check_end(lines: list[str], limit: int, made: dict[str, bytes]) -> Iterator[str]:
    """The one line of a case that is not solved."""
    refusal = re.fullmatch(rf"(?:end )?{REFUSAL}", lines[0])
    if refusal and refusal.group(1) not in made:
        yield f"refused in a file that is not there: {refusal.group(1)}"
    if not refusal and lines[0] not in ("no entry", f"end limit {limit}"):
        yield f"no end of this case: {lines[0]}"
    yield from (f"stands after the end: {line}" for line in lines[1:])


def check_facts(lines: list[str], entry: str, limit: int) -> Iterator[str]:
    """The lines after `end solved` are of their forms and in order; the entry is there; the limit is not met."""
    for line in lines:
        kind = KINDS.get(line.split(" ")[0])
        if kind is None or not kind.fullmatch(line):
            yield f"not of the form: {line}"
    known = [line for line in lines if line.split(" ")[0] in KINDS]
    kinds = list(KINDS)
    if known != sorted(known, key=lambda line: (kinds.index(line.split(" ")[0]), line.encode())):
        yield "the lines are not in order"
    yield from (f"stands twice: {line}" for line in sorted(set(known)) if known.count(line) > 1)
    of_entry = (f"reached {entry}", f"target start > {entry}")
    yield from (f"is not there: {line}" for line in of_entry if line not in known)
    if sum(line.startswith("holds ") for line in known) >= limit:
        yield "the limit of pairs is met"
    yield from check_reached(known)


def check_reached(lines: list[str]) -> Iterator[str]:
    """Each method that a line names is reached, and each target is one that runs."""
    reached = {line.removeprefix("reached ") for line in lines if line.startswith("reached ")}
    for line in lines:
        for method in re.findall(rf"(?<![^\s\[]){METHOD}(?![^\s])", line):
            if method not in reached:
                yield f"is not reached: {method}"


def check_case(assembler: Any, folder: Path, write: bool) -> Iterator[str]:
    made = class_files(assembler, (folder / "source.txt").read_text(encoding="utf-8"))
    if write:
        write_files(folder, made)
    yield from check_files(folder, made)
    yield from check_stubs(folder)
    entry, limit = read_entry(folder)
    first, *others = lines_of(folder, "expected")
    if first == "end solved":
        yield from check_facts(others, entry, limit)
    else:
        yield from check_end([first] + others, limit, made)


def main(words: list[str]) -> int:
    sys.dont_write_bytecode = True
    sys.path.insert(0, words[0])
    import assemble
    breaches = 0
    for folder in sorted(Path(words[1]).iterdir(), key=lambda path: path.name.encode()):
        try:
            found = list(check_case(assemble, folder, "--write" in words[2:]))
        except (OSError, ValueError, assemble.AssembleError) as error:
            found = [str(error)]
        for breach in found:
            print(f"{folder.name}: {breach}")
        breaches += len(found)
    return 1 if breaches else 0


if __name__ == "__main__":
    sys.exit(main(sys.argv[1:]))
