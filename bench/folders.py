"""Folders of libraries on which the built program runs: class files of jars with a driver and a stub file (bench/libraries.py), and a
property. What a run refuses is left out of them."""

import collections
import os
import pathlib
import re
import resource
import subprocess
import sys
import tempfile
import time
from collections.abc import Callable
from typing import NamedTuple

from driver import NAME
from empty_bodies import emptied, offsets_of
from libraries import ROOT, STUBS, refused_methods, unpack_library

from library import read_folder

PROGRAM = ROOT / "crates/typestate/out/typestate"
RELEASE = ROOT / "release/typestate"
TIME = pathlib.Path("/usr/bin/time")
PROPERTY = "p.toml"
STRING_BUILDER = """version = 1
class = "java/lang/StringBuilder"
states = ["open", "read", "error"]
initial = "open"
error = "error"
[[event]]
name = "append"
descriptor = "(Ljava/lang/String;)Ljava/lang/StringBuilder;"
next = ["open", "error", "error"]
[[event]]
name = "toString"
descriptor = "()Ljava/lang/String;"
next = ["read", "read", "error"]
"""


class Run(NamedTuple):
    """What a command printed, its seconds of wall time and of a processor's, its peak memory in KiB, and its exit status."""

    output: str
    seconds: float
    processor: float
    peak: int
    status: int


class LeftOut(NamedTuple):
    """What is left out of a library: class files without supertypes, methods that tools/stubs names, and what runs refuse, by reason."""

    files: int
    methods: int
    reasons: collections.Counter

    def told(self) -> str:
        """Part of a line."""
        reasons = ", ".join(f"{reason} {count}" for reason, count in self.reasons.most_common()) or "nothing"
        return f"left out: {self.files} class files without supertypes; {self.methods} methods that tools/stubs names; in runs {reasons}"


def fail_without_time() -> None:
    """Ends where GNU time is not there."""
    if not TIME.exists():
        sys.exit(f"{TIME} is not there: install GNU time")


def words(folder: str, entry: str = NAME, stubs: bool = True) -> list[str]:
    """The words of a run on a folder, from the method `main` of a class, with or without a stub file."""
    program = PROGRAM if PROGRAM.exists() else RELEASE
    named = ["--stubs", STUBS] if stubs else []
    return [str(program), "--classes", folder, "--property", PROPERTY, *named, "--entry", f"{entry}.main"]


def processor_time() -> float:
    """The seconds of a processor that the processes took which were started here and have ended."""
    used = resource.getrusage(resource.RUSAGE_CHILDREN)
    return used.ru_utime + used.ru_stime


def one_run(command: list[str]) -> Run:
    """Runs a command."""
    with tempfile.NamedTemporaryFile("r") as peak:
        before, start = processor_time(), time.perf_counter()
        run = subprocess.run([str(TIME), "-q", "-f", "%M", "-o", peak.name, *command], capture_output=True, text=True, check=False)
        seconds, processor = time.perf_counter() - start, processor_time() - before
        return Run(run.stdout, seconds, processor, int(peak.read()), run.returncode)


def greatest(holds: Callable[[int], bool], most: int) -> int:
    """The greatest number, at most `most`, for which a test holds; it holds for all that are smaller. Small numbers are tried first."""
    reached, beyond = 0, 1
    while beyond <= most and holds(beyond):
        reached, beyond = beyond, 2 * beyond
    beyond = min(beyond, most + 1)
    while beyond - reached > 1:
        middle = (reached + beyond) // 2
        if holds(middle):
            reached = middle
        else:
            beyond = middle
    return reached


def ready_protocol(name: str) -> str:
    """The property file of a ready protocol."""
    return (ROOT / "properties" / name / "folder" / PROPERTY).read_text()


def jars_name(jars: list[str]) -> str:
    """How a library is named."""
    return " ".join(pathlib.Path(jar).stem for jar in jars)


def class_files(folder: str) -> list[str]:
    """The class files of a folder."""
    return sorted(map(str, pathlib.Path(folder).rglob("*.class")))


# ---- a library


def empty_known(folder: str) -> int:
    """Empties the methods that tools/stubs says are refused. How many."""
    classes, count = read_folder(folder), 0
    for owner, keys in refused_methods(folder).items():
        file = pathlib.Path(classes[owner].path)
        before = file.read_bytes()
        offsets = offsets_of(before, keys)
        file.write_bytes(emptied(before, offsets))
        count += len(offsets)
    return count


def leave_out(folder: str, line: str) -> str:
    """Leaves out what a line says is refused. Its reason."""
    found = re.fullmatch(r"refused (\S+\.class) (\d+) (\w+)\n", line)
    if not found:
        sys.exit(f"a run on a library says {line!r}")
    file = pathlib.Path(folder) / found[1]
    before = file.read_bytes()
    try:
        after = emptied(before, {int(found[2])})
    except ValueError:
        after = before
    if after == before:
        os.remove(file)
    else:
        file.write_bytes(after)
    return found[3]


def leave_out_refused(folder: str) -> collections.Counter:
    """Leaves out what is refused, until the first stage has a report. How much for which reason."""
    reasons: collections.Counter = collections.Counter()
    while True:
        output = one_run([*words(folder), "--stages", "1"]).output
        if re.search(r"^sites |PairLimit$", output, re.MULTILINE):
            return reasons
        reasons[leave_out(folder, output)] += 1


def make_folder(jars: list[str], folder: str, text: str, most: int | None = None) -> LeftOut:
    """Makes the folder of a library with a property, on which a run has a report, or comes to the limit of pairs. The driver calls all public
    classes, with 0 and null; or at most so many of them, with objects."""
    _, dropped = unpack_library(jars, folder, most)
    (pathlib.Path(folder) / PROPERTY).write_text(text)
    known = empty_known(folder)
    return LeftOut(dropped, known, leave_out_refused(folder))
