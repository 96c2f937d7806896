#!/usr/bin/env python3
"""A second writing of the report of a run, for tests alone: from the class files, the stubs and the property, by all
stages, of an input that nothing refuses.

  plain_report.py FOLDER PROPERTY ENTRY [--stubs FILE] [--stages N] [--depth N] [--fact-limit N]

The words are those of the verifier: FOLDER has the class files, PROPERTY and the stub file are files in it, and ENTRY
is the class and the method that the program begins with. The lines of the report are printed, and the status is that of
the run. Where the input is refused the status is 2, and one line on standard error says so."""

import argparse
import sys
from collections import Counter
from functools import cache
from pathlib import Path
from typing import NamedTuple, Optional

sys.dont_write_bytecode = True
from node_text import Site  # noqa: E402
from plain_edges import Limits, path_edges, read_automaton, tracked  # noqa: E402
from plain_facts import Automaton, Known  # noqa: E402
from plain_nodes import nodes_of  # noqa: E402
from plain_program import Method, Program, link  # noqa: E402
from plain_rules import Rules, Solved, called_on, solved_by  # noqa: E402

LAST_STAGE, DEFAULT_DEPTH, DEFAULT_FACT_LIMIT = 4, 2, 50000
SAFE, UNPROVED, LIMIT = WORDS = ("safe", "unproved", "limit")
ALL_SAFE, SOME_UNPROVED, REFUSED = range(3)
ENTRY_DESCRIPTORS = ("([Ljava/lang/String;)V", "()V")


class Asked(NamedTuple):
    """The last stage that is run, and the limits of those after the first."""
    stages: int = LAST_STAGE
    limits: Limits = Limits(DEFAULT_DEPTH, DEFAULT_FACT_LIMIT)


class Subject(NamedTuple):
    """What a report is about: what follows by the rules of the points-to analysis, and the property."""
    solved: Solved
    automaton: Automaton


class Report(NamedTuple):
    """The lines of a report, and the status of the run."""
    lines: list[str]
    status: int


class Refused(Exception):
    """The input has no report."""


# ---- verdicts


def is_safe_by_events(automaton: Automaton, events: list[str]) -> bool:
    """Whether no word over the events leads from the initial to the error state."""
    reached, open_states = {automaton.initial}, [automaton.initial]
    while open_states:
        state = open_states.pop()
        after = {automaton.events[event][state] for event in events} - reached
        reached |= after
        open_states += after
    return automaton.error not in reached


class Verdicts:
    """What is said of the sites of a subject."""

    def __init__(self, subject: Subject):
        self.solved, self.automaton = subject
        self.sites = tracked(self.solved, self.automaton.class_name)
        # What was asked once is kept, as long as the subject is.
        self.by_stage = cache(self.find_by_stage)

    def by_first_stage(self, site: Site) -> str:
        """What the first stage says of a site: it looks at which events may occur at its objects."""
        occur = [event for event in called_on(self.solved, {site}) if event in self.automaton.events]
        return SAFE if is_safe_by_events(self.automaton, occur) else UNPROVED

    def find_by_stage(self, site: Site, stage: int, limits: Limits) -> str:
        """What a stage says of a site."""
        if stage == 1:
            return self.by_first_stage(site)
        edges = path_edges(self.solved, self.automaton, site, stage, limits)
        if edges is None:
            return LIMIT
        states = {edge.fact.state for edge in edges if isinstance(edge.fact, Known)}
        return UNPROVED if self.automaton.error in states else SAFE

    def of(self, site: Site, asked: Asked) -> str:
        """The first stage that proves the site, or else the first that comes to its limit."""
        says = {stage: self.by_stage(site, stage, asked.limits) for stage in range(1, asked.stages + 1)}
        for word in (SAFE, LIMIT):
            for stage, said in says.items():
                if said == word:
                    return f"{word} {stage}"
        return UNPROVED


# ---- lines


def printed(name: str) -> str:
    """A name, with visible ASCII characters as they are."""
    return "".join(chr(byte) if 0x21 <= byte <= 0x7E and byte != 0x5C else f"\\x{byte:02x}"
                   for byte in name.encode("utf-8", "surrogatepass"))


def report_of(verdicts: Verdicts, asked: Asked) -> Report:
    """The line of each site, and the last line."""
    found = [(verdicts.of(site, asked), site) for site in verdicts.sites]
    lines = [f"{says} {printed(site.method)} {site.offset} {printed(site.class_name)}" for says, site in found]
    counts = Counter(says.split(" ")[0] for says, _ in found)
    lines.append(f"sites {len(found)} " + " ".join(f"{word} {counts[word]}" for word in WORDS))
    return Report(lines, ALL_SAFE if counts[SAFE] == len(found) else SOME_UNPROVED)


# ---- inputs


def find_entry(program: Program, entry: str) -> Method:
    """The static method with code that is named: one that takes an array of strings, or else one that takes nothing."""
    for descriptor in ENTRY_DESCRIPTORS:
        method = program.methods.get(entry + descriptor)
        has_code = method is not None and method.code_start is not None
        if has_code and method.is_static and not method.is_class_initialiser:
            return method
    raise Refused(f"no entry {entry}")


def read_subject(folder: Path, property_file: str, entry: str, stubs: Optional[str]) -> Subject:
    """What a report on a folder is about."""
    automaton, program = read_automaton(folder / property_file), link(folder, stubs)
    if automaton.class_name not in program.classes:
        raise Refused(f"no class {automaton.class_name}")
    solved = solved_by(Rules(program, nodes_of(folder, program), find_entry(program, entry)))
    refusal = solved.rules.first_refusal(solved.facts)
    if refusal is not None:
        raise Refused(str(refusal))
    return Subject(solved, automaton)


def parsed(words: list[str]) -> argparse.Namespace:
    command = argparse.ArgumentParser(usage=__doc__, add_help=False, allow_abbrev=False)
    for name in ("folder", "property", "entry"):
        command.add_argument(name)
    command.add_argument("--stubs")
    for name, otherwise in (("stages", LAST_STAGE), ("depth", DEFAULT_DEPTH), ("fact-limit", DEFAULT_FACT_LIMIT)):
        command.add_argument(f"--{name}", type=int, default=otherwise)
    return command.parse_args(words)


def asked_by(given: argparse.Namespace) -> Asked:
    """What the words ask for."""
    return Asked(given.stages, Limits(given.depth, given.fact_limit))


def main(words: list[str]) -> None:
    given = parsed(words)
    try:
        subject = read_subject(Path(given.folder), given.property, given.entry, given.stubs)
    except Refused as refusal:
        print(refusal, file=sys.stderr)
        sys.exit(REFUSED)
    report = report_of(Verdicts(subject), asked_by(given))
    print("\n".join(report.lines))
    sys.exit(report.status)


if __name__ == "__main__":
    main(sys.argv[1:])
