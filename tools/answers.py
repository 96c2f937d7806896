"""Brings what was found of a build together: for each protocol its places, over all entries, with what they rest on, what was refused, and what the
baseline has."""

import hashlib
import re
from collections import defaultdict
from collections.abc import Iterable
from dataclasses import dataclass, field, replace

from assumptions import Assumption, Resting
from effects import Protocol
from explaining import RESTS, Explained
from report import Place
from sarif import Finding

# The status of a run of which some code was cut out, and nothing else is to be told.
PARTIAL = 71
# What is told of a place that several entries reach: the first of these.
WORST = ("unproved", "limit", "safe-if", "safe")


@dataclass
class Ran:
    """A run of the verifier: its protocol and entry, the report in words, if there is one, what was cut out for it, the refusal that nothing could
    be cut out for, and the status."""
    protocol: str
    entry: str
    report: Explained | None
    cuts: list[Finding]
    ending: Finding | None
    status: int


@dataclass
class OfProtocol:
    """What was found of a protocol: its places, what is refused, the assumptions that its safe places rest on, how many places are left out, the
    entries from which there is no report, whether something was cut out, and whether something is refused that cannot be cut out."""
    name: str
    protocol: Protocol
    places: list[Finding] = field(default_factory=list)
    refused: list[Finding] = field(default_factory=list)
    resting: Resting = field(default_factory=lambda: Resting([], []))
    safe: list[Place] = field(default_factory=list)
    inside: int = 0
    lacking: list[str] = field(default_factory=list)
    is_cut: bool = False
    ending: bool = False
    statuses: list[int] = field(default_factory=list)

    @property
    def is_whole(self) -> bool:
        """Whether there is a report from each entry."""
        return not self.lacking


@dataclass
class Answer:
    """All of it: what was found of each protocol, those of which the program has no class, and what stands in the program beside the build's own
    code. `says` are the premises; `missing` are classes that are named and not there, where no run has seen whether their code is reached."""
    protocols: list[OfProtocol]
    without_places: list[str]
    models: list[str]
    says: list[str]
    left_out: int = 0
    missing: list[str] = field(default_factory=list)
    met_no_more: int = 0

    def findings(self) -> list[Finding]:
        """The places and refusals of all protocols."""
        return [each for part in self.protocols for each in part.places] + self.refused()

    def without_verdict(self) -> list[str]:
        """The runs that have no report, by protocols and entries."""
        return [f"{part.name} from {entry}" for part in self.protocols for entry in part.lacking]

    def refused(self) -> list[Finding]:
        """What is refused, each once, whichever protocol is asked."""
        return list({(each.text, each.file, each.line): each for part in self.protocols for each in part.refused}.values())


def key_of(place: Place) -> tuple:
    """What tells a place from others."""
    return place.class_name, place.method, place.descriptor, place.made, place.offset


def fingerprints(protocol: str, places: Iterable[Place]) -> dict[tuple, str]:
    """A name for each place that stays where lines and offsets move: by its method, the class of its objects, and how many like it stand above."""
    found: dict[tuple, str] = {}
    counts: dict[tuple, int] = defaultdict(int)
    for key in sorted({key_of(place) for place in places}):
        number = counts[key[:-1]]
        counts[key[:-1]] += 1
        found[key] = digest(protocol, *key[:-1], str(number))
    return found


def digest(*words: str) -> str:
    """A short name for some words."""
    return hashlib.sha256("\n".join(words).encode("utf-8", "surrogateescape")).hexdigest()[:16]


def refusal_print(finding: Finding) -> str:
    """The name of a refusal."""
    return digest("refused", re.sub(r", offset \d+", "", finding.text.partition(". ")[0]))


def of_protocol(name: str, protocol: Protocol, runs: list[Ran], is_partial: bool) -> OfProtocol:
    """What runs of one protocol found, over all entries."""
    found = OfProtocol(name, protocol, statuses=[each.status for each in runs])
    refused: dict[str, Finding] = {}
    for ran in runs:
        for each in [*ran.cuts, *([ran.ending] if ran.ending else [])]:
            known = refused.setdefault(each.text, replace(each, entries=[], fingerprint=refusal_print(each)))
            known.entries.append(ran.entry)
    found.refused = list(refused.values())
    found.lacking = [ran.entry for ran in runs if ran.report is None or ran.cuts and not is_partial]
    found.is_cut = any(ran.cuts for ran in runs)
    found.ending = any(ran.ending is not None for ran in runs)
    reports = [(ran, ran.report) for ran in runs if ran.report is not None and (is_partial or not ran.cuts)]
    found.places = merged(name, reports, len(runs) > 1)
    found.safe = [place for _, report in reports for place, each in zip(report.places, report.findings) if each.rule in ("safe", "safe-if")]
    found.inside = max((report.inside for _, report in reports), default=0)
    found.resting = joined([report.resting for _, report in reports if rests(report)])
    return found


def rests(report: Explained) -> bool:
    """Whether what a report says rests on anything: it has a safe place, or none at all."""
    return not report.places or any(each.rule in ("safe", "safe-if") for each in report.findings)


def joined(some: list[Resting]) -> Resting:
    """What all of these rest on."""
    opened: dict[Assumption, None] = dict.fromkeys(each for one in some for each in one.open)
    taken: dict[Assumption, None] = dict.fromkeys(each for one in some for each in one.taken)
    return Resting(list(opened), list(taken), all(one.looked for one in some))


def merged(name: str, reports: list[tuple[Ran, Explained]], several: bool) -> list[Finding]:
    """The places of some runs, each once: with the worst that an entry says of it, and from which entries, if several are asked."""
    names = fingerprints(name, (place for _, report in reports for place in report.places))
    found: dict[tuple, Finding] = {}
    entries: dict[tuple, dict[str, list[str]]] = defaultdict(lambda: defaultdict(list))
    for ran, report in reports:
        for place, each in zip(report.places, report.findings):
            key = key_of(place)
            entries[key][each.rule].append(ran.entry)
            if key not in found or WORST.index(each.rule) < WORST.index(found[key].rule):
                found[key] = each
    for key, each in found.items():
        each.protocol, each.fingerprint, each.entries = name, names[key], entries[key][each.rule]
        if several:
            each.text += f"; from {' and '.join(each.entries)}"
    return list(found.values())


def status_of_answer(answer: Answer, fail_on: list[str] | None) -> int:
    """The exit status. What was refused or cut out is never told as if all were safe, whatever a run is told to fail on."""
    failing = ["unproved", "limit", "safe-if"] if fail_on is None else fail_on
    statuses = [status for part in answer.protocols for status in part.statuses]
    for part in answer.protocols:
        if not part.is_whole:
            return next((status for status in statuses if status not in (0, 1, RESTS)), 2)
    new = {each.rule for part in answer.protocols for each in part.places if not each.is_known}
    if new & {"unproved", "limit"} & set(failing):
        return 1
    if any(part.is_cut for part in answer.protocols):
        return PARTIAL
    if "safe-if" in failing and (answer.missing or "safe-if" in new or any(not part.places and (part.resting.open or not part.resting.looked) for part in answer.protocols)):
        return RESTS
    return 0
