"""Reads what the verifier prints: a line for each place, with --trace the path edges of a derivation below an unproved one, or the one line
that says why there is no report."""

import re
from dataclasses import dataclass, field

from edges import Edge, edge_of

# How many words the line of each verdict has.
VERDICTS = {"safe": 5, "unproved": 4, "limit": 5}
# The descriptor of a method (JVMS 4.3.3).
DESCRIPTOR = re.compile(r"\((\[*([BCDFIJSZ]|L[^;]+;))*\)\[*([BCDFIJSVZ]|L[^;]+;)")


class NoReport(Exception):
    """A line is none that the verifier prints; the text says what to do."""


@dataclass
class Place:
    """A place that makes objects, and what was found of it; the stage is 0 where the line has none. The edges are those below its line."""
    verdict: str
    stage: int
    class_name: str
    method: str
    descriptor: str
    offset: int
    made: str
    edges: list[Edge] = field(default_factory=list)


@dataclass
class Ending:
    """A line that stands alone: a refusal with its file, offset and reason, or `missing`, `usage`, or `none` where there is no line."""
    kind: str
    name: str = "-"
    offset: int = 0
    reason: str = ""


def plain(text: str) -> str:
    """A name as it is, from the visible characters that the verifier prints."""
    spelled = re.sub(rb"\\x([0-9a-f]{2})", lambda found: bytes([int(found[1], 16)]), text.encode("utf-8"))
    return spelled.decode("utf-8", "surrogateescape")


def place_of(words: list[str]) -> Place:
    """The place of a line."""
    whole = plain(words[-3])
    owner, _, rest = whole.partition(".")
    at = rest.index("(")
    if not DESCRIPTOR.fullmatch(rest[at:]):
        raise ValueError
    stage = int(words[1]) if VERDICTS[words[0]] == 5 else 0
    return Place(words[0], stage, owner, rest[:at], rest[at:], int(words[-2]), plain(words[-1]))


def add_edge(places: list[Place], words: list[str]) -> None:
    """Takes a line of a derivation to the place above it."""
    if not places or places[-1].verdict != "unproved" or plain(words[5]) != places[-1].made:
        raise ValueError
    places[-1].edges.append(edge_of(words, places[-1].made))


def ending_of(words: list[str]) -> Ending:
    """The line that stands alone."""
    if words[0] == "refused" and len(words) == 4:
        return Ending("refused", plain(words[1]), int(words[2]), words[3])
    if words[0] == "missing" and len(words) == 2:
        return Ending("missing", plain(words[1]))
    if words[0] == "usage" and len(words) in (2, 3):
        return Ending("usage", " ".join(words[1:]))
    raise ValueError


def read_report(text: str) -> tuple[list[Place], Ending | None]:
    """The places of a report, and the line that stands alone where there is none."""
    places: list[Place] = []
    lines = [line for line in text.split("\n") if line]
    for line in lines:
        words = line.split(" ")
        try:
            if words[:2] == ["", ""]:
                add_edge(places, words[2:])
            elif VERDICTS.get(words[0]) == len(words):
                places.append(place_of(words))
            elif words[0] == "sites" and len(words) == 8:
                check_count(int(words[1]), places)
                return places, None
            else:
                return [], ending_of(words)
        except (ValueError, IndexError) as fault:
            raise NoReport(f"'{line}' is no line of a report: give what ./typestate printed, and all of it") from fault
    if places:
        raise NoReport("the last line, `sites ..`, is not there: give all that ./typestate printed")
    return [], Ending("none")


def check_count(count: int, places: list[Place]) -> None:
    """Sees that all places of the summary are there."""
    if count != len(places):
        raise NoReport(f"the summary counts {count} places, and {len(places)} are there: give all that ./typestate printed")


def status_of(places: list[Place], ending: Ending | None) -> int:
    """The exit status with which the verifier ends where it prints this; 4 where it prints nothing."""
    if ending:
        return {"refused": 2, "missing": 6, "usage": 6, "none": 4}[ending.kind]
    return 0 if all(place.verdict == "safe" for place in places) else 1
