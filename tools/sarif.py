"""Writes what was found as a document of the Static Analysis Results Interchange Format (SARIF), version 2.1.0."""

import json
from dataclasses import dataclass, field
from urllib.parse import quote

SCHEMA = "https://docs.oasis-open.org/sarif/sarif/v2.1.0/errata01/os/schemas/sarif-schema-2.1.0.json"

@dataclass(frozen=True)
class Rule:
    """A rule: what it says in short, what it means and what to do, the level of its results, and its tags."""
    short: str
    help: str
    level: str


RULES: dict[str, Rule] = {
    "safe": Rule(
        "No order of the events that objects made at this place may meet breaks the protocol.",
        "The analysis follows all ways through the code. It rests on what models and stubs say of the library, and on a machine that throws no errors of its own: "
        "where a StackOverflowError or an OutOfMemoryError is caught, the protocol may be broken after it.",
        "none"),
    "safe-if": Rule(
        "If what is assumed holds, no order of the events that objects made at this place may meet breaks the protocol.",
        "Read the assumptions that the message counts (tools/check --assumptions). Where one cannot fail, take it over by --assume; else write the program otherwise, or "
        "a model of the library class.",
        "note"),
    "unproved": Rule(
        "Some order of the events that objects made at this place may meet would break the protocol. That need not be a fault.",
        "Look at the calls that are named below the place, and at the story (--trace): can they come in the forbidden order on one object? If they can, you found a "
        "fault. If not, it is a false alarm: put it into the baseline (--write-baseline).",
        "warning"),
    "limit": Rule(
        "The analysis met its limit of facts at this place. That need not be a fault.",
        "Give a higher --fact-limit, begin at a smaller entry, or leave the stage out by --stages.",
        "warning"),
    "refused": Rule(
        "Code that may run is refused, so that nothing was analysed, or in a partial run what stands behind it was not.",
        "The message says what to do about each one: rewrite it (--desugar), begin at an entry that does not reach it, describe it in a stub file, or report the rest by "
        "--partial.",
        "error"),
}


@dataclass
class Moment:
    """A step of a story: its text, its method, its source file and line, where they are known, and how many calls it is below the first one."""
    text: str
    method: str
    file: str
    line: int
    depth: int


@dataclass
class Finding:
    """A finding: its rule, or none, its text, its method, and its source file and line, where they are known; the story of an unproved place, and the
    calls that may be events there; the protocol and the entries; a name that stays where lines move; the class file; the assumptions that it rests on;
    and whether the baseline has it."""
    rule: str
    text: str
    method: str
    file: str
    line: int
    story: list[Moment] = field(default_factory=list)
    events: list[Moment] = field(default_factory=list)
    protocol: str = ""
    entries: list[str] = field(default_factory=list)
    fingerprint: str = ""
    class_file: str = ""
    rests: list[str] = field(default_factory=list)
    is_known: bool = False


@dataclass
class Run:
    """What a document says of a run beside its findings: why there is no report, if there is none; notes on what was cut out, modelled or assumed;
    whether results that pass are written too; and the file to which a finding without a place belongs."""
    trouble: str = ""
    notes: list[str] = field(default_factory=list)
    with_safe: bool = True
    stand_in: str = ""


def uri_of(path: str) -> str:
    """A path as a reference."""
    return quote(path, errors="surrogateescape")


def location(place: Finding | Moment, stand_in: str = "") -> dict:
    """The place of a finding or of a step: the method, and the line if it is known. `stand_in` is the file where none is known."""
    found: dict = {}
    if place.method:
        found["logicalLocations"] = [{"fullyQualifiedName": place.method, "kind": "function"}]
    if place.file or stand_in:
        physical: dict = {"artifactLocation": {"uri": uri_of(place.file or stand_in)}}
        if place.line or stand_in:
            physical["region"] = {"startLine": place.line or 1}
        found["physicalLocation"] = physical
    return found


def file_of(finding: Finding, run: Run) -> str:
    """The file of a finding, where its source file is not known: that of the class, or that of the run."""
    return finding.file or finding.class_file or run.stand_in


def code_flow(story: list[Moment], stand_in: str) -> dict:
    """A story as one thread of a run."""
    steps = [{"location": location(each, stand_in) | {"message": {"text": each.text}}, "nestingLevel": each.depth} for each in story]
    return {"threadFlows": [{"locations": steps}]}


def related(finding: Finding, stand_in: str) -> list[dict]:
    """The calls that may be events, as places that belong to a finding."""
    return [location(each, stand_in) | {"id": number, "message": {"text": each.text}} for number, each in enumerate(finding.events, 1)]


def result(finding: Finding, run: Run) -> dict:
    """A finding as a result: a safe place passes; one that rests on assumptions is a note; any other is a warning, so that systems that read the file show
    it. One that the baseline has is unchanged."""
    file = file_of(finding, run)
    protocol = f"{finding.protocol}: " if finding.protocol else ""
    found: dict = {
        "ruleId": finding.rule,
        "ruleIndex": list(RULES).index(finding.rule),
        "kind": "pass" if finding.rule == "safe" else "fail",
        "level": RULES[finding.rule].level,
        "message": {"text": protocol + finding.text},
    }
    place = location(finding, file)
    found |= {"locations": [place]} if place else {}
    found |= {"relatedLocations": related(finding, file)} if finding.events else {}
    found |= {"partialFingerprints": {"typestatePlace/v1": finding.fingerprint}} if finding.fingerprint else {}
    found |= {"baselineState": "unchanged"} if finding.is_known else {}
    properties = {"protocol": finding.protocol, "entries": finding.entries, "restsOn": finding.rests}
    found |= {"properties": {key: value for key, value in properties.items() if value}} if any(properties.values()) else {}
    return found | ({"codeFlows": [code_flow(finding.story, file)]} if finding.story else {})


def rule_part(name: str, rule: Rule) -> dict:
    """A rule, with its help."""
    return {
        "id": name,
        "name": "".join(part.capitalize() for part in name.split("-")),
        "shortDescription": {"text": rule.short},
        "fullDescription": {"text": rule.short},
        "help": {"text": rule.help, "markdown": rule.help},
        "defaultConfiguration": {"level": rule.level},
        "properties": {"tags": ["typestate", "correctness"]},
    }


def document(findings: list[Finding], run: Run) -> str:
    """The document."""
    invocation: dict = {"executionSuccessful": not run.trouble}
    notes = [{"level": "error", "message": {"text": run.trouble}}] if run.trouble else []
    notes += [{"level": "note", "message": {"text": note}} for note in run.notes]
    invocation |= {"toolExecutionNotifications": notes} if notes else {}
    told = [finding for finding in findings if finding.rule and (run.with_safe or finding.rule != "safe")]
    written = {
        "tool": {"driver": {"name": "typestate", "rules": [rule_part(*each) for each in RULES.items()]}},
        "invocations": [invocation],
        "columnKind": "utf16CodeUnits",
        "results": [result(finding, run) for finding in told],
    }
    return json.dumps({"$schema": SCHEMA, "version": "2.1.0", "runs": [written]}, indent=2) + "\n"
