"""Writes the answer as one page of HTML, which needs no network: the places by file with their stories beside the automaton, the source with marked
lines, and filters."""

import pathlib
import re
from collections import defaultdict
from html import escape

from answers import Answer
from asked import Failed
from automaton import svg
from effects import Protocol
from explaining import KINDS, MEANING
from page_parts import SCRIPT, STYLE
from sarif import Finding, Moment

LED = re.compile(r": (\S+) -> ([^\s,]+)")
BEGINS = re.compile(r", in the state (\S+)$")
VERDICTS = {"unproved": "unproved", "limit": "not decided", "safe-if": "safe if", "safe": "safe", "refused": "refused"}


def states_of(story: list[Moment], protocol: Protocol) -> list[str]:
    """The state of the object of a story behind each step; empty before it is made."""
    found, state = [], ""
    for each in story:
        begins, led = BEGINS.search(each.text), LED.search(each.text)
        state = begins[1] if begins else led[2] if led else state
        found.append(state if state in protocol.states else "")
    return found


def anchor(file: str, line: int) -> str:
    """The name of a source line in the page."""
    return f"{re.sub('[^A-Za-z0-9]', '-', file)}-{line}"


def place_of(place: Finding | Moment) -> str:
    """The source line of a finding or a step, which leads to it."""
    if not place.file:
        return ""
    return f'<a class="line" href="#{anchor(place.file, place.line)}">{escape(place.file)}:{place.line or "?"}</a> '


def story_part(story: list[Moment], protocol: Protocol) -> str:
    """A story, with the state at each step."""
    steps = []
    for each, state in zip(story, states_of(story, protocol)):
        error = " error" if state == protocol.error else ""
        badge = f'<span class="badge{error}">{escape(state)}</span> ' if state else ""
        steps.append(f'<li tabindex="0" data-state="{escape(state)}" style="margin-left:{each.depth * 1.2:.1f}em">{badge}{place_of(each)}{escape(each.text)}</li>')
    return f'<details open><summary>how it comes to the error ({len(story)} steps)</summary>{svg(protocol)}<ol class="story">{"".join(steps)}</ol></details>'


def finding_part(finding: Finding, protocol: Protocol | None) -> str:
    """A finding."""
    known = '<span class="badge">in the baseline</span> ' if finding.is_known else ""
    parts = [f'<p>{known}<span class="verdict">{VERDICTS[finding.rule]}</span> {place_of(finding)}{escape(finding.text)}</p>']
    if finding.entries:
        parts.append(f'<p class="small">from {escape(", ".join(finding.entries))}</p>')
    if finding.events:
        calls = "".join(f"<li>{place_of(each)}{escape(each.text)}</li>" for each in finding.events)
        parts.append(f"<details><summary>calls that may be events ({len(finding.events)})</summary><ul>{calls}</ul></details>")
    if finding.rests:
        lines = "".join(f"<li>{escape(each)}</li>" for each in finding.rests)
        parts.append(f"<details><summary>what is assumed ({len(finding.rests)})</summary><ul>{lines}</ul></details>")
    if finding.story and protocol is not None:
        parts.append(story_part(finding.story, protocol))
    return (f'<article class="{finding.rule}" data-rule="{finding.rule}" data-protocol="{escape(finding.protocol)}" '
            f'data-known="{str(finding.is_known).lower()}">{"".join(parts)}</article>')


def marks_of(findings: list[Finding]) -> dict[str, dict[int, set[str]]]:
    """The lines of each file that are marked, with what for."""
    found: dict[str, dict[int, set[str]]] = defaultdict(lambda: defaultdict(set))
    for each in findings:
        found[each.file][each.line].add(each.rule)
        for kind, moments in (("event", each.events), ("step", each.story)):
            for moment in moments:
                found[moment.file][moment.line].add(kind)
    found.pop("", None)
    return found


def text_of(file: str) -> list[str]:
    """The lines of a source file; none where it is not there."""
    try:
        return pathlib.Path(file).read_text(encoding="utf-8", errors="replace").splitlines()
    except OSError:
        return []


def source_part(file: str, marks: dict[int, set[str]]) -> str:
    """A source file, with its marked lines."""
    lines = text_of(file)
    if not lines:
        numbers = "".join(f'<span id="{anchor(file, number)}"></span>' for number in marks)
        return f'<p class="small">{numbers}The source is not there: name its folder by --sources.</p>'
    told = []
    for number, line in enumerate(lines, 1):
        kinds = " ".join(sorted(marks.get(number, ())))
        told.append(f'<span class="row {kinds}" id="{anchor(file, number)}"><i>{number}</i>{escape(line)}</span>')
    return f'<details><summary>{escape(file)} ({len(lines)} lines)</summary><pre>{"".join(told)}</pre></details>'


def file_part(file: str, findings: list[Finding], protocols: dict[str, Protocol], marks: dict[int, set[str]]) -> str:
    """The findings in a file, and its source."""
    told = "".join(finding_part(each, protocols.get(each.protocol)) for each in sorted(findings, key=lambda each: each.line))
    return f'<section class="file"><h2>{escape(file or "without a source file")}</h2>{told}{source_part(file, marks) if file else ""}</section>'


def filters(findings: list[Finding], protocols: dict[str, Protocol]) -> str:
    """What the page can be narrowed by."""
    rules = [rule for rule in VERDICTS if any(each.rule == rule for each in findings)]
    boxes = "".join(f'<label><input type="checkbox" data-filter="{rule}" checked> {VERDICTS[rule]} ({sum(each.rule == rule for each in findings)})</label>' for rule in rules)
    options = "".join(f'<option value="{escape(name)}">{escape(name)}</option>' for name in protocols)
    return (f'<form id="filters">{boxes}<label>protocol <select id="protocol"><option value="">all</option>{options}</select></label>'
            '<label><input type="checkbox" id="new"> new ones alone</label><label>text <input type="search" id="text"></label><span id="count"></span></form>')


def premises_part(answer: Answer) -> str:
    """What the answer is told under."""
    says = [*answer.says]
    is_whole = all(part.is_whole for part in answer.protocols)
    if answer.refused():
        says.append(f"{len(answer.refused())} refusals: " + (
            "these instructions are cut out in a copy, and the rest is told of that copy, under the premise that they do nothing that matters." if is_whole else
            f"so there is no verdict of {', '.join(answer.without_verdict())}."))
    if answer.models:
        says.append(f"Models stand in place of {len(answer.models)} library classes: {', '.join(answer.models)}.")
    if answer.without_places:
        says.append(f"0 places: {', '.join(answer.without_places)}.")
    kinds = {each.kind for part in answer.protocols for each in part.resting.open}
    says += [f"{kind}: {KINDS[kind]}" for kind in KINDS if kind in kinds]
    says.append(MEANING["safe"])
    return f'<details open class="premises"><summary>what this rests on</summary><ul>{"".join(f"<li>{escape(each)}</li>" for each in says)}</ul></details>'


def protocol_part(answer: Answer) -> str:
    """The automata."""
    parts = [f"<h3>{escape(part.name)}</h3><p>{escape(part.protocol.says)}</p>{svg(part.protocol)}" for part in answer.protocols]
    return f'<details><summary>the protocols ({len(parts)})</summary>{"".join(parts)}</details>' if parts else ""


def page(answer: Answer) -> str:
    """The page."""
    findings = answer.findings()
    protocols = {part.name: part.protocol for part in answer.protocols}
    by_file: dict[str, list[Finding]] = defaultdict(list)
    for each in findings:
        by_file[each.file].append(each)
    marks = marks_of(findings)
    files = "".join(file_part(file, by_file[file], protocols, marks.get(file, {})) for file in sorted(by_file, key=lambda each: (not each, each)))
    others = "".join(source_part(file, marks[file]) for file in sorted(marks) if file not in by_file and text_of(file))
    body = f"<h1>typestate</h1>{filters(findings, protocols)}{premises_part(answer)}{protocol_part(answer)}{files}{others}"
    return f'<!DOCTYPE html>\n<html lang="en"><head><meta charset="utf-8"><title>typestate</title><style>{STYLE}</style></head><body>{body}<script>{SCRIPT}</script></body></html>\n'


def write_page(path: str, answer: Answer) -> None:
    """Writes the page."""
    try:
        pathlib.Path(path).write_text(page(answer), encoding="utf-8", errors="backslashreplace")
    except OSError as fault:
        raise Failed(65, f"{path} cannot be written ({fault.strerror}): name another file") from fault
