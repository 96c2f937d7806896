"""A baseline: the places that somebody has looked at, so that a run tells and counts what is new. A place that gets a worse verdict, or rests on a
further assumption, is new."""

import json
import pathlib

from answers import WORST, Answer
from asked import Failed
from sarif import Finding

VERSION = 1


def recorded(finding: Finding) -> dict:
    """What a baseline has of a place."""
    where = f"{finding.file}:{finding.line}" if finding.file else finding.method
    found = {"fingerprint": finding.fingerprint, "protocol": finding.protocol, "rule": finding.rule, "where": where}
    return found | ({"rests": sorted(set(map(without_line, finding.rests)))} if finding.rests else {})


def without_line(assumption: str) -> str:
    """An assumption without its source line, which may move."""
    return assumption.rpartition(" at ")[0] or assumption


def write_baseline(path: str, answer: Answer) -> int:
    """Writes what is not safe without a premise. How many places."""
    places = [recorded(each) for part in answer.protocols for each in part.places if each.rule != "safe"]
    try:
        pathlib.Path(path).write_text(json.dumps({"version": VERSION, "places": places}, indent=1) + "\n", encoding="utf-8")
    except OSError as fault:
        raise Failed(65, f"{path} cannot be written ({fault.strerror}): name another file") from fault
    return len(places)


def read_baseline(path: str) -> dict[str, dict]:
    """The places of a baseline, by their names."""
    try:
        table = json.loads(pathlib.Path(path).read_text(encoding="utf-8"))
        if table["version"] != VERSION:
            raise ValueError(f"its version is not {VERSION}")
        return {each["fingerprint"]: each | {"rule": each["rule"]} for each in table["places"]}
    except (OSError, ValueError, KeyError, TypeError) as fault:
        raise Failed(65, f"{path} is no baseline ({fault}): write one by --write-baseline") from fault


def is_known(finding: Finding, known: dict | None) -> bool:
    """Whether a baseline has a place as it is, or worse."""
    if known is None or known["rule"] not in WORST or WORST.index(finding.rule) < WORST.index(known["rule"]):
        return False
    return finding.rule != "safe-if" or known["rule"] != "safe-if" or set(map(without_line, finding.rests)) <= set(known.get("rests", []))


def mark_known(answer: Answer, baseline: dict[str, dict]) -> None:
    """Marks the places that a baseline has, and counts those of it that are met no more."""
    met = set()
    for part in answer.protocols:
        for each in part.places:
            if each.rule != "safe":
                each.is_known = is_known(each, baseline.get(each.fingerprint))
                met.add(each.fingerprint)
    answer.met_no_more = len(baseline.keys() - met)
