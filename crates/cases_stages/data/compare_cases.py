#!/usr/bin/env python3
"""Compares what the worked cases of the repository say of reports with the second writing. For tests alone.

  compare_cases.py [--write] [NAME..]

A case is a folder as cases/run reads it; NAME is its path from the top of the repository, and without names it is each
case of the verifier whose file `stdout` is a report on its folder, or a certificate. Of those that differ, the lines are printed,
`-` before those that the case has alone, and the status is 1. With `--write` the files `stdout` and `status` get what the second
writing says, but in cases with --trace. Which derivation stands there is free, so the lines of edges below reports are left out.
A certificate is compared whole. Nothing here comes from the program."""

import difflib
import sys
import tempfile
from importlib.machinery import SourceFileLoader
from importlib.util import module_from_spec, spec_from_loader
from pathlib import Path
from types import ModuleType
from typing import Iterator

sys.dont_write_bytecode = True
from plain_certificate import VERSION, certificate_of  # noqa: E402
from plain_edges import Limits  # noqa: E402
from plain_program import ROOT  # noqa: E402
from plain_report import (DEFAULT_DEPTH, DEFAULT_FACT_LIMIT, LAST_STAGE, Asked, Report, Verdicts,  # noqa: E402
                          read_subject, report_of)

# The options without a value. By the first, derivations stand below the lines of unproved sites, each line of an edge behind two
# spaces; by the other, a certificate stands in place of the report.
TRACE, CERTIFICATE = FLAGS = ("--trace", "--print-cert")
# The option by which the program makes what it reports on, so that no case has its files.
SAMPLE = "sample"
# How reports and certificates begin.
BEGINNINGS = ("safe ", "unproved ", "limit ", "sites ", VERSION)
# Too large for the plain rules. It asks for the first stage alone.
LARGE = ["cases/a-hundred-thousand-pairs"]


def load_run() -> ModuleType:
    """cases/run, as a module."""
    loader = SourceFileLoader("cases_run", str(ROOT / "cases" / "run"))
    module = module_from_spec(spec_from_loader(loader.name, loader))
    loader.exec_module(module)
    return module


RUN = load_run()


def options_of(words: list[str]) -> dict[str, str]:
    """The options of a run with their values, which stand behind a sign of equality or in the next word."""
    joined = "\n".join(word for word in words if word not in FLAGS).replace("=", "\n").split("\n")
    return {name.removeprefix("--"): value for name, value in zip(joined[::2], joined[1::2])}


def told_of(verdicts: Verdicts, asked: Asked, words: list[str]) -> Report:
    """What a run with these words tells: its report, or the certificate with the status of the report."""
    report = report_of(verdicts, asked)
    return report._replace(lines=certificate_of(verdicts, asked)) if CERTIFICATE in words else report


def report_of_case(case: Path) -> Report:
    """The report or the certificate of a case, by the second writing."""
    words = RUN.lines_of(case / "words")
    options = options_of(words)
    numbers = [("stages", LAST_STAGE), ("depth", DEFAULT_DEPTH), ("fact-limit", DEFAULT_FACT_LIMIT)]
    stages, depth, fact_limit = (int(options.get(name, otherwise)) for name, otherwise in numbers)
    with tempfile.TemporaryDirectory() as place:
        RUN.tree_of(case, "folder", Path(place))
        subject = read_subject(Path(place) / "folder", options["property"], options["entry"], options.get("stubs"))
        return told_of(Verdicts(subject), Asked(stages, Limits(depth, fact_limit)), words)


def has_report(case: Path) -> bool:
    """Whether the verifier has to print a report on the folder of a case, or a certificate."""
    if (case / "command").is_file() or SAMPLE in options_of(RUN.lines_of(case / "words")):
        return False
    return (case / "stdout").read_text(encoding="utf-8").startswith(BEGINNINGS)


def written(case: Path) -> Report:
    """What a case says, without derivations."""
    lines = [line for line in RUN.lines_of(case / "stdout") if not line.startswith("  ")]
    return Report(lines, int((case / "status").read_text(encoding="utf-8")))


def write(case: Path, report: Report) -> None:
    (case / "stdout").write_text("".join(f"{line}\n" for line in report.lines), encoding="utf-8")
    (case / "status").write_text(f"{report.status}\n", encoding="utf-8")


def differences(name: str, has: Report, wants: Report) -> Iterator[str]:
    """What differs, as lines."""
    if has != wants:
        yield f"{name}: status {has.status}, and {wants.status} by the second writing"
        yield from difflib.unified_diff(has.lines, wants.lines, "the case", "the second writing", lineterm="")


def main(words: list[str]) -> None:
    names = [word for word in words if word != "--write"]
    cases = [ROOT / name for name in names] or [case for case in RUN.all_cases() if has_report(case)]
    chosen = [case for case in cases if names or str(case.relative_to(ROOT)) not in LARGE]
    lines: list[str] = []
    for case in chosen:
        wants = report_of_case(case)
        lines += differences(str(case.relative_to(ROOT)), written(case), wants)
        if "--write" in words and TRACE not in RUN.lines_of(case / "words"):
            write(case, wants)
    print(*lines, f"{len(chosen)} cases", sep="\n")
    sys.exit(1 if lines else 0)


if __name__ == "__main__":
    main(sys.argv[1:])
