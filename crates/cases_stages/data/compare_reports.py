#!/usr/bin/env python3
"""Compares the reports of the verifier with those of the second writing, on random programs. For tests alone.

  compare_reports.py TYPESTATE ASSEMBLER COUNT SEED [LAST]

The first is the path of the built verifier, ASSEMBLER is that of `assemble.py`. COUNT cases are made in a temporary
folder by SEED, as `compare_edges.py` makes them. Each is run with each stage up to LAST as the last one, with each
depth, and now and then with a small limit of path edges: mostly with the number of a site's edges at a stage, or with
the next or the former one. Output and status are compared where the verifier reports. The first run in which they
differ is printed, `-` before lines that the second writing has alone and `+` before those of the verifier; its folder
is then kept, and the status is 1."""

import difflib
import random
import shutil
import subprocess
import sys
import tempfile
from collections import Counter
from itertools import product
from pathlib import Path
from typing import Iterator, Optional

sys.dont_write_bytecode = True
from compare_edges import write_cases  # noqa: E402
from plain_edges import Limits, path_edges, read_automaton  # noqa: E402
from plain_nodes import nodes_of  # noqa: E402
from plain_program import link  # noqa: E402
from plain_report import LAST_STAGE, REFUSED, SAFE, UNPROVED, Asked, Report, Subject, Verdicts, report_of  # noqa: E402
from plain_rules import Rules, Solved, read_entry, solved_by  # noqa: E402
from random_properties import write_order, write_property  # noqa: E402

DEPTHS = range(4)
# The limit of runs that do not come to it on purpose.
HIGH_LIMIT = 5000
# Of so many cases one has runs with small limits.
LIMITED_SHARE = 2
SMALL_LIMITS = range(1, 20)
# So many properties of an order are tried for a case.
TRIES = 8
REFUSALS = ("refused ", "missing ")


# ---- the second writing


def solve_case(folder: Path) -> Optional[Solved]:
    """What follows in a case, if it has a program and an entry, and nothing is refused as far as is looked at here."""
    try:
        program = link(folder)
        entry = program.methods[read_entry(folder).method]
        solved = solved_by(Rules(program, nodes_of(folder, program), entry))
    except KeyError:
        return None
    return None if solved.rules.first_refusal(solved.facts) else solved


def needs_later_stages(verdicts: Verdicts) -> bool:
    """Whether the last stage proves a site that neither of the first two does."""
    limits = Limits(max(DEPTHS), HIGH_LIMIT)
    for site in verdicts.sites:
        proves = [verdicts.by_stage(site, stage, limits) == SAFE for stage in (1, 2, LAST_STAGE)]
        if proves == [False, False, True]:
            return True
    return False


def verdicts_of(chance: random.Random, folder: Path) -> Optional[Verdicts]:
    """Writes a property, and gives what is said of its sites. Some properties of an order of events are tried; where
    none needs later stages, it is any property."""
    solved = solve_case(folder)
    if solved is None:
        write_property(chance, folder, "refused")
        return None
    for write in [write_order] * TRIES + [write_property]:
        write(chance, folder, solved)
        verdicts = Verdicts(Subject(solved, read_automaton(folder / "property.toml")))
        if needs_later_stages(verdicts):
            break
    return verdicts


def own_limits(chance: random.Random, verdicts: Verdicts, last: int) -> Iterator[Asked]:
    """The number of edges of a site at a stage as the limit, and the numbers beside it. It is one that the first stage
    does not prove, if there is one."""
    stage, depth = chance.randint(2, last), chance.choice(DEPTHS)
    unproved = [site for site in verdicts.sites if verdicts.by_first_stage(site) == UNPROVED]
    site = chance.choice(unproved or verdicts.sites)
    edges = path_edges(verdicts.solved, verdicts.automaton, site, stage, Limits(depth, HIGH_LIMIT))
    for limit in range(len(edges) - 1, len(edges) + 2) if edges is not None else []:
        if limit > 0:
            yield Asked(chance.randint(stage, last), Limits(depth, limit))


def all_asked(chance: random.Random, verdicts: Optional[Verdicts], last: int) -> list[Asked]:
    """What is asked of a case."""
    stages = range(1, last + 1)
    asked = [Asked(stage, Limits(depth, HIGH_LIMIT)) for stage, depth in product(stages, DEPTHS)]
    if chance.randrange(LIMITED_SHARE) == 0:
        asked.append(Asked(last, Limits(chance.choice(DEPTHS), chance.choice(SMALL_LIMITS))))
        if verdicts is not None and verdicts.sites and last > 1:
            asked += own_limits(chance, verdicts, last)
    return asked


# ---- the verifier


def words_of(folder: Path, asked: Asked) -> list[str]:
    entry, _, _ = read_entry(folder).method.partition("(")
    numbers = {"stages": asked.stages, "depth": asked.limits.depth, "fact-limit": asked.limits.edges}
    words = ["--classes", str(folder), "--property", "property.toml", "--entry", entry]
    words += ["--stubs", "stubs.toml"] if (folder / "stubs.toml").is_file() else []
    return words + [word for name, number in numbers.items() for word in (f"--{name}", str(number))]


def run(program: str, folder: Path, asked: Asked) -> Report:
    ran = subprocess.run([program, *words_of(folder, asked)], capture_output=True, text=True)
    return Report(ran.stdout.splitlines(), ran.returncode)


# ---- comparing


def expected(verdicts: Optional[Verdicts], asked: Asked, has: Report) -> Report:
    """The report by the second writing. Whether the verifier has to refuse is not asked, nor what it then says."""
    if has.lines and has.lines[0].startswith(REFUSALS):
        return has
    return Report([], REFUSED) if verdicts is None else report_of(verdicts, asked)


def kind_of(line: str) -> str:
    """What a line says, without the place."""
    word, second, *_ = line.split(" ")
    return f"{word} {second}" if second.isdecimal() else word


def compare(program: str, folder: Path, chance: random.Random, last: int) -> Iterator[str]:
    """What the lines of all runs of a case say. The first run that differs ends all."""
    verdicts = verdicts_of(chance, folder)
    for asked in all_asked(chance, verdicts, last):
        has = run(program, folder, asked)
        expects = expected(verdicts, asked, has)
        if has != expects:
            print(" ".join(words_of(folder, asked)), f"status {has.status}, wanted {expects.status}", sep="\n")
            print(*difflib.unified_diff(expects.lines, has.lines, "wanted", "written", lineterm=""), sep="\n")
            sys.exit(1)
        yield from (kind_of(line) for line in has.lines)


def main(words: list[str]) -> None:
    if len(words) not in (4, 5):
        sys.exit("usage: compare_reports.py TYPESTATE ASSEMBLER COUNT SEED [LAST]")
    program, assembler, count, seed, *last = words
    above = Path(tempfile.mkdtemp(prefix="cases_stages_"))
    write_cases(int(count), int(seed), above / "cases", Path(assembler))
    kinds: Counter[str] = Counter()
    for number, folder in enumerate(sorted((above / "cases").iterdir())):
        chance = random.Random(f"{seed} {number} report")
        kinds.update(compare(program, folder, chance, int(last[0]) if last else LAST_STAGE))
    shutil.rmtree(above)
    said = ", ".join(f"{kinds[kind]} {kind}" for kind in sorted(kinds) if not kind.startswith("sites"))
    print(f"{count} programs agree: {said}")


if __name__ == "__main__":
    main(sys.argv[1:])
