#!/usr/bin/env python3
"""Compares the solver of the points-to analysis with the second writing of its rules, on random programs. For tests
alone.

  compare.py CASES_LINKS CASES_STAGES ASSEMBLER COUNT SEED

The first two are the paths of the built programs, ASSEMBLER is that of `assemble.py`. COUNT cases are made in a
temporary folder by SEED, and the second writing begins with the nodes of the first program. For some of them the
number of pairs that they have, or the next one, becomes the number that is too many. The first case in which the
lines differ is printed with them, `-` before those that the second writing has alone and `+` before those of the
second program; its folder is then kept, and the status is 1."""

import shutil
import subprocess
import sys
import tempfile
from collections import Counter
from pathlib import Path

sys.dont_write_bytecode = True
from node_text import blocks_of, read_cases  # noqa: E402
from plain_rules import Solved, lines_of, read_entry, solve  # noqa: E402
from random_folders import load_assembler, write_folders  # noqa: E402

# Of so many cases one gets its own number of pairs as its limit, and another one the next number.
LIMITED_SHARE = 10
SHOWN_LINES = 40


def printed(program: str, kind: str, cases: Path) -> str:
    """What a program prints of the cases, of a kind."""
    ran = subprocess.run([program, kind, str(cases)], capture_output=True, text=True)
    if ran.returncode != 0:
        sys.exit(f"{program} {kind} {cases} ended with status {ran.returncode}: {ran.stderr}")
    return ran.stdout


def expected(cases: Path, nodes: str) -> dict[str, list[str]]:
    """What the second writing says of the cases. It writes limits into some of them."""
    lines = {}
    for number, (name, text) in enumerate(read_cases(nodes)):
        folder = cases / name
        solved = solve(folder, text)
        entry = read_entry(folder)
        if isinstance(solved, Solved) and number % LIMITED_SHARE < 2:
            entry = entry._replace(limit=max(1, solved.facts.pairs() + number % LIMITED_SHARE))
            (folder / "entry").write_text(f"{entry.method}\n{entry.limit}\n", encoding="utf-8")
        lines[name] = lines_of(solved, entry.limit)
    return lines


def difference(expects: list[str], has: list[str]) -> list[str]:
    """The lines that only one of two lists has, however often."""
    missing, added = Counter(expects) - Counter(has), Counter(has) - Counter(expects)
    return [f"- {line}" for line in sorted(missing.elements())] + [f"+ {line}" for line in sorted(added.elements())]


def show(name: str, lines: list[str], folder: Path) -> None:
    print(name)
    print("\n".join(lines[:SHOWN_LINES]))
    if len(lines) > SHOWN_LINES:
        print(f"and {len(lines) - SHOWN_LINES} more lines")
    print(f"the case is kept in {folder}")


def ending(lines: list[str]) -> str:
    """How a case ends: by the second word of its line `end`, or without one."""
    words = lines[0].split(" ")
    return words[1] if words[0] == "end" else "without"


def main(words: list[str]) -> None:
    if len(words) != 5:
        sys.exit("usage: compare.py CASES_LINKS CASES_STAGES ASSEMBLER COUNT SEED")
    links, stages, assembler, count, seed = words
    above = Path(tempfile.mkdtemp(prefix="cases_stages_"))
    cases = above / "cases"
    write_folders(int(count), int(seed), cases, load_assembler(Path(assembler)))
    expects = expected(cases, printed(links, "nodes", cases))
    has = dict(blocks_of(printed(stages, "sets", cases)))
    for path in sorted(cases.iterdir()):
        lines = difference(expects.get(path.name, []), has.get(path.name, []))
        if lines or path.name not in expects:
            show(path.name, lines, path)
            sys.exit(1)
    ends = Counter(ending(lines) for lines in expects.values())
    shutil.rmtree(above)
    print(f"{count} programs agree: {ends['solved']} solved, {ends['limit']} limited, {ends['refused']} refused, "
          f"{ends['without']} without a program or an entry")


if __name__ == "__main__":
    main(sys.argv[1:])
