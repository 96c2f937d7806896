#!/usr/bin/env python3
"""Compares the path edges that the program finds with those of the second writing of their rules, on random programs.
For tests alone.

  compare_edges.py CASES_LINKS CASES_STAGES ASSEMBLER COUNT SEED [LIMIT]

The first two are the paths of the built programs, ASSEMBLER is that of `assemble.py`. COUNT cases are made in a
temporary folder by SEED, one in four of any programs and the others of such as pass objects on, each with a property
for objects that it makes. The second writing begins with the nodes of the first program. As many path edges of a site
as LIMIT, or more, are too many; for some cases the number of a site's edges, or the next one, becomes this number.
The first case in which the lines differ is printed with them, `-` before those that the second writing has alone and
`+` before those of the second program; its folder is then kept, and the status is 1."""

import random
import shutil
import sys
import tempfile
from collections import Counter
from pathlib import Path

sys.dont_write_bytecode = True
from compare import difference, printed, show  # noqa: E402
from node_text import CaseText, blocks_of, read_cases  # noqa: E402
from plain_edges import lines_of  # noqa: E402
from plain_rules import read_entry, solve  # noqa: E402
from random_folders import load_assembler, write_folders  # noqa: E402
from random_properties import write_property  # noqa: E402
from random_protocols import write_protocols  # noqa: E402

# The program tries each edge with each other one, until nothing is new.
DEFAULT_LIMIT = 200
# Of so many cases one gets the number of edges of one of its sites as its limit, and another one the next number.
LIMITED_SHARE = 10
# Of so many cases one is any program.
GENERAL_SHARE = 4


def write_cases(count: int, seed: int, cases: Path, assembler: Path) -> None:
    """Cases without properties."""
    loaded = load_assembler(assembler)
    write_folders(count // GENERAL_SHARE, seed, cases, loaded)
    write_protocols(count - count // GENERAL_SHARE, seed, cases, loaded)


def counts(lines: list[str]) -> list[int]:
    """How many edges the sites of a case have at each stage, where they are fewer than the limit."""
    return [int(line.removeprefix("edges ")) for line in lines if line.startswith("edges ")]


def write_case(chance: random.Random, folder: Path, text: CaseText, limit: int) -> None:
    """A property, and the limit of edges in place of one of pairs."""
    write_property(chance, folder, solve(folder, text))
    method = read_entry(folder).method
    (folder / "entry").write_text(f"{method}\n{limit}\n", encoding="utf-8")


def expected(cases: Path, nodes: str, seed: int, limit: int) -> dict[str, list[str]]:
    """What the second writing says of the cases. It writes properties and limits."""
    lines = {}
    for number, (name, text) in enumerate(read_cases(nodes)):
        chance = random.Random(f"{seed} {number} property")
        write_case(chance, cases / name, text, limit)
        lines[name] = lines_of(cases / name, text)
        if number % LIMITED_SHARE < 2 and counts(lines[name]):
            own = chance.choice(counts(lines[name])) + number % LIMITED_SHARE
            (cases / name / "entry").write_text(f"{read_entry(cases / name).method}\n{own}\n", encoding="utf-8")
            lines[name] = lines_of(cases / name, text)
    return lines


def main(words: list[str]) -> None:
    if len(words) not in (5, 6):
        sys.exit("usage: compare_edges.py CASES_LINKS CASES_STAGES ASSEMBLER COUNT SEED [LIMIT]")
    links, stages, assembler, count, seed, *limit = words
    above = Path(tempfile.mkdtemp(prefix="cases_stages_"))
    cases = above / "cases"
    write_cases(int(count), int(seed), cases, Path(assembler))
    nodes = printed(links, "nodes", cases)
    expects = expected(cases, nodes, int(seed), int(limit[0]) if limit else DEFAULT_LIMIT)
    has = dict(blocks_of(printed(stages, "edges", cases)))
    for path in sorted(cases.iterdir()):
        lines = difference(expects.get(path.name, []), has.get(path.name, []))
        if lines or path.name not in expects:
            show(path.name, lines, path)
            sys.exit(1)
    shutil.rmtree(above)
    kinds = Counter(line.split(" ")[0] for lines in expects.values() for line in lines)
    print(f"{count} programs agree: {kinds['edges'] + kinds['limit']} sites and stages, {kinds['limit']} limited, "
          f"{kinds['edge']} path edges")


if __name__ == "__main__":
    main(sys.argv[1:])
