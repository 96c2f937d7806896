"""What to do about each answer of the verifier that is no report. For refusals these are the sentences that the program says too,
read from the table of docs/REASONS.md; the other lines have theirs here. tools/explain prints them."""

import os
import re

PAGE = os.path.join(os.path.dirname(os.path.dirname(os.path.realpath(__file__))), "docs", "REASONS.md")


def read_advice() -> dict[str, str]:
    """The sentence for each reason."""
    with open(PAGE, encoding="utf-8") as file:
        section = file.read().partition("## What to do\n")[2].partition("\n## ")[0]
    return dict(re.findall(r"^\| `(\w+)` \| (.*) \|$", section, re.MULTILINE))


ADVICE: dict[str, str] = read_advice()

OTHERS: dict[str, str] = {
    "missing": "The file is not in the folder of the class files: copy it there, and name it from there.",
    "usage": "The verifier cannot read its words: ./typestate --help lists them, with the ranges of the numbers. The "
             "entry is written CLASS.NAME, with / in the class, as org/example/Main.main.",
    "none": "The verifier wrote nothing: a file could not be read (its exit status 4) or there was too little "
            "memory (7).",
}
