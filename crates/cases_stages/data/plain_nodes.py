#!/usr/bin/env python3
"""The methods of class files as nodes, for tests alone: by the tables of `expect.py`, with the members to which
references lead, and the targets of special calls, by a plain search of the program.

  plain_nodes.py CASES

Of each case is printed what `cases_links nodes` has to print, but for methods that are refused: of them stands one
line, `refused`, without a place and a reason."""

import sys
from pathlib import Path
from typing import Iterator

sys.dont_write_bytecode = True
from code_words import WITH_MEMBER, CodeWords  # noqa: E402
from node_text import NodeMethod, Refusal, read_methods  # noqa: E402
from plain_program import ROOT, Method, Program, link  # noqa: E402
from random_names import resolve_field, resolve_method, special_target  # noqa: E402

sys.path.append(str(ROOT / "crates/cases_links/data"))
from expect import Code  # noqa: E402

UNKNOWN = Refusal("-", 0, "-")
REFUSED = "refused"


class Unreadable(Exception):
    """The method is refused, or cannot be read."""


def split_method(text: str) -> tuple[str, str, str]:
    """The class, the name and the descriptor of a method."""
    at = text.index("(")
    owner, _, name = text[:at].rpartition(".")
    return owner, name, text[at:]


class Files:
    """A program with its class files, in the place of a case of `expect.py`."""

    def __init__(self, folder: Path, program: Program):
        self.folder, self.program, self.tool = folder, program, self

    split_method = staticmethod(split_method)

    def initialised(self, name: str) -> bool:
        return bool(self.program.initialisers(name))

    def words(self, method: Method) -> CodeWords:
        return CodeWords(self.folder / self.program.classes[method.class_name].file, method.code_start)

    def note(self, method: Method, words: list[str]) -> str:
        """What `expect.py` has to be told of an instruction: where its reference leads."""
        if words[0] == "invokedynamic" or words[0].startswith(("jsr", "ret ")) or words[-1] in ("handle", "mtype"):
            return REFUSED
        if words[0] in WITH_MEMBER:
            owner, _, name = words[1].rpartition(".")
            found = resolve_field(self.program, owner, (name, words[2])) if owner in self.program.classes else None
            return REFUSED if found is None else f"resolves {found.text}"
        if words[0].startswith("invoke"):
            return self.note_of_call(method, words)
        return ""

    def note_of_call(self, method: Method, words: list[str]) -> str:
        owner, name, descriptor = split_method(words[1])
        if owner not in self.program.classes:
            return REFUSED
        found = resolve_method(self.program, owner, (name, descriptor))
        target = found
        if words[0] == "invokespecial" and found is not None:
            target = special_target(self.program, method.class_name, owner, (name, descriptor))
        return REFUSED if found is None or target is None else f"resolves {found.text} chosen {target.text}"


class FileCode(Code):
    """The code of a method of a class file. Its nodes are those of `expect.py`."""

    def __init__(self, files: Files, method: Method):
        self.case, self.full, self.method = files, method.text, files.words(method)
        self.length = self.method.length
        found = list(self.method.instructions())
        self.instructions = [(offset, words, files.note(method, words)) for offset, words in found]
        self.after = {offset: after for (offset, _), (after, _) in zip(found, found[1:])}

    def operation(self, offset: int, words: list[str], note: str, top: int) -> tuple:
        if note == REFUSED:
            raise Unreadable(f"{self.full} {offset}: {' '.join(words)}")
        return super().operation(offset, words, note, top)


def lines_of_method(files: Files, method: Method) -> list[str]:
    """The limits and the nodes of a method, or that it is refused."""
    try:
        code = FileCode(files, method)
        return [f"slots {code.method.locals} stack {code.method.stack} params 0"] + code.nodes()
    except (Unreadable, ValueError, KeyError, IndexError, AssertionError):
        return [f"refused {UNKNOWN.file} {UNKNOWN.offset} {UNKNOWN.reason}"]


def lines_of(folder: Path, program: Program) -> Iterator[str]:
    """The lines of all methods with code."""
    files = Files(folder, program)
    for method in program.methods.values():
        if method.code_start is not None:
            yield method.text
            yield from lines_of_method(files, method)


def nodes_of(folder: Path, program: Program) -> dict[str, NodeMethod]:
    """The methods of a program as nodes."""
    return read_methods(list(lines_of(folder, program)))


def main(words: list[str]) -> None:
    if len(words) != 1:
        sys.exit("usage: plain_nodes.py CASES")
    for folder in sorted(Path(words[0]).iterdir()):
        print("\n".join([folder.name] + list(lines_of(folder, link(folder)))) + "\n")


if __name__ == "__main__":
    main(sys.argv[1:])
