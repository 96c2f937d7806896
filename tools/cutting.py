"""Finds all refusals that an entry reaches: each refused instruction is cut out in a copy of the folder, and the run is repeated on it. What stands
for it is described in the stub file, as a method of the library: it runs no code of the program, is no event, keeps what it is given, and gives any
object of its type."""

import pathlib
import shutil
from collections.abc import Callable
from dataclasses import dataclass

from assumptions import Assumption, Resting
from build_folder import Build
from class_patch import CUT, CannotCut, Patch, is_instruction, stand_ins
from explaining import Telling
from refusals import Use
from program import MODELS
from report import Ending
from sarif import Finding
from source_lines import Sources

# So often a run is repeated at most.
MOST_RUNS = 20
# What is a fault of the input, and of no instruction that could be cut out.
FAULTS = {"BadOpcode", "BadTarget", "CodeCut", "StackUnder", "StackOver", "StackMerge", "FallsOff", "BadLocal", "BadHandler", "Subroutine", "BadIndex"}
# Runs the verifier on a folder, and gives what it printed if it gave a report, and else the line that stands alone.
Runs = Callable[[pathlib.Path], str | Ending]


@dataclass
class Outcome:
    """What came of it: the report, if there is one at last, or the line that nothing can be cut out for, and what was cut out for it."""
    report: str | None
    ending: Ending | None
    cuts: list[Finding]


class Cutting:
    """A copy of the folder of a build in which instructions are cut out."""

    def __init__(self, build: Build):
        self.build = build
        self.folder = build.place / "cut"
        self.found: dict[tuple[str, int], Finding] = {}
        self.known: dict[str, list[Use]] = {}
        self.described: set[str] = set()

    @property
    def is_begun(self) -> bool:
        """Whether the copy is there."""
        return self.folder.is_dir()

    def outcome(self, first: Ending, runs: Runs) -> Outcome:
        """Cuts out what a run refuses first, and repeats it on the copy, until there is a report."""
        ending: Ending | None = first
        if self.is_begun:
            answer = runs(self.folder)
            if isinstance(answer, str):
                return Outcome(answer, None, self.cuts())
            ending = answer
        for _ in range(MOST_RUNS):
            assert ending is not None
            if not self.cut(ending):
                return Outcome(None, ending, self.cuts())
            answer = runs(self.folder)
            if isinstance(answer, str):
                return Outcome(answer, None, self.cuts())
            ending = answer
        return Outcome(None, ending, self.cuts())

    def cuts(self) -> list[Finding]:
        """What is cut out, by files and lines."""
        return sorted(self.found.values(), key=lambda each: (each.file, each.line, each.text))

    # ---- the copy

    def begin(self) -> None:
        """Makes the copy, without models, which are put there anew, and describes it with what may have to stand for something."""
        shutil.copytree(self.build.folder, self.folder, ignore=lambda at, _: [MODELS] if pathlib.Path(at) == self.build.folder else [])
        described = self.build.describe(self.folder, [], None)
        for use in described.uses:
            self.known.setdefault(use.method, []).append(use)
        self.describe({each for use in described.uses for each in self.stands_for(use)})

    def stands_for(self, use: Use) -> list[str]:
        """The descriptor of what stands for an instruction that will be refused, if something has to."""
        owner, _, member = use.method.partition(".")
        path = self.folder / f"{owner}.class"
        at = self.place_of(path, member, use.offset)
        descriptor = Patch(path.read_bytes()).stands_for(at) if at else ""
        return [descriptor] if descriptor else []

    def place_of(self, path: pathlib.Path, member: str, offset: int) -> int:
        """The place in a class file of an instruction, by the name and descriptor of its method and the offset there; 0 where it is not found."""
        there = Sources(str(self.folder)).look_at(str(path)) if path.is_file() else None
        for key, each in (there.methods if there else {}).items():
            if "".join(key) == member and offset < each.code_length:
                return each.code_at + offset
        return 0

    def describe(self, descriptors: set[str]) -> None:
        """Describes the copy, with the methods of these descriptors to stand for instructions."""
        self.described |= descriptors
        shutil.rmtree(self.folder / MODELS, ignore_errors=True)
        path = self.folder / f"{CUT}.class"
        path.parent.mkdir(exist_ok=True)
        path.write_bytes(stand_ins(sorted(self.described)))
        self.build.write_stubs(self.folder, self.build.describe(self.folder, [CUT], None))

    # ---- a cut

    def cut(self, ending: Ending) -> bool:
        """Cuts out the instruction of a refusal, and what else will be refused in its method. Whether it could be done."""
        if ending.kind != "refused" or ending.reason in FAULTS or not ending.name.endswith(".class"):
            return False
        if not self.is_begun:
            self.begin()
        found = Sources(str(self.folder)).method_at(ending.name, ending.offset)
        if found is None:
            return False
        owner, key, offset, _ = found
        method = f"{owner}.{key[0]}{key[1]}"
        others = [(use.offset, use.reason) for use in self.known.get(method, []) if use.offset != offset]
        if not self.cut_at(ending.name, ending.offset, ending.reason):
            return False
        for other, reason in others:
            self.cut_at(ending.name, self.moved(ending.name, key, other), reason)
        return True

    def moved(self, name: str, key: tuple[str, str], offset: int) -> int:
        """The place of an instruction in a class file as it is now."""
        there = Sources(str(self.folder)).look_at(str(self.folder / name))
        return there.methods[key].code_at + offset if there else 0

    def cut_at(self, name: str, at: int, reason: str) -> bool:
        """Cuts out the instruction at a place of a class file. Whether it could be done."""
        path = self.folder / name
        sources = Sources(str(self.folder))
        found = sources.method_at(name, at)
        if found is None or (f"{name} {found[1]}", found[2]) in self.found:
            return False
        there, data = sources.files[found[0]]
        member = there.methods[found[1]]
        if not is_instruction(data[member.code_at:member.code_at + member.code_length], found[2]):
            return False
        finding = Telling(sources, self.build.roots, Resting([], [])).ending(Ending("refused", name, at, reason))
        try:
            patch = Patch(data)
            descriptor = patch.stands_for(at)
            patch.cut(at)
        except (CannotCut, KeyError, IndexError):
            return False
        path.write_bytes(patch.content())
        self.found[f"{name} {found[1]}", found[2]] = finding
        if descriptor and descriptor not in self.described:
            self.describe({descriptor})
        return True


def assumed(cuts: list[Finding]) -> list[Assumption]:
    """What is cut out, as assumptions."""
    return [Assumption("cut-out", each.text.partition(". ")[0], f"{each.file}:{each.line}" if each.file else each.method) for each in cuts]
