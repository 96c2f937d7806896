#!/usr/bin/env python3
"""Makes folders of random small programs, for tests alone.

  random_folders.py COUNT SEED FOLDER ASSEMBLER

It writes COUNT case folders into FOLDER, which is made: each with class files, `source.txt`, which they are made of,
perhaps `stubs.toml`, and the file `entry`, which names the entry and perhaps how many pairs are too many. ASSEMBLER is
the path of `assemble.py`. The same SEED gives the same folders. Most programs have a solution; in some what is refused
may be reached, a few have no program or no entry, and some have a limit.

The comments in `source.txt` say where references lead and what is refused, in the words that
crates/cases_links/data/expect.py reads."""

import importlib.util
import random
import sys
from pathlib import Path
from types import ModuleType

sys.dont_write_bytecode = True
from plain_program import ABSTRACT, NATIVE, PRIVATE, PROTECTED, PUBLIC, STATIC, Class, Method  # noqa: E402
from random_classes import THEMES, ClassMaker, is_abstract, stub_text  # noqa: E402
from random_code import BodyMaker  # noqa: E402
from random_names import Names  # noqa: E402

FLAGS = {PUBLIC: "public", PRIVATE: "private", PROTECTED: "protected", STATIC: "static", NATIVE: "native",
         ABSTRACT: "abstract"}
LIMITS = [1, 2, 10, 50, 100, 200, 400, 1000]


def load_assembler(path: Path) -> ModuleType:
    """The assembler, as a module."""
    spec = importlib.util.spec_from_file_location("assemble", path)
    module = importlib.util.module_from_spec(spec)
    spec.loader.exec_module(module)
    return module


def flag_words(flags: int) -> str:
    return "".join(f"{word} " for flag, word in FLAGS.items() if flags & flag)


class CaseMaker:
    """Makes one case."""

    def __init__(self, chance: random.Random, assembler: ModuleType):
        self.chance, self.assembler = chance, assembler

    def happens(self, share: float) -> bool:
        return self.chance.random() < share

    def method_lines(self, names: Names, owner: Class, method: Method) -> list[str]:
        head = f"method {flag_words(method.flags)}{method.name}{method.descriptor}"
        if method.code_start is None:
            return [head, "end"]
        count = self.chance.randint(4, 9) if method.name == "main" else self.chance.choice([0, 1, 1, 2, 3, 4])
        return [head] + BodyMaker(names, self.chance, owner, method).body(count, self.assembler) + ["end"]

    def class_lines(self, names: Names, owner: Class) -> list[str]:
        kind = "public interface abstract" if owner.is_interface else "public super" + " abstract" * is_abstract(owner)
        lines = [f"class {kind} {owner.name}", f"super {owner.super_class}"]
        lines += [f"implements {' '.join(owner.interfaces)}"] if owner.interfaces else []
        lines += [f"field public {'static ' * held.is_static}{held.name} {held.descriptor}" for held in owner.fields]
        for method in owner.methods:
            lines += self.method_lines(names, owner, method)
        return lines

    def write_classes(self, folder: Path, source: str) -> None:
        """The class files, in folders of their packages, and now and then in another folder."""
        for name, data in self.assembler.assemble(source).items():
            path = folder / ("other/" * self.happens(0.1) + name + ".class")
            path.parent.mkdir(parents=True, exist_ok=True)
            path.write_bytes(data)

    def write(self, folder: Path) -> None:
        maker = ClassMaker(self.chance, self.chance.choice(THEMES) if self.happens(0.25) else None)
        plan, entry = maker.plan()
        names = Names(plan, self.chance)
        lines = [line for each in plan.folder for line in self.class_lines(names, each) + [""]]
        if self.happens(0.01):
            lines += ["class public super Z", "super absent/Class # refused MissingClass"]
        folder.mkdir(parents=True)
        source = "\n".join(lines).rstrip("\n") + "\n"
        (folder / "source.txt").write_text(source, encoding="utf-8")
        self.write_classes(folder, source)
        if plan.stubs:
            (folder / "stubs.toml").write_text(stub_text(plan.stubs), encoding="utf-8")
        method = "absent/Class.main()V" if self.happens(0.01) else entry.text
        limit = f"{self.chance.choice(LIMITS)}\n" if self.happens(0.15) else ""
        (folder / "entry").write_text(f"{method}\n{limit}", encoding="utf-8")


def write_folders(count: int, seed: int, folder: Path, assembler: ModuleType) -> None:
    """Writes cases, each of which depends on the seed and its own number alone."""
    for number in range(count):
        CaseMaker(random.Random(f"{seed} {number}"), assembler).write(folder / f"case{number:06}")


def main(words: list[str]) -> None:
    if len(words) != 4:
        sys.exit("usage: random_folders.py COUNT SEED FOLDER ASSEMBLER")
    write_folders(int(words[0]), int(words[1]), Path(words[2]), load_assembler(Path(words[3])))


if __name__ == "__main__":
    main(sys.argv[1:])
