"""Finds source files and lines for places in class files, by their tables of line numbers."""

import os
import struct

from bodies import Body
from class_file import BadClassFile, ClassFile, parse
from refusals import named_at

Key = tuple[str, str]
NEW = 187


class Sources:
    """The class files of a folder, as far as they were asked for."""

    def __init__(self, folder: str):
        self.folder = folder
        self.files: dict[str, tuple[ClassFile, bytes]] = {}
        self.walked = False

    def class_in(self, name: str) -> tuple[ClassFile, bytes] | None:
        """The class file of a class, and its bytes: that of its own name, or any that holds it."""
        if name not in self.files:
            self.look_at(os.path.join(self.folder, name + ".class"))
        if name not in self.files and not self.walked:
            self.walked = True
            for place, _, names in os.walk(self.folder, followlinks=True):
                for each in sorted(names):
                    if each.endswith(".class"):
                        self.look_at(os.path.join(place, each))
        return self.files.get(name)

    def look_at(self, path: str) -> ClassFile | None:
        """Reads a class file, if it can be read."""
        try:
            with open(path, "rb") as file:
                data = file.read()
            found = parse(data)
        except (OSError, BadClassFile):
            return None
        found.path = path
        return self.files.setdefault(found.name, (found, data))[0]

    def at(self, name: str, key: Key, offset: int) -> tuple[str, int]:
        """The source file, by the package of its class, and the line of an offset in the code of a method; 0 where it is not known."""
        there = self.class_in(name)
        if not there or not there[0].source:
            return "", 0
        found, data = there
        package = name.rpartition("/")[0]
        path = f"{package}/{found.source}" if package else found.source
        try:
            line = Body(found, key, data).line(offset) if key in found.methods and found.methods[key].code_length else 0
        except (struct.error, KeyError, IndexError, UnicodeDecodeError):
            line = 0
        return path, line

    def makes(self, name: str, key: Key, offset: int) -> bool:
        """Whether the instruction there makes an object itself, by `new`; any other one calls what does."""
        found = self.class_in(name)
        if not found or key not in found[0].methods:
            return True
        at = found[0].methods[key].code_at + offset
        return at < len(found[1]) and found[1][at] == NEW

    def method_at(self, path: str, offset: int) -> tuple[str, Key, int, str] | None:
        """The class and method whose code is at an offset of a class file, the offset in it, and what the instruction there names."""
        found = self.look_at(os.path.join(self.folder, path))
        for key, member in (found.methods if found else {}).items():
            if member.code_at <= offset < member.code_at + member.code_length:
                code = self.files[found.name][1][member.code_at:member.code_at + member.code_length]
                return found.name, key, offset - member.code_at, named_at(found, code, offset - member.code_at)
        return None
