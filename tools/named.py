"""Finds which classes of a folder may run from an entry, and which classes their code names in casts, tests and exception handlers."""

import struct
from collections.abc import Iterable
from dataclasses import dataclass, field

from bodies import CAST, INSTANCE, Body
from class_file import ClassFile, element_class

ANY, RUNTIME = ("java/lang/Throwable", "java/lang/Exception"), "java/lang/RuntimeException"


@dataclass
class Named:
    """Classes that are named: `caught` in handlers, where one that catches anything stands for RuntimeException; `named` in handlers, in
    casts and in tests."""
    caught: set[str] = field(default_factory=set)
    named: set[str] = field(default_factory=set)


def running(folder: dict[str, ClassFile], entry: str) -> set[str]:
    """The classes of a folder whose code may run from a class on: those that its class file names, and those that these name; all where no
    class is named, or where it is not there."""
    if entry not in folder:
        return set(folder)
    found = {entry}
    for each in (ways := [entry]):
        names = set(map(element_class, folder[each].classes_named)) & folder.keys()
        ways.extend(names - found)
        found |= names
    return found


def named_in(folder: Iterable[ClassFile]) -> Named:
    """What the code of these class files names."""
    found = Named()
    for each in folder:
        with open(each.path, "rb") as file:
            data = file.read()
        for key, member in each.methods.items():
            if member.code_length:
                try:
                    take(found, Body(each, key, data))
                except (struct.error, KeyError, IndexError, UnicodeDecodeError):
                    continue
    return found


def take(found: Named, body: Body) -> None:
    """Takes what a method names."""
    for handler in body.handlers():
        found.caught.add(RUNTIME if handler.catches in ("any", *ANY) else handler.catches)
        found.named.update({handler.catches} - {"any"})
    for offset, opcode in body.instructions():
        if opcode in (CAST, INSTANCE):
            name = element_class(body.pool.class_name(body.index(offset)))
            if name:
                found.named.add(name)
