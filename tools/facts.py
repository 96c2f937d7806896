"""What is known of methods of the library beside their declarations, as the lists in tools/facts say it. Each list names methods:
`CLASS.NAME` or `CLASS.NAME(DESCRIPTOR)`, `CLASS.*` for all of a class, `PACKAGE/*` for all classes of a package; what is said of a
method holds of the methods that override it in the library, and the nearest line counts. Behind it may stand words, and the
reason behind a number sign."""

import functools
import os
from collections.abc import Callable, Sequence

# The class of what models are made of.
LIBRARY = "library/Library"
# The class whose methods stand for the callers of a library; its native ones do nothing, and give objects.
CALLERS = "typestate/Callers"
# The unchecked exceptions (JLS 11.1.1), and those errors of the machine and of linking that are no matter of the library's (README.md).
UNCHECKED = ("java/lang/RuntimeException", "java/lang/Error")
OF_THE_MACHINE = ("java/lang/VirtualMachineError", "java/lang/LinkageError", "java/lang/ThreadDeath")
# Words in the list `calls` that name nothing.
WORDS = ("nothing", "alone", "kin", "any")
FOLDER = os.path.join(os.path.dirname(os.path.realpath(__file__)), "facts")
Words = tuple[str, ...]


@functools.cache
def lines_of(name: str) -> dict[str, Words]:
    """The lines of a list: what stands first, with the words behind it."""
    found = {}
    with open(os.path.join(FOLDER, name), encoding="utf-8") as file:
        for line in file:
            words = line.partition("#")[0].split()
            if words:
                found[words[0]] = tuple(words[1:])
    return found


def names_of(name: str) -> set[str]:
    """The classes of a list of classes."""
    return set(lines_of(name))


@functools.cache
def of_method(name: str, owner: str, key: tuple[str, str], whole: bool) -> Words | None:
    """What a list says of a method in just this class, or None; `whole` says whether a line on all methods of the class counts."""
    lines = lines_of(name)
    spelled = [f"{owner}.{key[0]}{key[1]}", f"{owner}.{key[0]}"]
    if whole:
        spelled += [f"{owner}.*", f"{owner.rpartition('/')[0]}/*"]
    return next((lines[each] for each in spelled if each in lines), None)


def nearest(name: str, owners: Sequence[str], key: tuple[str, str], has: Callable[[str], bool]) -> Words | None:
    """What a list says of a method of the first of these classes: the line of the nearest one that has a line, or None. A line on all
    methods of a class counts for the first one, and for one that has the method. A constructor is that of its own class alone."""
    for each in owners:
        found = of_method(name, each, key, each == owners[0] or has(each))
        if found is not None or key[0] == "<init>":
            return found
    return None


# Classes whose objects hold nothing that a program could get back, and call nothing.
VALUES = names_of("value_classes")
