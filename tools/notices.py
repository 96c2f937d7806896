"""What tools/stubs says on standard error: what it cannot describe, what the verifier will refuse, and what cannot be linked."""

import sys

from class_file import in_byte_order
from closure import Closure
from facts import lines_of


def spelled(member: tuple[str, str, str]) -> str:
    """A member: a method with its descriptor, and a field without."""
    owner, name, descriptor = member
    return f"{owner}.{name}" + (descriptor if descriptor.startswith("(") else "")


def list_some(names: set[str]) -> str:
    """The first names, and how many more there are."""
    ordered = in_byte_order(names)
    return ", ".join(ordered[:8]) + (f" and {len(ordered) - 8} more" if len(ordered) > 8 else "")


def tell_undescribed(closure: Closure) -> None:
    """Says what could not be described."""
    for found, says in [
        (closure.missing, "classes that are neither in the folder nor in the JDK; code that names one is refused as NoStub, so "
                          "unpack the jars that have them into the folder too"),
        (set(map(spelled, closure.missing_members)), "members that are not in this JDK; name with --jdk the one that the class "
                                                     "files were made for"),
        (set(map(spelled, closure.base_fields)), "fields of classes of the base stubs, to which a stub file adds none; code that "
                                                 "names one is refused as NoStub"),
        (set(map(spelled, closure.object_fields)), "fields of the library that hold objects, and of classes without a model; code that names "
                                                   "one is refused as NoStub"),
        ({name for name in closure.not_described if name in closure.classes}, "classes of which no description could be true, so that none of "
                                                                               "their methods is described (tools/facts/left_out)"),
        ({upper for uppers in lines_of("cut_supertypes").values() for upper in uppers if any(upper in each.classes_named for each in closure.own.values())},
         "classes that the library has above classes of the base stubs, and the base stubs have not; objects of those are then no objects of these"),
        (set(closure.folder) & set(closure.base), "classes of the folder that are base stubs too, which linking refuses; take "
                                                  "them out"),
    ]:
        if found:
            print(f"stubs: {says} ({len(found)}): {list_some(found)}", file=sys.stderr)


def tell_refused(found: dict[str, list[str]]) -> None:
    """Says what the verifier will refuse, and in which methods."""
    if found:
        print("stubs: the verifier refuses this code where it may run (docs/REASONS.md; --refused FILE lists all of it):", file=sys.stderr)
    for line, methods in found.items():
        more = [f"and {len(methods) - 3} more"] if len(methods) > 3 else []
        print(f"    {line}", *methods[:3], *more, sep="\n        ", file=sys.stderr)


def listed(closure: Closure, alone: dict[str, str]) -> str:
    """A line for each class file of which a supertype is not there."""
    return "".join(in_byte_order(f"\n    {closure.folder[name].path} ({above} is not there)" for name, above in alone.items()))


def tell_dropped(closure: Closure, alone: dict[str, str]) -> None:
    """Says which class files are deleted."""
    print(f"stubs: deleted class files of which a supertype is not there ({len(alone)}):{listed(closure, alone)}", file=sys.stderr)
