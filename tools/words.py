"""Classes and members as Java writes them."""

PRIMITIVES = {"B": "byte", "C": "char", "D": "double", "F": "float", "I": "int", "J": "long", "S": "short", "Z": "boolean"}


def java_name(name: str) -> str:
    """A class, or a member of one, as Java writes it."""
    owner, point, member = name.partition(".")
    return (java_types(f"({owner})") if owner.startswith("[") else owner.replace("/", ".")) + point + member


def java_types(descriptor: str) -> str:
    """The parameters of a method descriptor as Java writes them, with classes by their short names."""
    found, at = [], 1
    while descriptor[at] != ")":
        start = at
        while descriptor[at] == "[":
            at += 1
        ranks = "[]" * (at - start)
        end = descriptor.index(";", at) if descriptor[at] == "L" else at
        name = descriptor[at + 1:end].rpartition("/")[2] if end > at else PRIMITIVES[descriptor[at]]
        found.append(name + ranks)
        at = end + 1
    return ", ".join(found)


def qualified(owner: str, name: str, descriptor: str) -> str:
    """The whole name of a method, with its parameters."""
    return f"{java_name(owner)}.{name}({java_types(descriptor)})"


def java_method(owner: str, name: str, descriptor: str) -> str:
    """A method in words."""
    if name == "<clinit>":
        return f"the static initialiser of {java_name(owner)}"
    if name == "<init>":
        return f"the constructor {java_name(owner)}({java_types(descriptor)})"
    return qualified(owner, name, descriptor)
