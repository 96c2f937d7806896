"""Tells the places in models of library classes whose objects never leave the method that makes them: what a model does with an iterator of its
own, say, is no matter of the program's."""

from bodies import ARRAY_STORE, CALLS, INVOKE_STATIC, OBJECT_RETURN, PUTFIELD, PUTSTATIC, THROW, Body
from class_file import OBJECT
from effects import arguments
from closure import MADE
from program import Program
from report import Place


def stay_inside(place: Place, program: Program) -> bool:
    """Whether the objects of a place stay in a method of a model: no value that may be one of them is an argument, a result, thrown, or stored."""
    body = program.body(place.class_name, (place.method, place.descriptor)) if place.class_name in program.models else None
    if body is None:
        return False
    return not any(may_be(kind, place.made, program) for kind in given_on(body, program))


def given_on(body: Body, program: Program) -> list[str]:
    """The types of the values that a method gives on, but for receivers of calls."""
    found = []
    for use in body.uses():
        if use.opcode in CALLS:
            found += arguments(body, use, program)[use.opcode != INVOKE_STATIC:]
        elif use.opcode in (PUTFIELD, PUTSTATIC, ARRAY_STORE, OBJECT_RETURN, THROW):
            found += body.takes(use.offset, program.join)[-1:]
    return found


def may_be(kind: str, made: str, program: Program) -> bool:
    """Whether a value of a type, which is not just Object, may be an object of a class."""
    return kind != OBJECT and (program.is_below(made, kind) or program.is_below(kind, made.removeprefix(MADE)))
