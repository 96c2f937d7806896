"""Makes properties for random small programs, for tests alone: of a class of which the program makes objects, with
events that are called on them."""

import random
from pathlib import Path
from typing import Union

from plain_edges import tracked
from plain_rules import Solved, called_on
from stub_texts import OBJECT

STATES = ["fresh", "open", "used", "error"]
NO_EVENT = "never()V"


def chosen_class(chance: random.Random, solved: Solved) -> str:
    """A class of objects that are made and called, if there are such, or now and then one above it."""
    made = tracked(solved, OBJECT)
    called = sorted({site.class_name for site in made if called_on(solved, {site})})
    names = called if called and chance.random() < 0.9 else sorted({site.class_name for site in made}) or [OBJECT]
    name = chance.choice(names)
    return chance.choice(sorted(solved.rules.program.supertypes(name))) if chance.random() < 0.2 else name


def event_text(chance: random.Random, event: str, states: list[str]) -> list[str]:
    """An event that leads from each state to any, and from the error to itself."""
    return event_lines(event, [chance.choice(states) for _ in states[:-1]] + states[-1:])


def event_lines(event: str, following: list[str]) -> list[str]:
    """An event, with the states to which it leads."""
    name, descriptor = event[:event.index("(")], event[event.index("("):]
    return ["[[event]]", f'name = "{name}"', f'descriptor = "{descriptor}"', f"next = {following}".replace("'", '"')]


def head_text(class_name: str, states: list[str]) -> list[str]:
    """What stands before the events. The first state is the initial one, and the last the error."""
    return ["version = 1", f'class = "{class_name}"', f"states = {states}".replace("'", '"'),
            f'initial = "{states[0]}"', f'error = "{states[-1]}"']


def property_text(chance: random.Random, class_name: str, events: list[str]) -> str:
    """A property file."""
    states = STATES[:chance.randint(1, 3)] + STATES[-1:]
    lines = head_text(class_name, states)
    for event in events:
        lines += event_text(chance, event, states)
    return "\n".join(lines) + "\n"


def order_text(chance: random.Random, class_name: str, events: list[str]) -> str:
    """A property file of an order: the first event may not come after the second, or not twice without it; or the
    second not before the first."""
    fresh, other, error = states = STATES[:2] + STATES[-1:]
    following = chance.choice([[[fresh, error], [other, other]], [[other, error], [fresh, fresh]],
                               [[other, other], [error, other]]])
    lines = head_text(class_name, states)
    for event, after in zip(events, following):
        lines += event_lines(event, after + [error])
    return "\n".join(lines) + "\n"


def write_property(chance: random.Random, folder: Path, solved: Union[Solved, str]) -> None:
    """The property of a case, which has a program with an entry, or has not."""
    class_name, events = OBJECT, [NO_EVENT]
    if isinstance(solved, Solved):
        class_name = chosen_class(chance, solved)
        known = called_on(solved, set(tracked(solved, class_name))) or [NO_EVENT]
        events = chance.sample(known, min(len(known), chance.randint(1, 3)))
    (folder / "property.toml").write_text(property_text(chance, class_name, events), encoding="utf-8")


def write_order(chance: random.Random, folder: Path, solved: Solved) -> None:
    """A property of a case that speaks of the order of two events, or of one event and one that is never there."""
    class_name = chosen_class(chance, solved)
    known = called_on(solved, set(tracked(solved, class_name))) + [NO_EVENT]
    events = chance.sample(known, min(len(known), 2))
    (folder / "property.toml").write_text(order_text(chance, class_name, events), encoding="utf-8")
