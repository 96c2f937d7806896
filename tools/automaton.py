"""Draws the automaton of a protocol as SVG: its states in a row, and an arrow for all events that lead from one to another."""

from collections import defaultdict
from html import escape

from effects import Protocol
from story_words import spelled_event

# Where the states stand, and how much an arrow rises for each state that it passes.
STEP, LEFT, RADIUS, RISE, LETTER = 190, 100, 34, 46, 7
# So many events are named at an arrow.
MOST_NAMED = 3


def arrows(protocol: Protocol) -> dict[tuple[int, int], list[str]]:
    """The events that lead from one state to another, by the numbers of both; those that stay in the error state are none."""
    found: dict[tuple[int, int], list[str]] = defaultdict(list)
    for key in sorted(protocol.events):
        for number, state in enumerate(protocol.states):
            if state != protocol.error:
                found[number, protocol.states.index(protocol.next[key][number])].append(spelled_event(key))
    return dict(found)


def label(events: list[str]) -> str:
    """What stands at an arrow: the names of the events, each once."""
    names = list(dict.fromkeys(each.partition("(")[0] for each in events))
    return ", ".join(names[:MOST_NAMED]) + (f" +{len(names) - MOST_NAMED}" if len(names) > MOST_NAMED else "")


def middle(number: int) -> int:
    """Where a state stands."""
    return LEFT + number * STEP


def arrow(source: int, target: int, base: int, events: list[str]) -> str:
    """An arrow with its label: above for a way to the right, below for one to the left, and a loop for one to itself."""
    title = f"<title>{escape(', '.join(events))}</title>"
    if source == target:
        x, top = middle(source), base - RADIUS
        path = f"M{x - 12},{top + 2} C{x - 36},{top - 48} {x + 36},{top - 48} {x + 12},{top + 2}"
        return f'<g>{title}<path class="arrow" d="{path}" marker-end="url(#tip)"/><text x="{x}" y="{top - 40}">{escape(label(events))}</text></g>'
    side = -1 if target > source else 1
    rise = side * (RISE * abs(target - source) + 10)
    start, end, edge = middle(source), middle(target), base + side * (RADIUS - 8)
    x, y = (start + end) // 2, edge + rise
    path = f"M{start - side * 16},{edge} Q{x},{y + rise} {end + side * 16},{edge}"
    return f'<g>{title}<path class="arrow" d="{path}" marker-end="url(#tip)"/><text x="{x}" y="{y - 4 if side < 0 else y + 12}">{escape(label(events))}</text></g>'


def state(number: int, name: str, base: int, protocol: Protocol) -> str:
    """A state: the one that an object begins in has a thick line, the error state another colour."""
    kind = " error" if name == protocol.error else " initial" if name == protocol.initial else ""
    return (f'<g class="state{kind}" data-state="{escape(name)}"><circle cx="{middle(number)}" cy="{base}" r="{RADIUS}"/>'
            f'<text x="{middle(number)}" y="{base + 4}">{escape(name)}</text></g>')


def svg(protocol: Protocol) -> str:
    """The drawing."""
    found = arrows(protocol)
    above = max([1, *(target - source for source, target in found)]) * RISE + 36
    below = max([0, *(source - target for source, target in found)]) * RISE + 36
    base = above + RADIUS
    width, height = middle(len(protocol.states) - 1) + LEFT, base + RADIUS + below
    parts = [arrow(*ends, base, events) for ends, events in found.items()]
    parts += [state(number, name, base, protocol) for number, name in enumerate(protocol.states)]
    tip = '<defs><marker id="tip" viewBox="0 0 8 8" refX="7" refY="4" markerWidth="7" markerHeight="7" orient="auto"><path d="M0,0 L8,4 L0,8 z"/></marker></defs>'
    says = f"The automaton of {escape(protocol.class_name)}"
    return f'<svg class="automaton" role="img" aria-label="{says}" viewBox="0 0 {width} {height}" width="{width}">{tip}{"".join(parts)}</svg>'
