"""Prints what was found of a build."""

import textwrap

from answers import Answer, OfProtocol
from cutting import MOST_RUNS
from explaining import MEANING, counted, kinds_of, where_of, write_resting, write_story
from sarif import Finding, Moment
from words import java_name

# So many calls are told below a place.
MOST_CALLS = 12


def fill(text: str) -> str:
    """A text in lines of a width that can be read."""
    return textwrap.fill(text, 120)


def write_place(finding: Finding, with_stories: bool) -> None:
    """Prints a place, and below an unproved one the calls that may be events, and its story, if that is asked for."""
    known = " [in the baseline]" if finding.is_known else ""
    print(f"{where_of(finding)}{finding.text}{known}")
    if finding.rule == "unproved":
        write_events(finding.events)
        if with_stories:
            write_story(finding.story)


def write_events(events: list[Moment]) -> None:
    """Prints the calls that may be events, a line each."""
    for each in events[:MOST_CALLS]:
        print(f"    event {where_of(each)}{each.text}")
    if len(events) > MOST_CALLS:
        print(f"    and {len(events) - MOST_CALLS} more calls that may be events")


def title_of(part: OfProtocol) -> str:
    """The line above what was found of a protocol."""
    says = f": {part.protocol.says}" if part.protocol.says else ""
    return fill(f"== {part.name}, of {java_name(part.protocol.class_name)}{says}")


def write_refused(answer: Answer, is_partial: bool, has_ending: bool) -> None:
    """Prints all that is refused, and what that means."""
    refused = answer.refused()
    for each in refused:
        print(f"{where_of(each)}{each.text}")
    number = f"{len(refused)} refusals" if len(refused) > 1 else "1 refusal"
    if is_partial and not has_ending:
        print("\n" + fill(
            f"partial: {number}, listed above. In a copy of the program these instructions are cut out, and what follows is told of that copy. It is told under the "
            "premise that each of them, where it runs, runs no code of the program, is no event, keeps what it is given, and gives any object of its type; so no "
            "place is called safe without it.") + "\n")
    elif len(refused) > 1 or not has_ending:
        more = f" The run was repeated at most {MOST_RUNS} times, so that there may be more." if has_ending else ""
        print("\n" + fill(f"{number}, and so no verdict of {', '.join(answer.without_verdict())}: the instructions were cut out in a copy, and the run repeated, to find "
                          f"them all.{more} With --partial the rest is reported under the premise that they do nothing that matters.") + "\n" * any(
                              part.places for part in answer.protocols))


def write_protocol(part: OfProtocol, with_title: bool, with_stories: bool, in_full: bool) -> None:
    """Prints what was found of a protocol."""
    if with_title:
        print(title_of(part))
    if with_title and not part.places:
        rests = kinds_of(part.resting.open) or ("" if part.resting.looked else "nothing was looked for")
        print("0 places" + (f", if what is assumed holds ({rests})" if rests else "") + "\n")
        return
    for each in part.places:
        write_place(each, with_stories)
    print(("\n" if part.places else "") + counted(part.places))
    write_resting(part.resting, part.safe, in_full)
    if part.inside:
        print(f"\nLeft out: {part.inside} more in models of library classes, whose objects never leave the models, or made by callers.")
    if with_title:
        print()


def write_meanings(answer: Answer) -> None:
    """Prints what the verdicts mean that were told."""
    told = {each.rule for part in answer.protocols for each in part.places}
    for verdict, meaning in MEANING.items():
        if verdict in told or verdict == "safe" and "safe-if" in told:
            print("\n" + fill(meaning))


def some_of(names: list[str]) -> str:
    """The first names, and how many more there are."""
    return ", ".join(names[:8]) + (f" and {len(names) - 8} more" if len(names) > 8 else "")


def write_premises(answer: Answer) -> None:
    """Prints what the answer is told under, beside assumptions: entries of callers, models, class files that were left out."""
    says = list(answer.says)
    if answer.models:
        says.append(f"Models stand in place of {len(answer.models)} library classes: {some_of(answer.models)} (models/README.md).")
    if answer.left_out:
        says.append(f"{answer.left_out} class files of the build were left out; code that may run and names one is refused (--keep DIR lists them in unpacked.txt).")
    if answer.missing:
        says.append(f"{len(answer.missing)} classes are named and not there: {some_of(answer.missing)}. What they do was not looked at: name their jars too.")
    if answer.met_no_more:
        says.append(f"{answer.met_no_more} places of the baseline are met no more: write it anew by --write-baseline.")
    for each in says:
        print("\n" + fill(each))


def write_answer(answer: Answer, is_partial: bool, with_stories: bool, in_full: bool) -> None:
    """Prints all of it."""
    is_whole = all(part.is_whole for part in answer.protocols)
    if answer.refused():
        write_refused(answer, is_partial, not is_whole and any(each.ending for each in answer.protocols))
    several = len(answer.protocols) + len(answer.without_places) > 1
    for part in answer.protocols:
        if part.is_whole or part.places:
            write_protocol(part, several, with_stories, in_full)
    if answer.without_places:
        print(fill(f"0 places: {', '.join(answer.without_places)}. No method that may run makes an object of such a property's class, or calls what could be an event of it: "
                   "the program names no class that has them. See that the property's class and the entry are the ones you mean."))
    write_meanings(answer)
    if is_whole or any(part.places for part in answer.protocols):
        write_premises(answer)
