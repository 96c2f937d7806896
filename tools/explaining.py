"""Puts a report of the verifier into words: each line with its source line, what the verdicts mean, and what safe places rest on."""

import textwrap
from dataclasses import dataclass, field

from advice import ADVICE, OTHERS
from assumptions import KINDS, Assumption, Resting, RunWords, bears, is_assumed, program_of, read_assumed, resting_of
from closure import MADE
from facts import names_of
from library import Unusable
from model_places import stay_inside
from program import Program
from report import Ending, Place, read_report, status_of
from roots import Roots
from sarif import Finding, Moment, Run, document
from source_lines import Sources
from tracing import Tracing
from words import java_method, java_name, qualified

# The status where all places are safe, some of them if assumptions hold.
RESTS = 67
# How the native methods begin that stand for what was cut out of a program, and for what callers have; premises of their own speak of these.
STAND_INS = ("typestate.Cut.", "typestate.Callers.")
MEANING: dict[str, str] = {
    "safe": "safe: no order of the property's events that may happen to the objects made there leads to the error "
            "state, on any way through the code. This rests on what models, the base stubs and the stub file say of the "
            "library, and on a program without errors of the machine itself, as for want of memory: where a "
            "StackOverflowError or an OutOfMemoryError is caught, or passes a finally block, what runs then may break the protocol, and the place is called safe all the same. README.md "
            "says under \"What is proved\" what is proved of the verifier.",
    "unproved": "unproved: nothing is said against the program. The analysis follows the objects made "
                "there through calls, fields and exceptions, in the order of the code, and some way that "
                "it sees leads to the error state. It may be a way that no run takes: the analysis "
                "compares no values, and takes objects that are kept in a collection, or that the library "
                "keeps, for one another. Look at the place: which calls reach these objects, and can they "
                "come in the forbidden order?",
    "limit": "limit: the analysis stopped at this place, since it met its limit of facts. Nothing is said against "
             "the program; a higher --fact-limit may decide it.",
}


# What the tools add to the verifier's advice.
MORE: dict[str, str] = {
    "MissingField": " Or the field is one of a library class above it: only models have such fields (models/README.md).",
    "MissingMethod": " Or the method is one of a library class, and of a later Java than 8: the model of that class does not have it.",
}


def keeps(place: Place, made: str) -> str:
    """Why a place is safe: the first stage looks at all orders of the events, the later ones at those that may be."""
    if place.stage == 1:
        return f"no order of the events that a {made} may meet breaks the protocol"
    return f"no order in which a {made} may meet the events breaks the protocol"


def more(reason: str, named: str) -> str:
    """What is added to the verifier's advice on a refusal of an instruction that names this."""
    owner = named.partition(".")[0]
    if reason == "NoStub" and owner in names_of("left_out"):
        return f" {java_name(owner)} is left out, since no description of it could be true (tools/facts/left_out)."
    return MORE.get(reason, "")


def kinds_of(assumptions: list[Assumption]) -> str:
    """How many of each kind there are."""
    counts = {kind: sum(each.kind == kind for each in assumptions) for kind in KINDS}
    return ", ".join(f"{kind} {count}" for kind, count in counts.items() if count)


class Telling:
    """Puts lines of a report into words."""

    def __init__(self, sources: Sources, roots: Roots, resting: Resting):
        self.sources, self.roots, self.resting = sources, roots, resting

    def source(self, owner: str, key: tuple[str, str], offset: int) -> tuple[str, int]:
        """The source file, below the folder of the sources, and the line."""
        file, line = self.sources.at(owner, key, offset)
        return self.roots.path(file), line

    def place(self, place: Place) -> Finding:
        """A place of a report."""
        key = (place.method, place.descriptor)
        made = "made here" if self.sources.makes(place.class_name, key, place.offset) else "which the library gives here"
        made = f"{java_name(place.made.removeprefix(MADE))} {made}"
        bearing = self.resting.bearing(place) if place.verdict == "safe" else []
        if bearing or (place.verdict == "safe" and not self.resting.looked):
            return self.safe_if(place, made, bearing)
        says = {
            "safe": f"safe by stage {place.stage}: {keeps(place, made)}" + self.taken(place),
            "unproved": f"unproved, which need not be a fault: some order of the events that a {made} may meet would break "
                        "the protocol",
            "limit": f"not decided: stage {place.stage} met its limit of facts for a {made}",
        }
        return self.at_place(place, place.verdict, says[place.verdict])

    def safe_if(self, place: Place, made: str, bearing: list[Assumption]) -> Finding:
        """A place that is safe if assumptions hold."""
        told = kinds_of(bearing) or "they were not looked for"
        says = f"safe if what is assumed holds ({told}): then, by stage {place.stage}, {keeps(place, made)}"
        return self.at_place(place, "safe-if", says)

    def taken(self, place: Place) -> str:
        """What was taken over for a place, as the end of a sentence."""
        taken = self.resting.taken_for(place)
        return f"; assumed, since somebody took it over: {'; '.join(each.line for each in taken)}" if taken else ""

    def at_place(self, place: Place, rule: str, says: str) -> Finding:
        """A finding at a place."""
        key = (place.method, place.descriptor)
        method = java_method(place.class_name, *key)
        file, line = self.source(place.class_name, key, place.offset)
        text = f"{says} (in {method}, offset {place.offset})"
        rests = [each.line for each in self.resting.bearing(place)] if rule == "safe-if" else []
        return Finding(rule, text, qualified(place.class_name, *key), file, line, class_file=f"{place.class_name}.class", rests=rests)

    def ending(self, ending: Ending) -> Finding:
        """A line that stands alone; only a refusal is a finding of a rule."""
        if ending.kind == "none":
            return Finding("", OTHERS["none"], "", "", 0)
        if ending.kind != "refused":
            return Finding("", f"{ending.kind} {ending.name}. {OTHERS[ending.kind]}", "", "", 0)
        advice = ADVICE.get(ending.reason, "docs/REASONS.md says when this reason is told.")
        found = self.sources.method_at(ending.name, ending.offset)
        if not found:
            where = "" if ending.name == "-" else f" in {ending.name}, byte {ending.offset}"
            return Finding("refused", f"refused as {ending.reason}{where}. {advice}", "", "", 0)
        owner, key, offset, named = found
        at = f" at {java_name(named)}" if named else ""
        method = java_method(owner, *key)
        file, line = self.source(owner, key, offset)
        text = f"refused as {ending.reason}{at} (in {method}, offset {offset}). {advice}{more(ending.reason, named)}"
        return Finding("refused", text, qualified(owner, *key), file, line, class_file=ending.name)


def counted(findings: list[Finding]) -> str:
    """How many places there are, and what was found of them."""
    counts = {rule: sum(finding.rule == rule for finding in findings) for rule in ("safe", "safe-if", "unproved", "limit")}
    if not findings:
        return ("0 places: no method that may run makes an object of the property's class or of a class below it, so that "
                "nothing was looked at. See that the property's class and the entry are the ones you mean.")
    make = "1 place makes" if len(findings) == 1 else f"{len(findings)} places make"
    safe_if = f"{counts['safe-if']} safe if what is assumed holds, " if counts["safe-if"] else ""
    return (f"{make} objects of the property's class: {counts['safe']} safe, {safe_if}{counts['unproved']} unproved, "
            f"{counts['limit']} not decided.")


def write_resting(resting: Resting, places: list[Place], in_full: bool) -> None:
    """Prints the assumptions that bear on safe places, a line for each kind or, in full, for each assumption."""
    safe = [place for place in places if place.verdict == "safe"]
    bearing = [each for each in resting.open if not places or any(bears(each, place) for place in safe)]
    if not resting.looked and (safe or not places):
        print("\nNothing was looked for that a safe place rests on: name --property, --entry and, if the run had one, --stubs.")
    if not bearing:
        return
    print("\n" + textwrap.fill("Assumed of the library beside what is proved; where one does not hold, `safe` may be wrong "
                               "(--assumptions lists each one, --assume FILE takes some over):", 120))
    for kind, says in KINDS.items():
        of_kind = [each for each in bearing if each.kind == kind]
        if of_kind and in_full:
            print("", *(each.spelled for each in of_kind), sep="\n")
        elif of_kind:
            print(textwrap.fill(f"{kind} {len(of_kind)}: {says}; as {of_kind[0].spelled.partition(' ')[2]}", 120, subsequent_indent="  "))


def write_words(findings: list[Finding], places: list[Place], resting: Resting, in_full: bool) -> None:
    """Prints how many places there are and what was found of them, and then what the words mean."""
    print(("\n" if places else "") + counted(findings))
    write_resting(resting, places, in_full)
    for verdict, meaning in MEANING.items():
        if any(place.verdict == verdict for place in places):
            print("\n" + textwrap.fill(meaning, 120))


def where_of(place: Finding | Moment) -> str:
    """The source file and line of a finding or of a step, as its line begins."""
    return f"{place.file}:{place.line or '?'}: " if place.file else ""


def write_findings(findings: list[Finding], with_stories: bool = False) -> None:
    """Prints the findings, a line each, and below those that are unproved their stories, if these are asked for."""
    for finding in findings:
        print(f"{where_of(finding)}{finding.text}")
        if with_stories and finding.rule == "unproved":
            write_story(finding.story)


def write_story(story: list[Moment]) -> None:
    """Prints the steps of a story, with a number each, further to the right the more calls they are below the first one."""
    if not story:
        print("    The report does not say how: run the verifier with --trace, and with more stages than the first.")
    for number, each in enumerate(story, 1):
        print(f"    {number:>{len(str(len(story)))}}. {'  ' * each.depth}{where_of(each)}{each.text}")


@dataclass
class Explaining:
    """What an explanation is made of: the folder, the words of the run, or None where they are not known, the file of assumptions that are taken
    over, the folders of source files, the file for SARIF, whether each assumption is listed, whether unproved places get their stories, the premises of
    the run, and the classes that stand for callers."""
    folder: str
    run: RunWords | None
    assume: str | None = None
    roots: Roots = field(default_factory=Roots)
    sarif: str | None = None
    in_full: bool = False
    trace: bool = False
    premises: list[Assumption] = field(default_factory=list)
    callers: tuple[str, ...] = ()


def look_for_assumptions(asked: Explaining, program: Program | None, places: list[Place]) -> Resting:
    """What the safe places rest on; it is looked for where there is one, or where no place is there at all."""
    if places and all(place.verdict != "safe" for place in places):
        return Resting([], [])
    if asked.run is None or program is None:
        return Resting([], [], looked=False)
    found = resting_of(program, asked.folder, asked.run, read_assumed(asked.assume) if asked.assume else set())
    return found if places else found.without_places()


@dataclass
class Explained:
    """A report in words: its findings, the places that they are of, what the safe ones rest on, the line that stands alone, if there is no report,
    how many places in models are left out, the status, and the program, where the words of the run are known."""
    findings: list[Finding]
    places: list[Place]
    resting: Resting
    ending: Ending | None
    inside: int
    status: int
    program: Program | None = None


def explained(report: str, asked: Explaining) -> Explained:
    """A report in words."""
    places, ending = read_report(report)
    if ending:
        finding = Telling(Sources(asked.folder), asked.roots, Resting([], [])).ending(ending)
        return Explained([finding], [], Resting([], []), ending, 0, status_of(places, ending))
    program = program_of(asked.folder, asked.run) if asked.run else None
    shown = [place for place in places if not (program and is_left_out(place, program, asked.callers))]
    resting = with_premises(look_for_assumptions(asked, program, shown), asked)
    telling = Telling(Sources(asked.folder), asked.roots, resting)
    findings = [telling.place(place) for place in shown]
    if asked.trace and asked.run is not None and program is not None:
        add_stories(findings, shown, Tracing(program, asked.folder, asked.run, telling.source))
    status = status_with(resting, findings, status_of(shown, None))
    return Explained(findings, shown, resting, None, len(places) - len(shown), status, program)


def is_left_out(place: Place, program: Program, callers: tuple[str, ...]) -> bool:
    """Whether a place is no matter of the program's: in a model that keeps its objects, or in a class that stands for callers."""
    return place.class_name in callers or stay_inside(place, program)


def with_premises(resting: Resting, asked: Explaining) -> Resting:
    """What safe places rest on, with the premises of the run in place of the methods that stand for something. Nobody can take over that something was
    cut out."""
    taken = read_assumed(asked.assume) if asked.assume else set()
    own = [each for each in asked.premises if each.kind != "cut-out" and is_assumed(each, taken)]
    others = [each for each in resting.open if not each.about.startswith(STAND_INS)]
    return Resting([each for each in asked.premises if each not in own] + others, own + resting.taken, resting.looked)


def explain(report: str, asked: Explaining) -> int:
    """Explains a report, and gives the exit status."""
    found = explained(report, asked)
    write_sarif(asked.sarif, found.findings, Run(found.findings[0].text if found.ending else ""))
    write_findings(found.findings, asked.trace)
    if found.ending:
        return found.status
    write_words(found.findings, found.places, found.resting, asked.in_full)
    if found.inside:
        print(f"\nLeft out: {found.inside} more in models of library classes, whose objects never leave the models.")
    return found.status


def add_stories(findings: list[Finding], places: list[Place], tracing: Tracing) -> None:
    """Gives the findings of unproved places their stories."""
    for finding, place in zip(findings, places):
        if place.verdict == "unproved":
            finding.story = tracing.story(place)


def status_with(resting: Resting, findings: list[Finding], status: int) -> int:
    """The exit status: that of the verifier, but where all is safe if assumptions hold."""
    bears = any(finding.rule == "safe-if" for finding in findings) or (not findings and (resting.open or not resting.looked))
    return RESTS if status == 0 and bears else status


def write_sarif(path: str | None, findings: list[Finding], run: Run) -> None:
    """Writes the findings as SARIF, if a file is named."""
    if path is None:
        return
    try:
        with open(path, "w", encoding="utf-8", errors="backslashreplace") as file:
            file.write(document(findings, run))
    except OSError as fault:
        raise Unusable(f"{path} cannot be written ({fault.strerror}): name another file") from fault
