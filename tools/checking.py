"""Goes from a build to an answer: class files, models, stubs, the verifier for each protocol and entry, and what its reports say and rest on."""

import pathlib
import shutil
import subprocess
import sys

from advice import ADVICE
from answers import Answer, OfProtocol, Ran, of_protocol, status_of_answer
from asked import TOP, Asked, Failed
from assumptions import Assumption, Resting, RunWords
from baseline import mark_known, read_baseline, write_baseline
from build_folder import Build, say, working_folder
from class_patch import CUT
from cutting import Cutting, assumed
from event_calls import EventCalls
from explaining import Explained, Explaining, Telling, explained
from explaining import write_sarif as write_document
from library import Unusable
from page import write_page
from program import MODELS
from progress import step
from public_entry import ENTRY, PREMISE, without_callers
from report import Ending, NoReport, read_report
from sarif import Finding, Run
from source_lines import Sources
from telling import write_answer
from words import java_name

PROGRAM = TOP / "typestate"
# The statuses of the verifier with which it printed what can be put into words.
EXPLAINED = (0, 1, 2, 6)
# The numbers that are handed on to the verifier as they are given.
NUMBERS = ("stages", "depth", "fact_limit", "pair_limit")


def hand_on(said: str) -> None:
    """Prints what the verifier said on standard error, but for what the explanation says too."""
    for line in said.splitlines():
        if line.removeprefix("typestate: ") not in ADVICE.values():
            print(line, file=sys.stderr, flush=True)


def numbers(asked: Asked) -> list[str]:
    """The words of the verifier for the numbers that are asked."""
    given = {name: getattr(asked, name) for name in NUMBERS}
    return [f"--{name.replace('_', '-')}={value}" for name, value in given.items() if value is not None]


def is_of_library(model: pathlib.PurePath) -> bool:
    """Whether a model stands in place of a class of the library, and is none of what models are made of."""
    return model.parts[0] not in ("library", "typestate")


class Checking:
    """The runs of a build."""

    def __init__(self, build: Build):
        self.build, self.asked = build, build.asked
        self.cutting = Cutting(build)

    # ---- one run

    def printed(self, folder: pathlib.Path, name: str, entry: str) -> str:
        """What the verifier prints for a protocol and an entry. It fails where that is no report and no line that stands alone."""
        words = ["--classes", str(folder), "--property", self.build.property_name(name), "--stubs", self.build.stubs_name(name), "--entry", entry]
        words += ["--trace"] if self.asked.trace else []
        ran = subprocess.run([PROGRAM, *words, *numbers(self.asked)], capture_output=True, stdin=subprocess.DEVNULL, check=False)
        self.keep_report(name, entry, ran.stdout)
        hand_on(ran.stderr.decode("utf-8", "replace"))
        if ran.returncode not in EXPLAINED:
            raise Failed(ran.returncode, f"the verifier gave no report, and ended with status {ran.returncode}; ./typestate --help says what it means")
        return ran.stdout.decode("utf-8", "backslashreplace")

    def keep_report(self, name: str, entry: str, report: bytes) -> None:
        """Leaves a report in the folder of what was made."""
        is_one = len(self.build.files) == 1 and len(self.build.entries) == 1
        file = "report.txt" if is_one else f"{name}.{self.build.entries[entry].replace(':', '-')}.report.txt"
        (self.build.place / file).write_bytes(report)

    def answered(self, folder: pathlib.Path, name: str, entry: str) -> str | Ending:
        """The report, or the line that stands alone."""
        text = self.printed(folder, name, entry)
        _, ending = read_report(text)
        return ending or text

    def ran(self, name: str, entry: str) -> Ran:
        """A run, with what is refused cut out in a copy where there is no report."""
        shown = self.build.entries[entry]
        answer = self.answered(self.build.folder, name, entry)
        if isinstance(answer, str):
            report = self.in_words(self.build.folder, name, entry, answer, [])
            return Ran(name, shown, report, [], None, report.status)
        if answer.kind != "refused":
            return Ran(name, shown, None, [], self.alone(self.build.folder, answer), 6)
        outcome = self.cutting.outcome(answer, lambda folder: self.answered(folder, name, entry))
        if outcome.report is None:
            folder = self.cutting.folder if outcome.cuts else self.build.folder
            return Ran(name, shown, None, outcome.cuts, self.alone(folder, outcome.ending or answer), 2)
        if not self.asked.partial:
            return Ran(name, shown, None, outcome.cuts, None, 2)
        report = self.in_words(self.cutting.folder, name, entry, outcome.report, outcome.cuts)
        return Ran(name, shown, report, outcome.cuts, None, report.status)

    def alone(self, folder: pathlib.Path, ending: Ending) -> Finding:
        """A line that stands alone, in words."""
        return Telling(Sources(str(folder)), self.build.roots, Resting([], [])).ending(ending)

    def in_words(self, folder: pathlib.Path, name: str, entry: str, report: str, cuts: list[Finding]) -> Explained:
        """A report in words; unproved places get the calls that may be events."""
        words = RunWords(self.build.property_name(name), self.build.stubs_name(name), entry, self.asked.jdk, self.build.providers)
        callers = (*self.build.callers, CUT)
        premises = assumed(cuts) + ([Assumption("callers", "public methods", "")] if entry == ENTRY else [])
        wanted = Explaining(str(folder), words, self.asked.assume, self.build.roots, None, self.asked.assumptions, self.asked.trace, premises, callers)
        found = explained(report, wanted)
        for each in found.findings if entry == ENTRY else ():
            each.story = without_callers(each.story)
        if found.program is not None and any(each.rule == "unproved" for each in found.findings):
            telling = Telling(Sources(str(folder)), self.build.roots, found.resting)
            calls = EventCalls(found.program, entry, self.build.protocols[name], telling.source, callers)
            for each, place in zip(found.findings, found.places):
                each.events = calls.of_place(place) if each.rule == "unproved" else []
        return found

    # ---- all runs

    def protocol(self, name: str) -> OfProtocol:
        """What is found of a protocol, from all entries."""
        runs = []
        for number, entry in enumerate(self.build.entries, 1):
            with step("entry", number, len(self.build.entries)):
                runs.append(self.ran(name, entry))
        return of_protocol(name, self.build.protocols[name], runs, self.asked.partial)

    def see_entries(self) -> None:
        """Sees that the entries are there, where no run says it."""
        for entry, shown in self.build.entries.items():
            owner, _, name = entry.rpartition(".")
            found = Sources(str(self.build.folder)).class_in(owner)
            if found is None or not any(key[0] == name for key in found[0].methods):
                raise Failed(2, f"{shown}: {ADVICE['NoEntry']}")

    def answer(self) -> Answer:
        """What is found of the build."""
        parts = []
        if not self.build.named:
            self.see_entries()
        for number, name in enumerate(self.build.named, 1):
            with step(f"running the verifier on {name}", number, len(self.build.named)):
                parts.append(self.protocol(name))
        without = [f"{name} ({java_name(self.build.protocols[name].class_name)})" for name in self.build.files if name not in self.build.named]
        models = sorted(path.relative_to(self.build.folder / MODELS).as_posix().removesuffix(".class").replace("/", ".")
                        for path in (self.build.folder / MODELS).rglob("*.class") if is_of_library(path.relative_to(self.build.folder / MODELS)))
        return Answer(parts, without, models, [PREMISE] if ENTRY in self.build.entries else [], len(self.build.left_out),
                      [] if self.build.named else self.build.missing)


def run_of(answer: Answer, asked: Asked) -> Run:
    """What the document of SARIF says of the run."""
    refused = answer.refused()
    is_whole = all(part.is_whole for part in answer.protocols)
    notes = list(answer.says)
    notes += [f"cut out under a premise: {each.text}" for each in refused] if is_whole else []
    notes += [f"models stand in place of library classes: {', '.join(answer.models)}"] if answer.models else []
    notes += [each.spelled for part in answer.protocols for each in [*part.resting.open, *part.resting.taken]]
    return Run("" if is_whole else refused[0].text, list(dict.fromkeys(notes)), asked.sarif_all, pathlib.Path(asked.places[0]).name)


def write_files(answer: Answer, build: Build) -> None:
    """Writes what is asked for beside the answer in words."""
    asked = build.asked
    if asked.sarif:
        write_document(asked.sarif, answer.findings(), run_of(answer, asked))
    if asked.keep:
        write_document(str(build.place / "report.sarif"), answer.findings(), run_of(answer, asked))
    if asked.html:
        write_page(asked.html, answer)
    if asked.write_baseline:
        say(f"wrote the baseline {asked.write_baseline}, with {write_baseline(asked.write_baseline, answer)} places")


def checked(place: pathlib.Path, asked: Asked) -> int:
    """Makes the folder, runs the verifier on it, and tells what was found. The status."""
    known = read_baseline(asked.baseline) if asked.baseline else {}
    build = Build(place, asked)
    answer = Checking(build).answer()
    mark_known(answer, known)
    write_answer(answer, asked.partial, asked.trace, asked.assumptions)
    write_files(answer, build)
    return status_of_answer(answer, asked.fail_on)


def check(asked: Asked) -> int:
    """One look, from a build to an answer. The status."""
    place = working_folder(asked.keep)
    try:
        status = checked(place, asked)
    except NoReport as fault:
        raise Failed(66, str(fault)) from fault
    except Unusable as fault:
        raise Failed(65, str(fault)) from fault
    finally:
        if asked.keep is None:
            shutil.rmtree(place, ignore_errors=True)
    if asked.keep:
        say(f"all that was made is in {place}: folder, reports, report.sarif, and what was left out in unpacked.txt and refused.txt")
    return status
