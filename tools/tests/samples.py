"""What several tests use: a protocol, places and findings."""

from answers import Ran
from assumptions import Assumption, Resting
from effects import Protocol
from explaining import Explained
from report import Place
from sarif import Finding, Moment

PROTOCOL = Protocol("a/Door", {("open", "()V"), ("close", "()V")}, ["shut", "ajar", "error"], "error",
                    {("open", "()V"): ["ajar", "error", "error"], ("close", "()V"): ["error", "shut", "error"]}, "shut", "A door.")
STORY = [Moment("a.B.c calls a.B.d()", "a.B.c()", "a/B.java", 3, 0), Moment("a new a.Door is made in a.B.d, in the state shut", "a.B.d()", "a/B.java", 4, 1),
         Moment("open() in a.B.d: shut -> ajar", "a.B.d()", "a/B.java", 5, 1), Moment("open() in a.B.d: ajar -> error, if it is called on this object", "a.B.d()", "a/B.java", 6, 1)]


def place(verdict: str, offset: int = 0, method: str = "c") -> Place:
    """A place."""
    return Place(verdict, 1, "a/B", method, "()V", offset, "a/Door")


def finding(rule: str, line: int = 4) -> Finding:
    """A finding."""
    return Finding(rule, f"{rule} <here>", "a.B.c()", "a/B.java", line, class_file="a/B.class")


def report(*rules: str, resting: Resting | None = None, first: int = 0) -> Explained:
    """A report with a place for each rule."""
    places = [place("safe" if rule == "safe-if" else rule, first + number) for number, rule in enumerate(rules)]
    return Explained([finding(rule) for rule in rules], places, resting or Resting([], []), None, 0, 0)


def ran(entry: str, *rules: str, cuts: int = 0, resting: Resting | None = None, first: int = 0) -> Ran:
    """A run with a report."""
    return Ran("doors", entry, report(*rules, resting=resting, first=first), [finding("refused", number) for number in range(cuts)], None, 1)


OPEN = Resting([Assumption("call-back", "x.Y.z()", "a/B.java:7")], [])
