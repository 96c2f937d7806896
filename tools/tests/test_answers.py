"""Tests of answers, baselines and exit statuses."""

import json
import pathlib
import tempfile
import unittest

from answers import PARTIAL, Answer, OfProtocol, Ran, fingerprints, of_protocol, status_of_answer
from asked import Failed
from assumptions import Resting
from baseline import mark_known, read_baseline, write_baseline
from samples import OPEN, PROTOCOL, finding, place, ran


def part_of(*runs: Ran, is_partial: bool = False) -> OfProtocol:
    """What runs of one protocol found."""
    return of_protocol("doors", PROTOCOL, list(runs), is_partial)


def status(*runs: Ran, fail_on: list[str] | None = None, is_partial: bool = False) -> int:
    """The status of runs of one protocol."""
    return status_of_answer(Answer([part_of(*runs, is_partial=is_partial)], [], [], []), fail_on)


class Statuses(unittest.TestCase):
    """The exit statuses."""

    def test_worst_of_the_places(self) -> None:
        self.assertEqual([status(ran("x", *rules)) for rules in ((), ("safe",), ("safe", "safe-if"), ("safe-if", "unproved"), ("limit",))], [0, 0, 67, 1, 1])

    def test_no_place_rests_on_assumptions(self) -> None:
        self.assertEqual(status(ran("x", resting=OPEN)), 67)

    def test_fail_on(self) -> None:
        self.assertEqual(status(ran("x", "limit", "safe-if"), fail_on=["unproved"]), 0)
        self.assertEqual(status(ran("x", "unproved"), fail_on=["nothing"]), 0)

    def test_refused_is_never_passed_over(self) -> None:
        refused = Ran("doors", "y", None, [finding("refused")], None, 2)
        self.assertEqual(status(ran("x", "safe"), refused, fail_on=["nothing"]), 2)
        self.assertEqual(status(ran("x", "safe", cuts=1), fail_on=["nothing"]), 2)

    def test_partial_has_its_own(self) -> None:
        self.assertEqual(status(ran("x", "safe-if", cuts=1), fail_on=["nothing"], is_partial=True), PARTIAL)
        self.assertEqual(status(ran("x", "unproved", cuts=1), is_partial=True), 1)

    def test_classes_that_are_missing_rest_on_something(self) -> None:
        self.assertEqual(status_of_answer(Answer([], ["lock (Lock)"], [], [], missing=["a/B"]), None), 67)
        self.assertEqual(status_of_answer(Answer([], ["lock (Lock)"], [], []), None), 0)

    def test_status_of_the_verifier(self) -> None:
        self.assertEqual(status(Ran("doors", "x", None, [], finding(""), 6)), 6)


class Merging(unittest.TestCase):
    """Places over several entries."""

    def test_worst_verdict_is_told_with_its_entries(self) -> None:
        found = part_of(ran("x", "safe"), ran("y", "unproved"), ran("z", "unproved")).places
        self.assertEqual([(each.rule, each.entries) for each in found], [("unproved", ["y", "z"])])
        self.assertTrue(found[0].text.endswith("; from y and z"))

    def test_a_safe_place_names_its_entries_where_another_is_refused(self) -> None:
        found = part_of(ran("x", "safe"), Ran("doors", "y", None, [finding("refused")], None, 2))
        self.assertTrue(found.places[0].text.endswith("; from x"))
        self.assertEqual(found.lacking, ["y"])

    def test_cut_reports_are_told_in_partial_runs_alone(self) -> None:
        self.assertEqual(len(part_of(ran("x", "safe-if", cuts=1)).places), 0)
        self.assertEqual(len(part_of(ran("x", "safe-if", cuts=1), is_partial=True).places), 1)

    def test_fingerprints_count_and_do_not_move(self) -> None:
        one = fingerprints("doors", [place("safe", 3), place("safe", 9)])
        other = fingerprints("doors", [place("safe", 5), place("safe", 11)])
        self.assertEqual(list(one.values()), list(other.values()))
        self.assertEqual(len(set(one.values())), 2)


class Baselines(unittest.TestCase):
    """What a baseline takes for known."""

    def known(self, before: tuple[str, ...], after: tuple[str, ...], rests: tuple[str, str] = ("", "")) -> list[bool]:
        """Which places are known, of a run after that of the baseline."""
        answers = [Answer([part_of(ran("x", *rules))], [], [], []) for rules in (before, after)]
        for answer, each in zip(answers, rests):
            for one in answer.protocols[0].places if each else []:
                one.rests = [each]
        with tempfile.TemporaryDirectory() as made:
            path = str(pathlib.Path(made) / "b.json")
            write_baseline(path, answers[0])
            mark_known(answers[1], read_baseline(path))
        self.met_no_more = answers[1].met_no_more
        return [each.is_known for each in answers[1].protocols[0].places]

    def test_same_or_better_is_known(self) -> None:
        self.assertEqual(self.known(("unproved", "unproved", "unproved"), ("unproved", "limit", "safe-if")), [True] * 3)

    def test_worse_or_further_is_new(self) -> None:
        self.assertEqual(self.known(("safe-if", "safe"), ("unproved", "unproved")), [False, False])

    def test_a_further_assumption_is_new(self) -> None:
        self.assertEqual(self.known(("safe-if",), ("safe-if",), ("static a at x.java:1", "static a at x.java:9")), [True])
        self.assertEqual(self.known(("safe-if",), ("safe-if",), ("static a at x.java:1", "static b at x.java:1")), [False])

    def test_met_no_more(self) -> None:
        self.known(("unproved", "unproved"), ("unproved",))
        self.assertEqual(self.met_no_more, 1)

    def test_no_baseline(self) -> None:
        with tempfile.TemporaryDirectory() as made:
            path = pathlib.Path(made) / "b.json"
            for text in ("{", "[]", json.dumps({"version": 2, "places": []})):
                path.write_text(text, encoding="utf-8")
                with self.assertRaises(Failed):
                    read_baseline(str(path))


class Resting_(unittest.TestCase):
    """What answers rest on."""

    def test_each_assumption_once(self) -> None:
        found = part_of(ran("x", "safe-if", resting=OPEN), ran("y", "safe-if", resting=OPEN)).resting
        self.assertEqual(found, Resting(OPEN.open, [], True))
