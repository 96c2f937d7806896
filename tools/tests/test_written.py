"""Tests of what is written: the page, SARIF, and the progress on a terminal."""

import io
import json
import time
import unittest
from contextlib import redirect_stderr
from dataclasses import replace
from html.parser import HTMLParser
from unittest import mock

import progress
from answers import Answer, of_protocol
from automaton import svg
from page import page, states_of
from samples import PROTOCOL, STORY, finding, ran
from sarif import Run, document


class Balance(HTMLParser):
    """Sees that each element ends where it should."""

    EMPTY = {"meta", "input", "path", "circle"}

    def __init__(self) -> None:
        super().__init__()
        self.open: list[str] = []
        self.outside: list[str] = []

    def handle_starttag(self, tag: str, attrs: list[tuple[str, str | None]]) -> None:
        if tag not in self.EMPTY:
            self.open.append(tag)
        self.outside += [value for key, value in attrs if key in ("src", "href") and value and not value.startswith("#")]

    def handle_endtag(self, tag: str) -> None:
        if tag not in self.EMPTY:
            assert self.open.pop() == tag, tag


def answer() -> Answer:
    """An answer with a story."""
    part = of_protocol("doors", PROTOCOL, [ran("x", "unproved", "safe")], False)
    part.places[0].story = STORY
    part.places[0].events = STORY[2:]
    return Answer([part], [], ["java.util.ArrayList"], ["public: <premise>"])


class Pages(unittest.TestCase):
    """The page."""

    def test_is_whole_and_needs_no_network(self) -> None:
        balance = Balance()
        balance.feed(page(answer()))
        self.assertEqual((balance.open, balance.outside), ([], []))

    def test_says_the_premises_and_escapes(self) -> None:
        written = page(answer())
        for each in ("public: &lt;premise&gt;", "java.util.ArrayList", "StackOverflowError", "unproved &lt;here&gt;"):
            self.assertIn(each, written)

    def test_states_of_a_story(self) -> None:
        self.assertEqual(states_of(STORY, PROTOCOL), ["", "shut", "ajar", "error"])

    def test_automaton(self) -> None:
        drawn = svg(PROTOCOL)
        self.assertEqual((drawn.count("<circle"), drawn.count('class="arrow"')), (3, 4))


class Sarif(unittest.TestCase):
    """The document for code hosts."""

    def results(self, run: Run) -> list[dict]:
        """The results of a document."""
        part = of_protocol("doors", PROTOCOL, [ran("x", "unproved", "safe")], False)
        part.places[0].story = STORY
        return json.loads(document([*part.places, replace(finding("refused"), file="", line=0)], run))["runs"][0]["results"]

    def test_safe_ones_only_where_asked(self) -> None:
        self.assertEqual([each["ruleId"] for each in self.results(Run(with_safe=False))], ["unproved", "refused"])
        self.assertEqual(len(self.results(Run(with_safe=True))), 3)

    def test_each_has_a_line_and_places_have_names(self) -> None:
        found = self.results(Run(stand_in="app.jar"))
        self.assertTrue(all("startLine" in each["locations"][0]["physicalLocation"]["region"] for each in found))
        self.assertTrue(all("partialFingerprints" in each for each in found[:2]))
        self.assertEqual(len(found[0]["codeFlows"][0]["threadFlows"][0]["locations"]), len(STORY))


class Terminal(io.StringIO):
    """Standard error as a terminal."""

    def isatty(self) -> bool:
        return True


class Steps(unittest.TestCase):
    """Progress."""

    def said(self, stream: io.StringIO) -> str:
        """What a step of some time says."""
        with redirect_stderr(stream), mock.patch.multiple(progress, LONG=0.02, AGAIN=0.02):
            with progress.step("running", 2, 3), progress.step("entry", 1, 1):
                time.sleep(0.2)
        return stream.getvalue()

    def test_on_a_terminal(self) -> None:
        self.assertIn("check: running 2 of 3, entry (0 s)", self.said(Terminal()))

    def test_quiet_elsewhere(self) -> None:
        self.assertEqual(self.said(io.StringIO()), "")
