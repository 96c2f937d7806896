"""Finds the story of an unproved place, with source files and lines, from the derivation that the verifier prints below it with --trace."""

import os
from collections.abc import Callable

from assumptions import RunWords
from derivation import Derivation
from edge_rules import EdgeRules
from effects import read_protocol
from numbering import Method, Numbering
from program import Program
from report import Place
from sarif import Moment
from story import Story
from story_words import Names
from words import qualified

# The source file and the line of an offset in the code of a method of a class.
Source = Callable[[str, tuple[str, str], int], tuple[str, int]]


class Tracing:
    """The stories of a run."""

    def __init__(self, program: Program, folder: str, run: RunWords, source: Source):
        self.source = source
        numbering = Numbering(program)
        self.rules = EdgeRules(program, numbering, read_protocol(os.path.join(folder, run.property)), run.entry)
        self.names = Names(numbering)

    def story(self, place: Place) -> list[Moment]:
        """The story of a place: empty where the report has no derivation of it."""
        if not place.edges:
            return []
        self.rules.numbering.check(place)
        derivation = Derivation(place.edges, self.rules)
        return [self.moment(told.method, told.offset, told.text, told.depth) for told in Story(derivation, self.names).told()]

    def moment(self, method: Method, offset: int, text: str, depth: int) -> Moment:
        """A step with its source line; that of a model is not the library's."""
        file, line = self.source(*method, offset)
        text += " (model)" if method[0] in self.rules.program.models else ""
        return Moment(text, qualified(method[0], *method[1]), file, line, depth)
