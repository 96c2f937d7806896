"""Tests of the words of tools/check, and of typestate.toml."""

import contextlib
import os
import pathlib
import tempfile
import unittest
from collections.abc import Iterator
from typing import Any

from asked import Asked, Failed, entry_of, property_files, ready_protocols, with_config


@contextlib.contextmanager
def in_folder(**files: str) -> Iterator[pathlib.Path]:
    """A folder of these files, in which the test goes on."""
    before = pathlib.Path.cwd()
    with tempfile.TemporaryDirectory() as made:
        for name, text in files.items():
            (pathlib.Path(made) / name.replace("_", ".")).write_text(text, encoding="utf-8")
        os.chdir(made)
        try:
            yield pathlib.Path(made)
        finally:
            os.chdir(before)


def asked(**words: Any) -> Asked:
    """The words of a call."""
    return with_config(words, None)


class Entries(unittest.TestCase):
    """How entries are written."""

    def test_full_stops_or_slashes(self) -> None:
        self.assertEqual(entry_of("org.example.Main.main"), "org/example/Main.main")
        self.assertEqual(entry_of("org/example/Main$Inner.main"), "org/example/Main$Inner.main")
        self.assertEqual([entry_of("Main.main"), entry_of("public"), entry_of("public:org.example")], ["Main.main", "public", "public:org.example"])

    def test_no_entry(self) -> None:
        for each in ("Main", ".main", "Main."):
            with self.assertRaises(Failed):
                entry_of(each)


class Configs(unittest.TestCase):
    """What the file says."""

    def test_file_and_words(self) -> None:
        text = 'places = ["app.jar"]\nentries = "A.main"\nproperties = "readers"\nstages = 2\npartial = true\nfail-on = ["unproved"]\n'
        with in_folder(typestate_toml=text, app_jar=""):
            found = asked(entries=["B.main"])
        self.assertEqual((found.places, found.entries, found.properties), (["app.jar"], ["B.main"], ["readers"]))
        self.assertEqual((found.stages, found.partial, found.fail_on, found.trace), ("2", True, ["unproved"], False))

    def test_paths_begin_at_the_file(self) -> None:
        with in_folder(other_toml='places = ["app.jar"]\nentries = "A.main"\nsarif = "out.sarif"\n', app_jar="") as folder:
            os.chdir("/")
            found = with_config({}, folder / "other.toml")
            self.assertEqual((found.places, found.sarif), ([str(folder / "app.jar")], str(folder / "out.sarif")))

    def test_wrong_files(self) -> None:
        for text in ("places = 1", "place = []", "trace = 1", 'stages = "2"', "=", 'fail-on = ["what"]\nplaces = "/"\nentries = "A.main"'):
            with in_folder(typestate_toml=text), self.assertRaises(Failed):
                asked()

    def test_what_has_to_be_there(self) -> None:
        with in_folder(app_jar=""):
            wrong: list[dict[str, Any]] = [
                {"entries": ["A.main"]}, {"places": ["app.jar"]}, {"places": ["b.jar"], "entries": ["A.main"]},
                {"places": ["app.jar"], "entries": ["public", "public:a"]}, {"places": ["app.jar"], "entries": ["A.main"], "stubs": "app.jar", "drop": True}]
            for words in wrong:
                with self.assertRaises(Failed):
                    asked(**words)


class Properties(unittest.TestCase):
    """Which properties are asked."""

    def test_all_ready_ones(self) -> None:
        self.assertEqual(list(property_files(Asked())), ready_protocols())

    def test_files_by_their_names(self) -> None:
        with in_folder(doors_toml=""):
            self.assertEqual(list(property_files(Asked(properties=["readers", "doors.toml"]))), ["readers", "doors"])
        with self.assertRaises(Failed):
            property_files(Asked(properties=["no-such-one"]))
