"""Libraries to be measured: the class files of jars in a folder, with their stub file and a driver (bench/driver.py) that calls the
public methods, and without what links nowhere."""

import os
import pathlib
import subprocess
import sys
import tempfile

ROOT = pathlib.Path(__file__).resolve().parent.parent
sys.path.append(str(ROOT / "tools"))

from class_file import ClassFile  # noqa: E402
from closure import Closure  # noqa: E402
from driver import Driver, public_classes, spread  # noqa: E402
from library import jdk_folder, open_jdk, read_base, read_folder  # noqa: E402
from named import Named  # noqa: E402
from object_calls import ObjectCalls  # noqa: E402

STUBS = "stubs.toml"


def run_tool(*words: str) -> str:
    """What a tool of this repository prints; or the end, with what it says."""
    run = subprocess.run([str(ROOT / "tools" / words[0]), *words[1:]], capture_output=True, text=True, check=False)
    if run.returncode != 0:
        sys.exit(f"tools/{words[0]}: {run.stdout[-500:]}{run.stderr}")
    return run.stdout


def drop_classes_without_supers(folder: str) -> int:
    """Takes out the class files of which a supertype is nowhere. How many."""
    base = read_base(ROOT / "docs/BASE_STUBS.md")
    classes = read_folder(folder)
    closure = Closure(open_jdk(jdk_folder(None)), classes, base, Named(), {}, set(classes))
    closure.collect()
    without = closure.without_supers()
    for name in without:
        os.remove(closure.folder[name].path)
    return len(without)


def refused_methods(folder: str) -> dict[str, set[str]]:
    """The methods with code that is refused before a run, by the names of their classes: their names with their descriptors."""
    with tempfile.NamedTemporaryFile("r") as listed:
        run_tool("stubs", folder, "--refused", listed.name)
        methods = [line.split(" ")[1] for line in listed.read().splitlines() if not line.startswith("native ")]
    found: dict[str, set[str]] = {}
    for method in methods:
        owner, _, key = method.partition(".")
        found.setdefault(owner, set()).add(key)
    return found


def driver_of(library: dict[str, ClassFile], most: int | None) -> Driver:
    """The driver that calls all public classes, with 0 and null; or at most so many of them, with objects."""
    if most is None:
        return Driver(library)
    names = spread(public_classes(library), most)
    return Driver(library, ObjectCalls(library, names), names)


def unpack_library(jars: list[str], folder: str, most: int | None = None) -> tuple[Driver, int]:
    """Puts the class files of jars into a folder, with the driver (`driver_of`) and the stub file of both. The driver, and how many class
    files were taken out."""
    run_tool("unpack", *jars, folder)
    dropped = drop_classes_without_supers(folder)
    driver = driver_of(read_folder(folder), most)
    for name, content in driver.files().items():
        (pathlib.Path(folder) / name).write_bytes(content)
    (pathlib.Path(folder) / STUBS).write_text(run_tool("stubs", folder))
    return driver, dropped
