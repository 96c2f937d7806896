"""Runs the Java program that rewrites class files (tools/desugarer); it is compiled at first use."""

import fcntl
import hashlib
import os
import pathlib
import shutil
import subprocess
import tempfile
from dataclasses import dataclass

from library import Unusable
from models import javac

DESUGARER = pathlib.Path(__file__).resolve().parent / "desugarer"
COMPILED = DESUGARER / "out"
# The program itself, and the classes that rewritten code calls, each with the words of the compiler.
PARTS: dict[str, list[str]] = {"src": ["--release", "17"], "runtime": ["--release", "8", "-Xlint:-options", "-g:source,lines"]}
LIBRARIES = [pathlib.Path("/usr/share/java/asm.jar"), pathlib.Path("/usr/share/java/asm-tree.jar")]
# The statuses of the program: it cannot read or write something, or it left some places as they were.
CANNOT, SOME_NOT_DONE = 65, 68


@dataclass
class Desugaring:
    """What is rewritten, jars and folders, and the folder of what is written."""
    places: list[str]
    folder: str


def libraries() -> list[str]:
    """The jars of ASM."""
    missing = [path for path in LIBRARIES if not path.is_file()]
    if missing:
        raise Unusable(f"{missing[0]} is not there: install ASM, as by 'apt-get install libasm-java'")
    return [str(path) for path in LIBRARIES]


def sources(part: str) -> list[pathlib.Path]:
    """The sources of a part of the program."""
    return sorted((DESUGARER / part).rglob("*.java"))


def compiled() -> pathlib.Path:
    """The folder of the compiled program, below a name that tells its sources apart; in a temporary folder where the repository cannot be
    written."""
    digest = hashlib.sha256(b"".join(path.read_bytes() for part in PARTS for path in sources(part))).hexdigest()[:16]
    places = [COMPILED / digest, pathlib.Path(tempfile.gettempdir()) / f"typestate-desugarer-{os.getuid()}" / digest]
    for place in places:
        if place.is_dir():
            return place
    for place in places:
        try:
            place.parent.mkdir(parents=True, exist_ok=True)
            with open(place.parent / "lock", "w", encoding="utf-8") as lock:
                fcntl.flock(lock, fcntl.LOCK_EX)
                return place if place.is_dir() else compile_into(place)
        except OSError:
            continue
    raise Unusable(f"neither {places[0]} nor {places[1]} can be written: the compiled program goes there")


def compile_into(place: pathlib.Path) -> pathlib.Path:
    """Compiles the program into a folder, which is there only when it is whole."""
    with tempfile.TemporaryDirectory(dir=place.parent) as made:
        out = os.path.join(made, "out")
        for part, words in PARTS.items():
            command = [javac(), *words, "-proc:none", "-cp", ":".join(libraries()), "-d", out, *map(str, sources(part))]
            ran = subprocess.run(command, capture_output=True, text=True, check=False)
            if ran.returncode:
                raise Unusable(f"the program in {DESUGARER / part} does not compile, which a JDK of version 17 or later does: {ran.stderr[-2000:]}")
        try:
            os.rename(out, place)
        except OSError:
            if not place.is_dir():
                raise
    for other in place.parent.iterdir():
        if other != place and other.is_dir():
            shutil.rmtree(other, ignore_errors=True)
    return place


def java() -> str:
    """The command that runs the program: that beside the compiler."""
    beside = os.path.join(os.path.dirname(javac()), "java")
    return beside if os.path.isfile(beside) else "java"


def prepare(words: Desugaring) -> None:
    """Sees that all that is read is there, and makes the folder, or sees that it is empty."""
    for place in words.places:
        if not os.path.exists(place):
            raise Unusable(f"{place} is not there: name jars and folders first, and the folder of what is written last")
    try:
        os.makedirs(words.folder, exist_ok=True)
        if os.listdir(words.folder):
            raise Unusable(f"{words.folder} is not empty: name a folder that is empty or not there")
    except OSError as fault:
        raise Unusable(f"{words.folder} cannot be made or read ({fault.strerror}): name another folder") from fault


def desugar(words: Desugaring) -> int:
    """Rewrites what is named. The status."""
    path = ":".join([str(compiled()), *libraries()])
    prepare(words)
    return subprocess.run([java(), "-cp", path, "desugar.Main", *words.places, words.folder], check=False).returncode
