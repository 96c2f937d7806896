"""The models of library classes: they are compiled at first use, and put into the folder of a run."""

import fcntl
import hashlib
import os
import pathlib
import shutil
import subprocess
import tempfile

from class_file import parse
from library import Unusable
from program import MODELS

TOP = pathlib.Path(__file__).resolve().parent.parent
SOURCES, COMPILED = TOP / "models" / "src", TOP / "models" / "out"
# The compiler's words: models of classes of java.base compile as code for Java 8, which has no modules.
COMPILE = ["--release", "8", "-g:source,lines", "-proc:none", "-nowarn", "-Xlint:none"]


def read_models():
    """The models by their names, each with its path. They are compiled where they were not yet."""
    found = {}
    for path in sorted(compiled().rglob("*.class")):
        each = parse(path.read_bytes())
        each.path = str(path)
        found[each.name] = each
    return found


def sources():
    """The sources of the models."""
    return sorted(SOURCES.rglob("*.java"))


def compiled():
    """The folder of the compiled models, below a name that tells their sources apart; in a temporary folder where the repository cannot be
    written."""
    digest = hashlib.sha256(b"".join(path.read_bytes() for path in sources())).hexdigest()[:16]
    places = [COMPILED / digest, pathlib.Path(tempfile.gettempdir()) / f"typestate-models-{os.getuid()}" / digest]
    for place in places:
        if place.is_dir():
            return place
    command = javac()
    for place in places:
        try:
            place.parent.mkdir(parents=True, exist_ok=True)
            with open(place.parent / "lock", "w", encoding="utf-8") as lock:
                fcntl.flock(lock, fcntl.LOCK_EX)
                return place if place.is_dir() else compile_into(place, command)
        except OSError:
            continue
    raise Unusable(f"neither {places[0]} nor {places[1]} can be written: the models of library classes go there")


def javac():
    """The compiler: that of JAVA_HOME, or the command."""
    home = os.environ.get("JAVA_HOME")
    found = shutil.which(os.path.join(home, "bin", "javac")) if home else None
    found = found or shutil.which("javac")
    if not found:
        raise Unusable("the models of library classes have to be compiled once, and no javac is there: install a JDK, as by 'apt-get install "
                       "default-jdk-headless', or set JAVA_HOME")
    return found


def compile_into(place, command):
    """Compiles the models into a folder, which is there only when it is whole."""
    with tempfile.TemporaryDirectory(dir=place.parent) as made:
        out = os.path.join(made, "out")
        ran = subprocess.run([command, *COMPILE, "-d", out, *map(str, sources())], capture_output=True, text=True, check=False)
        if ran.returncode:
            raise Unusable(f"the models of library classes do not compile: {ran.stderr[-2000:]}")
        try:
            os.rename(out, place)
        except OSError:
            if not place.is_dir():
                raise
    for other in place.parent.iterdir():
        if other != place and other.is_dir():
            shutil.rmtree(other, ignore_errors=True)
    return place


def put_models(adopted, folder):
    """Puts these models into the folder of a run."""
    for name, each in adopted.items():
        target = os.path.join(folder, MODELS, name + ".class")
        os.makedirs(os.path.dirname(target), exist_ok=True)
        shutil.copyfile(each.path, target)
        each.path = target
