"""Makes the folder of a check from a build: its class files, unpacked or rewritten once, with models, and a property file and a stub file for each
protocol."""

import pathlib
import shutil
import subprocess
import sys
import tempfile
import zipfile

from asked import Asked, Failed, is_public, property_files
from desugaring import SOME_NOT_DONE
from effects import Protocol, read_protocol
from library import Unusable, jdk_folder, open_jdk
from program import Program
from progress import step
from public_entry import ENTRY, write_entry
from roots import Roots
from stubbing import Described, Stubbing, describe, written

HERE = pathlib.Path(__file__).resolve().parent


def say(message: str) -> None:
    """Says what is to be known beside the answer."""
    print(f"check: {message}", file=sys.stderr, flush=True)


def working_folder(kept: str | None) -> pathlib.Path:
    """The folder of all that is made, which is new."""
    if kept is None:
        return pathlib.Path(tempfile.mkdtemp(prefix="typestate-"))
    place = pathlib.Path(kept)
    try:
        place.mkdir(parents=True, exist_ok=True)
        if any(place.iterdir()):
            raise Failed(65, f"{kept} is not empty: name a folder that is empty or not there")
    except OSError as fault:
        raise Failed(65, f"{kept} cannot be made or read ({fault.strerror}): name another folder") from fault
    return place


def services(place: str) -> dict[str, str]:
    """The files below META-INF/services of a jar or of a folder, each with its text."""
    path = pathlib.Path(place)
    if path.is_dir():
        files = [each for each in (path / "META-INF" / "services").glob("*") if each.is_file()]
        return {each.name: each.read_text(encoding="utf-8", errors="replace") for each in files}
    with zipfile.ZipFile(path) as entries:
        names = [name for name in entries.namelist() if name.startswith("META-INF/services/") and not name.endswith("/")]
        return {name: entries.read(name).decode("utf-8", "replace") for name in names}


def class_names(place: str) -> set[str]:
    """The classes of a jar or of a folder, by the paths of their files."""
    path = pathlib.Path(place)
    if path.is_dir():
        found = [each.relative_to(path).as_posix() for each in path.rglob("*.class")]
    else:
        with zipfile.ZipFile(path) as entries:
            found = [name for name in entries.namelist() if name.endswith(".class")]
    return {each.removesuffix(".class") for each in found}


def providers(places: list[str]) -> list[str]:
    """The classes that jars and folders name below META-INF/services, for the library to make objects of."""
    lines = [line for place in places for text in services(place).values() for line in text.splitlines()]
    return list(filter(None, dict.fromkeys(line.partition("#")[0].strip().replace(".", "/") for line in lines)))


class Build:
    """The folder of a check. `protocols` are those that are asked, by names, and `named` those of which the program has a class; `entries` are the
    words of the verifier, each with what the user calls it."""

    def __init__(self, place: pathlib.Path, asked: Asked):
        self.place, self.asked = place, asked
        self.folder = place / "folder"
        self.roots = Roots(asked.sources)
        self.files = property_files(asked)
        self.protocols = self.read_protocols()
        self.entries = {ENTRY if is_public(each) else each: each.replace("/", ".") for each in asked.entries}
        self.named: list[str] = []
        self.left_out: list[str] = []
        self.missing: list[str] = []
        self.unpack()
        for name, path in self.files.items():
            shutil.copyfile(path, self.folder / self.property_name(name))
        self.callers = self.write_callers()
        self.providers = providers(asked.places)
        self.put_stubs()

    def read_protocols(self) -> dict[str, Protocol]:
        """The protocols of the property files. One that cannot be read is left to the verifier, which says what is wrong with it."""
        found = {}
        for name, path in self.files.items():
            try:
                found[name] = read_protocol(str(path))
            except Unusable as fault:
                raise Failed(65, f"{fault}; docs/FORMATS.md says how it is written") from fault
        return found

    def property_name(self, name: str) -> str:
        """The name of a property file in the folder."""
        return "property.toml" if len(self.files) == 1 else f"{name}.property.toml"

    def stubs_name(self, name: str) -> str:
        """The name of a protocol's stub file in the folder."""
        return "stubs.toml" if len(self.files) == 1 else f"{name}.stubs.toml"

    def unpack(self) -> None:
        """Puts the class files of the jars and folders into the folder, rewritten where that is asked for."""
        tool = "desugar" if self.asked.desugar else "unpack"
        output = self.place / "unpacked.txt"
        with step("rewriting the class files" if self.asked.desugar else "unpacking"), open(output, "wb") as file:
            ran = subprocess.run([HERE / tool, *self.asked.places, self.folder], stdout=file, check=False)
        lines = output.read_text(encoding="utf-8", errors="replace").splitlines()
        if ran.returncode and not (self.asked.desugar and ran.returncode == SOME_NOT_DONE):
            print(*lines[-5:], sep="\n", file=sys.stderr)
            raise Failed(66, f"{tool} failed, and says above why")
        say(lines[-1].strip())
        self.left_out = [line for line in lines if line.startswith("left out ")]
        if self.asked.desugar:
            say("what is told is told of the class files as tools/desugar wrote them, which is tested and not proved")

    def write_callers(self) -> list[str]:
        """Writes the classes that stand for callers, where the entry is theirs. Their names."""
        if ENTRY not in self.entries:
            return []
        package = self.entries[ENTRY].partition(":")[2].replace(".", "/")
        own = {name for place in self.asked.places for name in class_names(place) if name.startswith(f"{package}/")}
        return write_entry(self.folder, self.asked.jdk, own if package else class_names(self.asked.places[0]))

    def put_stubs(self) -> None:
        """Puts the stub files into the folder: the one that is named, or one for each protocol of which the program has a class."""
        if self.asked.stubs:
            self.named = [name for name, each in self.protocols.items() if self.may_be_there(each.class_name, self.asked.stubs)]
            for name in self.named:
                shutil.copyfile(self.asked.stubs, self.folder / self.stubs_name(name))
            return
        described = self.describe(self.folder, [], str(self.place / "refused.txt"))
        self.named = [name for name in self.files if self.protocols[name] in described.named]
        self.missing = sorted(described.closure.missing)
        self.write_stubs(self.folder, described)

    def may_be_there(self, name: str, stubs: str) -> bool:
        """Whether the program with a stub file, or the JDK, has a class. One of the JDK that is not described is left to the verifier to refuse."""
        program = Program(str(self.folder), [stubs])
        try:
            return name in program.code or name in program.stubs or open_jdk(jdk_folder(self.asked.jdk)).read(name) is not None
        except Unusable:
            return True

    def describe(self, folder: pathlib.Path, also: list[str], refused: str | None) -> Described:
        """Finds what has to be described of a folder; `also` are further classes that may run."""
        words = Stubbing(str(folder), self.asked.jdk, refused, self.asked.drop, True, list(self.entries), list(map(str, self.files.values())), also,
                         refused is None)
        try:
            with step("describing the library"):
                return describe(words)
        except (Unusable, OSError) as fault:
            raise Failed(66, f"no stub file was written: {fault}") from fault

    def write_stubs(self, folder: pathlib.Path, described: Described) -> None:
        """Writes the stub file of each protocol into a folder."""
        try:
            for name in self.named:
                text = written(described, self.protocols[name])
                (folder / self.stubs_name(name)).write_text(text, encoding="utf-8")
        except (Unusable, OSError) as fault:
            raise Failed(66, f"no stub file was written: {fault}") from fault
