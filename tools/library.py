"""The library as the tools know it: the classes of a JDK, those of a folder, and what the base stubs describe."""

import functools
import mmap
import os
import re
import shutil
import struct
import zipfile

from class_file import BadClassFile, parse

BASE_DOCUMENT = os.path.join(os.path.dirname(os.path.realpath(__file__)), "..", "docs", "BASE_STUBS.md")


class Unusable(Exception):
    """What a user named cannot be used; the text says what to do."""


def jdk_folder(named):
    """The JDK that was named, that of JAVA_HOME, or that of the command javap."""
    found = named or os.environ.get("JAVA_HOME")
    if not found and shutil.which("javap"):
        found = os.path.dirname(os.path.dirname(os.path.realpath(shutil.which("javap"))))
    if not found:
        raise Unusable("no JDK is there: install one, as by 'apt-get install default-jdk-headless', or name one with --jdk PATH, or set "
                       "JAVA_HOME")
    return found


def jdk_version(path):
    """The version of a JDK, as its file `release` has it; without one its path."""
    try:
        with open(os.path.join(path, "release"), encoding="utf-8") as file:
            found = re.search(r'^JAVA_VERSION="(.*)"', file.read(), re.MULTILINE)
    except OSError:
        found = None
    return found.group(1) if found else path


@functools.cache
def open_jdk(path):
    """The classes of a JDK: those of its image, or up to version 8 those of its jars."""
    image = os.path.join(path, "lib", "modules")
    if os.path.isfile(image):
        return Image(image)
    jars = [os.path.join(path, *parts, "rt.jar") for parts in (("jre", "lib"), ("lib",))]
    found = [jar for jar in jars if os.path.isfile(jar)]
    if not found:
        raise Unusable(f"{path} has neither lib/modules nor rt.jar: name the folder of a JDK with --jdk PATH")
    return Jars(os.path.dirname(found[0]))


class Jars:
    """The classes of the jars of a folder."""

    def __init__(self, folder):
        self.entries = {}
        for name in sorted(os.listdir(folder)):
            if name.endswith(".jar"):
                jar = zipfile.ZipFile(os.path.join(folder, name))
                self.entries.update((entry[:-6], (jar, entry)) for entry in jar.namelist() if entry.endswith(".class"))

    def read(self, name):
        """The bytes of a class file, or None."""
        jar, entry = self.entries.get(name, (None, None))
        return jar.read(entry) if jar else None


class Image:
    """The classes of a JDK's image, lib/modules: a table of places, each a list of attributes, and the files behind it."""

    def __init__(self, path):
        with open(path, "rb") as file:
            self.bytes = mmap.mmap(file.fileno(), 0, access=mmap.ACCESS_READ)
        for order in "<>":
            header = struct.unpack_from(order + "7I", self.bytes, 0)
            if header[0] == 0xCAFEDADA:
                self.order = order
                self.index(header)
                return
        raise Unusable(f"{path} is no image of a JDK: name another JDK with --jdk PATH")

    def index(self, header):
        """Finds where the classes of the image are."""
        _, _, _, _, length, places_size, texts_size = header
        offsets = struct.unpack_from(f"{self.order}{length}I", self.bytes, 28 + 4 * length)
        places = 28 + 8 * length
        self.texts = places + places_size
        self.files = self.texts + texts_size
        self.entries = {}
        for offset in offsets:
            place = self.attributes(places + offset)
            if self.text(place.get(4, 0)) == b"class":
                name = self.text(place.get(2, 0)) + b"/" + self.text(place.get(3, 0))
                self.entries.setdefault(name.decode("utf-8", "surrogatepass"), place)

    def attributes(self, at):
        """Numbers by their kinds: 2 is the package, 3 the name, 4 its ending; 5 is where the file is, 6 its size if packed,
        7 its size."""
        found = {}
        while self.bytes[at] >> 3:
            kind, size = self.bytes[at] >> 3, (self.bytes[at] & 7) + 1
            found[kind] = int.from_bytes(self.bytes[at + 1:at + 1 + size], "big")
            at += 1 + size
        return found

    def text(self, offset):
        """The text at an offset of the table of texts."""
        start = self.texts + offset
        return self.bytes[start:self.bytes.find(b"\0", start)]

    def read(self, name):
        """The bytes of a class file, or None."""
        place = self.entries.get(name)
        if place is None:
            return None
        if place.get(6):
            raise Unusable("the JDK's image is packed: name a JDK that is not, with --jdk PATH")
        start = self.files + place.get(5, 0)
        return self.bytes[start:start + place[7]]


def read_folder(folder):
    """The classes of a folder, by their names."""
    found = {}
    for path in sorted(os.path.join(at, name) for at, _, names in os.walk(folder, followlinks=True) for name in names):
        if path.endswith(".class"):
            with open(path, "rb") as file:
                data = file.read()
            try:
                read = parse(data)
            except BadClassFile as fault:
                raise Unusable(f"{path} cannot be read: {fault}; take it out of the folder") from fault
            read.path = path
            found[read.name] = read
    if not found:
        raise Unusable(f"{folder} has no class files: name a folder that has, as tools/unpack writes one")
    return found


class BaseClass:
    """A class that the base stubs describe: its supertypes, its methods, each with whether it is abstract, which are static, the new objects that
    they give, the exceptions that they throw and the arguments that they keep. Methods and fields stand in the order of the document."""

    def __init__(self, supers, is_interface):
        self.supers = supers
        self.is_interface = is_interface
        self.methods = {}
        self.returns = {}
        self.throws = {}
        self.keeps = {}
        self.statics = set()
        self.fields = {}


MESSAGE, CAUSE = "(Ljava/lang/String;)V", "(Ljava/lang/String;Ljava/lang/Throwable;)V"
CONSTRUCTORS = {"-": ["()V"], "message": ["()V", MESSAGE], "cause": ["()V", MESSAGE, CAUSE]}
METHOD = re.compile(r"- `(static )?([^(` ]+)(\([^` ]*)` (.*)")
QUOTED = re.compile(r"`([^`]*)`")


def read_base(path):
    """The classes that the base stubs describe, as their document lists them."""
    base, current = {}, None
    try:
        with open(path, encoding="utf-8") as document:
            lines = document.read().splitlines()
    except OSError as fault:
        raise Unusable(f"{path} cannot be read ({fault.strerror}): run tools/stubs where the repository has its docs") from fault
    for line in lines:
        current = base_line(base, current, line)
    if "java/lang/Object" not in base:
        raise Unusable(f"{path} does not list java/lang/Object: take the file as the repository has it")
    return base


def base_line(base, current, line):
    """Takes a line of the document of the base stubs, and gives the class to which the next lines belong."""
    quoted = QUOTED.findall(line)
    if line.startswith("### "):
        above = [] if quoted[0] == "java/lang/Object" else ["java/lang/Object"]
        base[quoted[0]] = BaseClass(above, False)
        return base[quoted[0]]
    if line.startswith("| `"):
        table_row(base, [cell.strip() for cell in line.strip("|").split("|")])
    elif current and line.startswith("Extends "):
        current.supers = [quoted[0]] + current.supers[1:]
    elif current and line.startswith("Implements "):
        current.supers = current.supers + quoted
    elif current and line.startswith("Static fields"):
        current.fields.update(dict.fromkeys(tuple(each.split(" ")) for each in quoted))
    elif current and METHOD.match(line):
        is_static, name, descriptor, says = METHOD.match(line).groups()
        current.methods[name, descriptor] = says.startswith("abstract")
        current.returns[name, descriptor] = re.findall(r"new:[^ ,]+", says)
        current.keeps[name, descriptor] = re.findall(r"this|arg[0-9]+", says.partition("keeps ")[2])
        current.throws[name, descriptor] = re.findall(r"java/[^ ,]+", says.partition("throws ")[2])
        current.statics.update([(name, descriptor)] if is_static else [])
    return current


def table_row(base, cells):
    """Takes a row of the table of interfaces, or of that of exceptions."""
    name = cells[0].strip("`")
    if cells[2] in CONSTRUCTORS:
        base[name] = BaseClass([cells[1].strip("`")], False)
        base[name].methods = {("<init>", descriptor): False for descriptor in CONSTRUCTORS[cells[2]]}
        return
    above = ["java/lang/Object"] + ([] if cells[1] == "-" else [cells[1].strip("`")])
    base[name] = BaseClass(above, True)
    for method in QUOTED.findall(cells[2]):
        at = method.index("(")
        base[name].methods[method[:at], method[at:]] = True
