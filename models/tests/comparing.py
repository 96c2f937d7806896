"""What the comparisons of models with a JVM have in common: the API of Java SE 8, classes of a user that record the calls of their methods, a JVM
that tells what was called, and what the verifier says of it. A scenario is a static method without parameters, which begins a program."""

import concurrent.futures
import importlib.machinery
import importlib.util
import os
import subprocess
import sys

HERE = os.path.dirname(os.path.realpath(__file__))
MODELS = os.path.join(HERE, "..")
TOP = os.path.join(MODELS, "..")
sys.path.insert(0, os.path.join(TOP, "tools"))
from class_file import ABSTRACT, STATIC

BRIDGE, FINAL, PUBLIC, PROTECTED = 0x0040, 0x0010, 0x0001, 0x0004
PRIMITIVES = {"I": "int", "J": "long", "C": "char", "Z": "boolean", "F": "float", "D": "double", "S": "short", "B": "byte", "V": "void"}
# The classes that record calls, and the one that runs scenarios on a JVM, which no verifier sees.
RECORDERS, RUN = (os.path.join(HERE, "streams", name) for name in ("Recorders.java", "Run.java"))


def api_module():
    """models/check_api, which reads the API of Java SE 8."""
    loader = importlib.machinery.SourceFileLoader("check_api", os.path.join(MODELS, "check_api"))
    module = importlib.util.module_from_spec(importlib.util.spec_from_loader("check_api", loader))
    loader.exec_module(module)
    return module


def types(descriptor):
    """The types of a method's parameters, and that of its result."""
    found, at = [], 1
    while descriptor[at] != ")":
        start = at
        while descriptor[at] == "[":
            at += 1
        at = descriptor.index(";", at) + 1 if descriptor[at] == "L" else at + 1
        found.append(descriptor[start:at])
    return found, descriptor[at + 1:]


def spelled(kind):
    """A type as Java spells it, without its parameters."""
    if kind.startswith("["):
        return spelled(kind[1:]) + "[]"
    return PRIMITIVES.get(kind) or kind[1:-1].replace("/", ".").replace("$", ".")


class Methods:
    """The methods of a class that may be called on its objects, with those from above up to the roots."""

    def __init__(self, api, name, roots=()):
        self.found, self.abstract = {}, api.get(name).has(ABSTRACT)
        todo = [name]
        for each in todo:
            read = api.get(each)
            if each == "java/lang/Object" or not read:
                continue
            self.add({key: member for key, member in read.methods.items()
                      if not key[0].startswith("<") and not member.flags & BRIDGE and member.flags & (PUBLIC | PROTECTED)})
            if each not in roots:
                todo += [above for above in read.supers() if above not in todo]

    def add(self, more):
        """Takes the methods of a class further up, but for those that are there: with the same types, or with those that erasure leaves."""
        there = [(name, types(descriptor)[0]) for name, descriptor in self.found]
        for (name, descriptor), member in more.items():
            kinds, _ = types(descriptor)
            if not any(name == other and len(kinds) == len(own) and all(one in (two, "Ljava/lang/Object;") for one, two in zip(kinds, own))
                       for other, own in there):
                self.found[name, descriptor] = member

    def called(self):
        """Those that scenarios call."""
        return {key: member for key, member in self.found.items() if member.flags & PUBLIC}

    def overridden(self):
        """Those that a class below may override."""
        return {key: member for key, member in self.found.items() if not member.flags & (FINAL | STATIC) and key[0] != "finalize"}


def given(result, kinds):
    """What a recording method gives where nothing above it does: an argument of the type, or nothing."""
    if result == "V":
        return ""
    if result in PRIMITIVES:
        return "return false;" if result == "Z" else f"return ({PRIMITIVES[result]}) -1;"
    return f"return a{kinds.index(result)};" if result in kinds else "return null;"


def below(own, name, constructors, methods, above="super"):
    """A user's class below one of the library, which records the calls of its own methods; `constructors` are the types of their parameters."""
    is_interface = above != "super"
    lines = [f"class {own} {'implements' if is_interface else 'extends'} {spelled('L' + name + ';')}{', ' if is_interface else ' implements '}Seen {{"]
    for kinds in constructors:
        named = ", ".join(f"{kind} p{at}" for at, kind in enumerate(kinds))
        passed = ", ".join(f"p{at}" for at in range(len(kinds)))
        lines.append(f"    {own}({named}) throws Exception {{ super({passed}); }}")
    for (method, descriptor), member in sorted(methods.overridden().items()):
        kinds, result = types(descriptor)
        word = "public" if member.flags & PUBLIC else "protected"
        throws = " throws " + ", ".join(spelled("L" + each + ";") for each in member.throws) if member.throws else ""
        params = ", ".join(f"{spelled(kind)} a{at}" for at, kind in enumerate(kinds))
        call = f"{above}.{method}({', '.join(f'a{at}' for at in range(len(kinds)))});"
        if member.has(ABSTRACT):
            call = given(result, kinds)
        elif result != "V":
            call = "return " + call
        lines.append(f"    {word} {spelled(result)} {method}({params}){throws} {{ new Hit(\"{own} {method}{descriptor}\"); {call} }}")
    return lines + [f"    public void back() {{ new Hit(\"{own} back()V\"); }}", "}"]


def run(words, allowed=(0,), **more):
    """Runs a command that has to end with one of these statuses; gives its output."""
    ran = subprocess.run(words, stdout=subprocess.PIPE, stderr=subprocess.PIPE, text=True, check=False, **more)
    if ran.returncode not in allowed:
        print(f"compare: {' '.join(words[:3])} .. failed:\n{ran.stderr[-3000:]}", file=sys.stderr)
        sys.exit(2)
    return ran.stdout


def compile_java(jdk, into, sources, path=""):
    """Compiles Java files as code of Java 8."""
    words = [os.path.join(jdk, "bin", "javac"), "--release", "8", "-proc:none", "-nowarn", "-Xlint:none", "-Xmaxerrs", "1000", "-d", into]
    run(words + (["-cp", path] if path else []) + sources)


def events(printed):
    """What the JVM said: of each scenario how it ended, and the events."""
    found, current = {}, None
    for line in printed.splitlines():
        parts = line.split("\t")
        if parts[0] == "scenario":
            current = found[parts[1], parts[2]] = (parts[3], set())
        elif parts[0] == "event" and parts[1] != "- -":
            current[1].add(parts[1])
    return found


def observed(java, folder, runner, scenarios, **more):
    """Runs scenarios, each a class, a method and what the data are, on a JVM: how each one ended, and the calls that were recorded. Behind
    one that does not end in time another JVM goes on."""
    path, seen, left = os.path.realpath(folder) + os.pathsep + os.path.realpath(runner), {}, scenarios
    while left:
        lines = "".join(f"{one} {two} {data}\n" for one, two, data in left)
        words = [os.path.join(java, "bin", "java"), "-XX:TieredStopAtLevel=1", "-cp", path, "Run", *(["files"] if "cwd" in more else [])]
        seen.update(events(run(words, allowed=(0, 3), input=lines, **more)))
        left = [each for each in left if each[:2] not in seen]
    return seen


def describe(folder, jdk):
    """Puts models and a stub file into the folder."""
    text = run([os.path.join(TOP, "tools", "stubs"), folder, "--models", "--jdk", jdk])
    with open(os.path.join(folder, "stubs.toml"), "w", encoding="utf-8") as file:
        file.write(text)


def property_file(folder, event):
    """The property in which an event is the error; its name."""
    owner, _, method = event.partition(" ")
    at = method.index("(")
    name = "p" + "".join(each if each.isalnum() else "_" for each in event) + ".toml"
    text = f'version = 1\nclass = "{owner}"\nstates = ["good", "error"]\ninitial = "good"\nerror = "error"\n[[event]]\n' \
           f'name = "{method[:at]}"\ndescriptor = "{method[at:]}"\nnext = ["error", "error"]\n'
    with open(os.path.join(folder, name), "w", encoding="utf-8") as file:
        file.write(text)
    return name


def asked(folder, name, entry):
    """The verifier's status and report of a property and an entry."""
    ran = subprocess.run([os.path.join(TOP, "typestate"), "--classes", folder, "--property", name, "--stubs", "stubs.toml", "--entry", entry],
                         stdout=subprocess.PIPE, stderr=subprocess.DEVNULL, text=True, check=False)
    return ran.returncode, ran.stdout


def verify(folder, name, entry):
    """What the verifier says of a scenario and a property: unproved, where it is or a limit was met; safe; or the refusal."""
    status, report = asked(folder, name, entry)
    return {0: "safe", 1: "unproved"}.get(status) or report.strip() or f"status {status}"


def in_parallel(jobs, task, todo):
    """What a task gives of each, so many at a time."""
    with concurrent.futures.ThreadPoolExecutor(jobs) as pool:
        return list(pool.map(task, todo))


def add_words(parser, what):
    """The words that all comparisons have."""
    parser.add_argument("--jdk", metavar="PATH", help="the JDK that compiles and whose library is described; without it JAVA_HOME, or that of javap")
    parser.add_argument("--java", metavar="PATH", help="the JDK whose JVM runs the scenarios; without it the same")
    parser.add_argument("--only", metavar="NAMES", help=f"these {what} alone, with commas between")
    parser.add_argument("--jobs", type=int, default=os.cpu_count() or 1, help="how many verifiers run at a time")
    parser.add_argument("--keep", metavar="DIR", help="make all files in this new folder, and leave them there")
