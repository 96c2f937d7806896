"""Makes the stub file for a folder of class files. What the folder names is looked for once; a stub file is then written for each protocol."""

import os
import sys
from dataclasses import dataclass, field

from closure import Closure
from effects import Protocol, read_protocol
from facts import VALUES
from library import BASE_DOCUMENT, Unusable, jdk_folder, jdk_version, open_jdk, read_base, read_folder
from models import put_models, read_models
from named import named_in, running
from notices import listed, tell_dropped, tell_refused, tell_undescribed
from refusals import Finder, Use, counts, listing, natives
from stub_writer import Writer

LIMIT = 1048576
# Native methods that tools/check puts in place of something: what they stand for is told as a premise.
STAND_INS = ("typestate/Callers.", "typestate/Cut.")


def write_refused(path: str, uses: list[Use], native: list[str]) -> None:
    """Writes the list of what the verifier will refuse."""
    try:
        with open(path, "w", encoding="utf-8", errors="surrogatepass") as file:
            file.write(listing(uses, native))
    except OSError as fault:
        raise Unusable(f"{path} cannot be written ({fault.strerror}): name another file") from fault


@dataclass
class Stubbing:
    """What a stub file is made of: the folder, the JDK, the file for what is refused, whether class files that cannot be linked are deleted,
    whether models are put into the folder, the entries and the property files of the runs, where they are known, further classes that may run, and
    whether nothing is said."""
    folder: str
    jdk: str | None = None
    refused: str | None = None
    drop: bool = False
    models: bool = False
    entries: list[str] = field(default_factory=list)
    properties: list[str] = field(default_factory=list)
    also: list[str] = field(default_factory=list)
    quiet: bool = False


@dataclass
class Described:
    """What was found for a folder: what has to be described, which instructions are refused where they run, what is said of that, the
    version of the JDK, and the protocols of which the program has a class."""
    closure: Closure
    uses: list[Use]
    told: dict[str, list[str]]
    version: str
    named: list[Protocol]


def runs_of(folder: dict, entries: list[str]) -> set[str]:
    """The classes whose code may run from some entry; all where none is known."""
    return set().union(*(running(folder, entry.rpartition(".")[0]) for entry in entries or [""]))


def closure_of(words: Stubbing, jdk: str, models: dict, wanted: list[str]) -> Closure:
    """What the stub file has to describe. Class files that cannot be linked are deleted, if that is asked for."""
    folder = read_folder(words.folder)
    run = runs_of(folder, words.entries) | (set(words.also) & folder.keys())
    uses = named_in(folder[name] for name in run)
    closure = Closure(open_jdk(jdk), folder, read_base(BASE_DOCUMENT), uses, models, run, wanted)
    closure.collect()
    alone = closure.without_supers()
    if not alone or not words.drop:
        return closure
    tell_dropped(closure, alone)
    for name in alone:
        os.remove(closure.folder[name].path)
    return closure_of(words, jdk, models, wanted)


def models_for(words: Stubbing) -> dict:
    """The models, if they are asked for; none where they cannot be compiled, which is said."""
    try:
        return read_models() if words.models else {}
    except Unusable as fault:
        print(f"stubs: without models, so that stubs stand in their place and more is assumed: {fault}", file=sys.stderr)
        return {}


def is_there(closure: Closure, name: str) -> bool:
    """Whether the program, a model, the base stubs or the JDK have a class."""
    return name in closure.base or closure.get(name) is not None


def is_named(closure: Closure, protocol: Protocol) -> bool:
    """Whether a program has a class of which a call may be an event: the protocol's class, or one above it that declares an event. Without one no
    instruction of the program is an event, and none makes an object of the protocol."""
    if not is_there(closure, protocol.class_name):
        return protocol.class_name in closure.missing
    if protocol.class_name in described_by(closure):
        return True
    named = {name for each in [*closure.own.values(), *closure.adopted.values()] for name in each.classes_named}
    return any(each in named and declares(closure, each, protocol) for each in closure.library_supers(protocol.class_name))


def described_by(closure: Closure) -> set[str]:
    """The classes of a program: those of the folder, and those that are described."""
    return closure.classes | closure.folder.keys() | closure.base.keys()


def declares(closure: Closure, name: str, protocol: Protocol) -> bool:
    """Whether a type, or one above it, declares an event."""
    ways = [name, *closure.library_supers(name)]
    return any(key in closure.get(each).methods for each in ways if closure.get(each) for key in protocol.events)


def describe(words: Stubbing) -> Described:
    """Finds what has to be described of a folder, and puts the models that it needs into it; what the verifier will refuse goes to the file that is
    named for it, if one is."""
    jdk = jdk_folder(words.jdk)
    models = models_for(words)
    closure = closure_of(words, jdk, models, [])
    protocols = [read_protocol(path) for path in words.properties]
    named = [each for each in protocols if is_named(closure, each)]
    if not named and closure.missing:
        # Only a run sees whether code that names what is not there is reached.
        named = [each for each in protocols if is_there(closure, each.class_name)]
    wanted = [each.class_name for each in named if is_there(closure, each.class_name)]
    if not described_by(closure).issuperset(wanted):
        closure = closure_of(words, jdk, models, wanted)
    put_models(closure.adopted, words.folder)
    uses, native = Finder(closure).all(), [each for each in natives(closure) if not each.startswith(STAND_INS)]
    if words.refused:
        write_refused(words.refused, uses, native)
    told = counts(uses, native)
    if not words.quiet:
        tell_undescribed(closure)
        tell_refused(told)
    alone = closure.without_supers()
    if alone:
        raise Unusable(f"linking refuses classes of which a supertype is not there ({len(alone)}); unpack the jars that have these "
                       "supertypes too, or delete the classes, as --drop does:" + listed(closure, alone))
    return Described(closure, uses, told, jdk_version(jdk), named)


def written(described: Described, protocol: Protocol | None) -> str:
    """The stub file for what was found, under a protocol if one is known."""
    text = Writer(described.closure, VALUES, protocol).whole(described.version, list(described.told))
    size = len(text.encode("utf-8"))
    if size > LIMIT:
        raise Unusable(f"the stub file would have {size} bytes, and {LIMIT} are read: take classes out of the folder that "
                       "are not run")
    return text


def stub_file(words: Stubbing) -> str:
    """The stub file for a folder, under the one property that is named, if one is."""
    described = describe(words)
    return written(described, read_protocol(words.properties[0]) if words.properties else None)
