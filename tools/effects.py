"""What the library could do by calling methods of the program's objects: which methods it can call, and whether a call of one could matter.
It matters where it may lead to an event of the protocol, writes an object into a field or an array, throws an exception of the program's
own, or reaches what is not known. Of the library's own objects of the protocol's class each event matters."""

import tomllib
from dataclasses import dataclass

from bodies import (ARRAY_STORE, CALLS, FIELDS, GETFIELD, CLASS_CONSTANT, INVOKE_SPECIAL, INVOKE_STATIC, NEW, NULL, OBJECT_RETURN, PUTFIELD, PUTSTATIC, THROW, THROWABLE, Body, Key, This,
                    Use, named_type, parameter_types, result_type)
from closure import MADE
from class_file import OBJECT, PRIVATE, BadClassFile, element_class, parse
from facts import CALLERS, LIBRARY, VALUES, WORDS
from library import Unusable
from program import Program
from refusals import FREE_OF_CLASS
from reach import INITIALISER, Method, Reach
from words import java_name


# Classes of reflection and threads: the verifier refuses code that runs and calls them.
REFUSED = ("java/lang/reflect/", "java/lang/invoke/", "java/util/concurrent/", "java/lang/Thread")
# Methods of class objects that are called as those of any object.
OF_EACH_OBJECT = {"toString", "equals", "hashCode"}
# Supertypes that say nothing of what a class may do with an object of the same one.
WITHOUT_KIN = (OBJECT, "java/io/Serializable", "java/lang/Cloneable", "java/lang/Comparable")
CONTAINERS = ("java/lang/Iterable", "java/util/Map", "java/util/Iterator", "java/util/Enumeration", "java/util/Map$Entry")


@dataclass
class Protocol:
    """A property: its class, the names and descriptors of its events, its states by number, the error state, the states to which an event
    leads, one for each state, the state that an object begins in, and what the first comment of its file says."""
    class_name: str
    events: set[Key]
    states: list[str]
    error: str
    next: dict[Key, list[str]]
    initial: str = ""
    says: str = ""


def read_protocol(path: str) -> Protocol:
    """The property of a property file."""
    try:
        with open(path, encoding="utf-8") as file:
            text = file.read()
        table = tomllib.loads(text)
        leads = {(each["name"], each["descriptor"]): each["next"] for each in table["event"]}
        return Protocol(table["class"], set(leads), table["states"], table["error"], leads, table["initial"], first_comment(text))
    except (OSError, UnicodeDecodeError, tomllib.TOMLDecodeError, KeyError, TypeError) as fault:
        raise Unusable(f"{path} is no property file ({fault}): name the one of the run") from fault


def first_comment(text: str) -> str:
    """The comment that a file begins with, as one line."""
    lines = []
    for line in text.splitlines():
        if not line.startswith("#"):
            break
        lines.append(line.lstrip("# "))
    return " ".join(lines)


class Declared:
    """The methods that classes of the library declare, by a JDK, or nothing where there is none."""

    def __init__(self, jdk):
        self.jdk = jdk
        self.known: dict[str, set[Key] | None] = {}

    def keys(self, name: str) -> set[Key] | None:
        """The instance methods of a class of the JDK and of those above it that a class below could override; None where it is not known."""
        if name not in self.known:
            self.known[name] = self.look(name)
        return self.known[name]

    def look(self, name: str) -> set[Key] | None:
        """Looks for them."""
        try:
            data = self.jdk.read(name) if self.jdk else None
            found = parse(data) if data else None
        except BadClassFile:
            found = None
        if found is None:
            return None
        keys = {key for key, each in found.methods.items() if not each.has(PRIVATE) and not each.has(8) and key[0] != "<init>"}
        for above in found.supers():
            keys |= self.keys(above) or set()
        return keys


class Effects:
    """What calls of the library could do in a program of which this may run, under a protocol. To the stages after the first matters more, as
    `is_later` says: when an initialiser runs, and that a text is put where else none is, since a call on null leads nowhere."""

    def __init__(self, reach: Reach, protocol: Protocol, declared: Declared, is_later: bool = False):
        self.reach, self.program, self.protocol, self.declared, self.is_later = reach, reach.program, protocol, declared, is_later
        self.harmless: set[Method] = set()
        self.overriding: dict[str, list[Key]] = {}
        self.opened: dict[tuple[str, str], list[Key]] = {}
        self.inherited: dict[tuple[str, ...], list[str]] = {}
        self.known_calls: dict[tuple[str, Key, tuple[str, ...]], list[Method]] = {}
        self.known_selections: dict[tuple[str, Key, tuple[str, ...]], list[str]] = {}
        self.storing = storing_models(self.program)
        own = [name for name in self.program.code if name not in self.program.models]
        tracked = [name for name in [protocol.class_name, *reach.made, *own] if self.is_tracked(name)]
        self.above_tracked = {OBJECT} | {above for name in tracked for above in self.program.supers(name)}
        self.above_code = {OBJECT} | {above for name in own for above in [name, *self.program.supers(name)]}
        self.thrown = [name for name in own if self.program.is_below(name, THROWABLE)]
        self.dangers: dict[str, dict[Key, str]] = {}
        for name in reach.made:
            found = self.dangers_of(name)
            if found:
                self.dangers[name] = found

    # ---- what the library can call

    def is_tracked(self, name: str) -> bool:
        """Whether objects of a class are of the protocol's class."""
        return self.program.is_below(name, self.protocol.class_name)

    def is_related(self, name: str) -> bool:
        """Whether a variable of this type may hold an object of the protocol's class, or of one below it."""
        return self.is_tracked(name) or name in self.above_tracked

    def dangers_of(self, name: str) -> dict[Key, str]:
        """The methods of objects of a class that the library can call, of which a call matters, each with why."""
        if name not in self.program.code:
            return dict.fromkeys(self.protocol.events, "it is an event") if self.is_tracked(name) else {}
        found = {}
        for key in self.overrides(name):
            for each in self.program.selected(name, key):
                why = self.why(name, each, key)
                if why:
                    found[key] = why
        return found

    def overrides(self, name: str) -> list[Key]:
        """The methods of objects of a class of the folder that the library can call: those that a class of the library above it declares."""
        if name not in self.overriding:
            self.overriding[name] = self.look_for_overrides(name)
        return self.overriding[name]

    def look_for_overrides(self, name: str) -> list[Key]:
        """Looks for them."""
        ways = [name, *self.program.supers(name)]
        keys = [self.declared.keys(each) for each in ways if each in self.program.stubs or each in self.program.models]
        own = dict.fromkeys(key for each in ways if each in self.program.code for key in self.program.keys(each))
        known = [each for each in keys if each is not None]
        if len(known) < len(keys):
            return list(own)
        return [key for key in own if any(key in each for each in known)]

    def why(self, name: str, declaring: str, key: Key) -> str:
        """Why a call of a method on an object of a class matters, or an empty text."""
        if self.is_tracked(name) and key in self.protocol.events:
            return "it is an event"
        if declaring not in self.program.code:
            return ""
        if declaring not in self.program.models and any(self.matters(kind) for kind in self.gives(declaring, key)):
            return "it gives an object of the program"
        return self.harm(declaring, key)

    def gives(self, name: str, key: Key) -> list[str]:
        """The types of the objects that a method of the folder gives, but for those that hold nothing."""
        body = self.program.body(name, key)
        if body is None or named_type(result_type(key[1])) in VALUES | {""}:
            return []
        stacks = [body.takes(use.offset, self.program.join) for use in body.uses() if use.opcode == OBJECT_RETURN]
        return [stack[-1] for stack in stacks if stack and stack[-1] not in VALUES | {NULL}]

    # ---- whether a call matters

    def harm(self, name: str, key: Key) -> str:
        """Why what a method and all that it calls may do matters, or an empty text."""
        made: dict[str, None] = {}
        while True:
            before = len(made)
            found, seen = self.walk((name, key), made)
            if found or len(made) == before:
                if not found and not made:
                    self.harmless |= seen
                return found

    def walk(self, first: Method, made: dict[str, None]) -> tuple[str, set[Method]]:
        """Goes through all that a method calls; `made` takes the classes of new objects that are made nowhere else."""
        seen, ways = {first}, [first]
        for method in ways:
            if method in self.harmless:
                continue
            body = self.program.body(*method)
            if body is None:
                if self.program.is_native(*method) and method[0] not in self.program.models and method[0] != CALLERS:
                    return "it is native", seen
                continue
            if 186 in (opcode for _, opcode in body.instructions()):
                return "it has an invokedynamic", seen
            for use in body.uses():
                found, called = self.of_use(method, body, use, made)
                if found:
                    return found, seen
                ways.extend(each for each in called if each not in seen)
                seen.update(called)
        return "", seen

    def of_use(self, method: Method, body: Body, use: Use, made: dict[str, None]) -> tuple[str, list[Method]]:
        """Why an instruction matters, or else the methods of the folder that it calls."""
        if use.opcode in CALLS:
            return self.of_call(method, body, use, made)
        if use.opcode == NEW and use.owner in self.program.code:
            if use.owner not in self.reach.made:
                made[use.owner] = None
            return "", self.initialisers(use.owner, method)
        stack = body.takes(use.offset, self.program.join)
        if use.opcode == THROW and any(not stack or self.program.is_below(name, stack[-1] or THROWABLE) for name in self.thrown):
            return "it may throw an exception of the program's own", []
        if use.opcode == CLASS_CONSTANT and use.owner in self.program.code:
            return "", self.initialisers(use.owner, method)
        if use.opcode in (PUTFIELD, PUTSTATIC) and self.writes(method, use, stack):
            return "it writes a field", []
        if use.opcode == ARRAY_STORE and stack and stack[-1] not in self.still(method) | {NULL} and not self.is_own_work(method, body):
            return "it writes an array", []
        return "", self.initialisers(use.owner, method) if use.opcode in FIELDS and use.opcode not in (GETFIELD, PUTFIELD) else []

    def writes(self, method: Method, use: Use, stack: list[str]) -> bool:
        """Whether an instruction writes an object into a field, other than a constructor into its own object."""
        kind = named_type(use.descriptor)
        if not kind or kind in self.still(method) or not stack or stack[-1] == NULL:
            return False
        if self.is_later and method == (use.owner, INITIALISER):
            return False
        if method[0] in self.program.models and stack[-1] in self.program.models and ("$" in stack[-1] or stack[-1].startswith("library/")):
            return any(self.program.is_below(name, stack[-1]) for name in self.above_code if name in self.program.code and name not in self.program.models)
        return not (use.opcode == PUTFIELD and len(stack) > 1 and isinstance(stack[-2], This))

    def is_own_work(self, method: Method, body: Body) -> bool:
        """Whether a method is one of a model that works on an array of its own, or of who calls it: none that a program calls to write an array;
        or an initialiser, if only the time when it runs is asked for."""
        if self.is_later and method[1] == INITIALISER:
            return True
        return method[0] in self.program.models and (not body.is_static or method[0].startswith("library/"))

    def still(self, method: Method) -> set[str]:
        """The types of objects that a method may put somewhere without a trace."""
        return VALUES if not self.is_later or method[0] in self.program.models else set()

    def initialisers(self, name: str, method: Method) -> list[Method]:
        """The initialisers that run where a method uses a class first; of those that run otherwise too only the time matters. Those of the
        method's own class have run before."""
        before = {*self.reach.first, method[0], *self.program.supers(method[0])} if self.is_later else self.reach.started
        return [(each, INITIALISER) for each in [name, *self.program.supers(name)] if each not in before and self.program.body(each, INITIALISER)]

    def of_call(self, method: Method, body: Body, use: Use, made: dict[str, None]) -> tuple[str, list[Method]]:
        """Why a call matters, or else the methods of the folder that it calls."""
        key = use.name, use.descriptor
        if use.owner == LIBRARY:
            return "", []
        if key in self.protocol.events and self.is_related(use.owner) and use.opcode != INVOKE_STATIC:
            return f"it may lead to the event {use.name}", []
        called = self.initialisers(use.owner, method) if use.opcode == INVOKE_STATIC else []
        if use.opcode in (INVOKE_STATIC, INVOKE_SPECIAL):
            selected = [self.program.declaring(use.owner, key) or use.owner]
        else:
            selected = self.selects(use.owner, key, made)
        called += [(each, key) for each in selected if each in self.program.code]
        met = [each for each in selected if each not in self.program.code]
        is_model = body.found.name in self.program.models
        if not is_model and self.storing & set(selected) and self.gives_objects(body, use):
            return f"it gives an object to {java_name(selected[0])}.{use.name}", []
        for owner in dict.fromkeys(met):
            why, more = self.of_library(body, use, owner, made)
            if why:
                return why, []
            called += more
        return "", called

    def selects(self, owner: str, key: Key, made: dict[str, None]) -> list[str]:
        """The classes whose method a call may select."""
        if (owner, key, tuple(made)) not in self.known_selections:
            names = [*self.reach.answering.get(key, ()), *made]
            found = [each for name in dict.fromkeys(names) if self.program.is_below(name, owner) for each in self.program.selected(name, key)]
            self.known_selections[owner, key, tuple(made)] = list(dict.fromkeys(found))
        return self.known_selections[owner, key, tuple(made)]

    def of_library(self, body: Body, use: Use, owner: str, made: dict[str, None]) -> tuple[str, list[Method]]:
        """Why a call of a described method matters, or else the methods of the folder that it may call in turn."""
        key = use.name, use.descriptor
        if self.is_later and (owner, use.name) == ("java/lang/Enum", "<init>"):
            return "", []
        calls = self.calls(owner, key)
        if calls is None or self.is_reflective(owner, key):
            return f"it calls {java_name(owner)}.{use.name}", []
        if any(self.is_event_of_library(word) for word in calls):
            return f"{java_name(owner)}.{use.name} may call an event", []
        is_model = body.found.name in self.program.models
        if not is_model and self.copies_elements(body, use, owner):
            return f"{java_name(owner)}.{use.name} may write an array", []
        if not is_model and not self.keeps_nothing(owner, key):
            if any(self.matters(kind) for kind in arguments(body, use, self.program, owner)):
                return f"it gives an object to {java_name(owner)}.{use.name}", []
        return "", list(dict.fromkeys(self.called_back(owner, key, calls, tuple(made)) + self.of_receiver(use, owner, made)))

    def called_back(self, owner: str, key: Key, calls: list[str], made: tuple[str, ...]) -> list[Method]:
        """The methods of the folder that a described method, which may call these, may call on objects of classes that are made; looked for once."""
        if (owner, key, made) not in self.known_calls:
            found: list[Method] = []
            for below in [each for each in [*self.reach.made, *made] if each in self.program.code]:
                for word in self.with_inherited(calls, below):
                    upper, _, name = word.partition(".")
                    keys = self.open_keys(below, upper) if self.program.is_below(below, upper) else []
                    found += [(each, own) for own in keys if not name or own[0] == name for each in self.program.selected(below, own) if each in self.program.code]
            self.known_calls[owner, key, made] = list(dict.fromkeys(found))
        return self.known_calls[owner, key, made]

    def is_reflective(self, owner: str, key: Key) -> bool:
        """Whether a described method may make objects of classes of the program, or is refused in code that runs as reflection or for threads."""
        if owner.startswith(REFUSED) or owner == "java/lang/Class" and key[0] not in FREE_OF_CLASS | OF_EACH_OBJECT:
            return True
        return "Ljava/lang/Class;" in parameter_types(key[1]) or self.program.said("makes_objects", owner, key) is not None

    def is_event_of_library(self, word: str) -> bool:
        """Whether a word of `calls` allows an event of an object that the library has of the protocol's class."""
        upper, _, name = word.partition(".")
        tracked = any(each not in self.program.code and self.is_tracked(each) and self.program.is_below(each, upper) for each in self.reach.made)
        return tracked and (not name or any(name == key[0] for key in self.protocol.events))

    def copies_elements(self, body: Body, use: Use, owner: str) -> bool:
        """Whether a described method gets an array with elements that matter, and may write there."""
        if self.program.said("no_elements", owner, (use.name, use.descriptor)) is not None:
            return False
        is_copy = (owner, use.name) == ("java/lang/System", "arraycopy")
        kinds = arguments(body, use, self.program, owner)
        return any(kind.startswith("[") and self.matters(kind) or is_copy and kind == OBJECT for kind in kinds)

    def of_receiver(self, use: Use, owner: str, made: dict[str, None]) -> list[Method]:
        """The methods of the folder that a described method may call on its own receiver."""
        if use.opcode == INVOKE_STATIC or self.is_alone(owner, (use.name, use.descriptor)):
            return []
        below = [name for name in [*self.reach.made, *made] if name in self.program.code and self.program.is_below(name, owner)]
        return [(each, key) for name in below for key in self.open_keys(name, owner) for each in self.program.selected(name, key) if each in self.program.code]

    def open_keys(self, name: str, owner: str) -> list[Key]:
        """The methods of a class of the folder that override one which a class of the library above it declares."""
        if (name, owner) not in self.opened:
            declared = self.declared.keys(owner.removeprefix(MADE))
            self.opened[name, owner] = [key for key in self.overrides(name) if declared is None or key in declared]
        return self.opened[name, owner]

    def gives_objects(self, body: Body, use: Use) -> bool:
        """Whether a call has an argument, beside the receiver, that matters."""
        return any(self.matters(kind) for kind in arguments(body, use, self.program)[use.opcode != INVOKE_STATIC:])

    def matters(self, kind: str) -> bool:
        """Whether a type may have objects of classes of the folder, or of the protocol's: what a program does with such an object that came
        back is not known."""
        name = element_class(kind) or ""
        return name not in VALUES | {NULL, ""} and (name in self.above_code or self.is_related(name))

    # ---- what the lists say

    def calls(self, owner: str, key: Key) -> list[str] | None:
        """What a described method may call: a list of `CLASS.METHOD` or `CLASS`; None where that is not known."""
        found = self.program.said("calls", owner, key)
        if found is None:
            return None
        kin = [each for each in [owner, *self.program.supers(owner)] if each not in WITHOUT_KIN] if "kin" in found else []
        return [word for word in found if word not in WORDS] + kin

    def with_inherited(self, words: list[str], name: str) -> list[str]:
        """What these words allow of an object of a class of the folder: they themselves, and what methods that it has from the library do in turn,
        as `toString` of Object asks for the hash code."""
        if (name, *words) not in self.inherited:
            found = dict.fromkeys(words)
            for word in (ways := list(words)):
                more = [each for key in self.keys_from_above(name, word) for each in self.calls(name, key) or () if each not in found]
                found.update(dict.fromkeys(more))
                ways.extend(dict.fromkeys(more))
            self.inherited[name, *words] = list(found)
        return self.inherited[name, *words]

    def keys_from_above(self, name: str, word: str) -> list[Key]:
        """The methods that a word names and that a class of the folder has from the library. `equals` and `hashCode` of Object call nothing."""
        upper, _, method = word.partition(".")
        if not method or not self.program.is_below(name, upper):
            return []
        keys = [key for key in self.declared.keys(upper) or () if key[0] == method]
        selected = {key: self.program.selected(name, key) for key in keys}
        return [key for key in keys if not any(each in self.program.code for each in selected[key])
                and not (method in ("equals", "hashCode") and selected[key] == [OBJECT])]

    def is_of_any(self, owner: str, key: Key) -> bool:
        """Whether what a described method calls may be of an object that was not given to the library to keep."""
        return "any" in (self.program.said("calls", owner, key) or ())

    def is_alone(self, owner: str, key: Key) -> bool:
        """Whether a described method calls no method of its own receiver; what is not known is not told twice."""
        found = self.program.said("calls", owner, key)
        return found is None or key[0] == "<init>" or owner == OBJECT or "alone" in found

    def keeps_nothing(self, owner: str, key: Key) -> bool:
        """Whether a described method keeps none of its arguments."""
        return self.program.said("keeps_nothing", owner, key) is not None


def storing_models(program: Program) -> set[str]:
    """The models that put objects into the library's one store: they call its method, or name a model that does."""
    named = {name: program.code[name].methods_named for name in program.models}
    found = {name for name, members in named.items() if any(each[:2] == (LIBRARY, "keep") for each in members)}
    while True:
        more = {name for name, members in named.items() if name not in found and any(each[0] in found for each in members)}
        if not more:
            return found
        found |= more


def arguments(body: Body, use: Use, program: Program, owner: str = "") -> list[str]:
    """The types of the objects that a call takes, the receiver first; its class is below that of the method that is called, if that is known."""
    stack = body.takes(use.offset, program.join)
    kinds = ([] if use.opcode == INVOKE_STATIC else ["L" + (owner or use.owner) + ";"]) + parameter_types(use.descriptor)
    count = sum(2 if kind in "JD" else 1 for kind in kinds)
    found, at = [], len(stack) - count
    for kind in kinds:
        if kind[0] in "L[":
            seen = stack[at] if 0 <= at < len(stack) else ""
            found.append(nearer(seen, named_type(kind), program))
        at += 2 if kind in "JD" else 1
    return found


def nearer(seen: str, declared: str, program: Program) -> str:
    """The narrower one of the type that is seen on the operand stack and of the declared one."""
    if seen == NULL:
        return NULL
    if not seen or seen in "12":
        return declared
    return declared if program.is_below(declared, seen) and declared != OBJECT else seen
