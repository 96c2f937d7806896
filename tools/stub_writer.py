"""Writes the stub file for what a closure found."""

import json
from collections import Counter

from bodies import parameter_types
from class_file import ABSTRACT, INTERFACE, OBJECT, STATIC, in_byte_order
from closure import ENUM, MADE, result_class
from facts import LIBRARY, OF_THE_MACHINE, UNCHECKED

KINDS = {
    "quiet": "it runs no code of the folder",
    "open": "nor that of these arguments, whose types have classes of the folder below them",
    "listed": "it throws nothing but what it declares, and of what the folder catches the unchecked exceptions and those below",
    "fresh": "a new object that it gives was never given before (tools/facts/fresh_results)",
    "wide": "what it gives of the library's own making is of its type's class, or of a class below that the folder names",
    "made": "a class of its own stands for all classes below an abstract type",
    "array": "an array that it gives is an argument, or is new and has no elements",
    "missing": "what it gives or throws of a class that is not there is of no class of the folder",
    "elements": "it keeps an array without its elements",
    "keeps nothing": "it keeps no argument (tools/facts/keeps_nothing)",
    "values": "it does not keep objects of the value classes",
}


def text(value):
    """A text as TOML spells it."""
    return json.dumps(value, ensure_ascii=False)


def texts(values):
    """A list of texts as TOML spells it."""
    return "[" + ", ".join(map(text, values)) + "]"


class Writer:
    """Writes what a closure found, under a protocol if one is known."""

    def __init__(self, closure, values, protocol):
        self.closure, self.values, self.protocol = closure, values, protocol
        self.counts = Counter()
        self.above_own = {above for name in closure.own for above in closure.library_supers(name)} - closure.own.keys()
        self.open = self.above_own - closure.folder.keys()

    # ---- a method

    def arguments(self, name, key, member):
        """The arguments that are objects, each with its type; the receiver is one."""
        own = name[len(MADE):] if name.startswith(MADE) else name
        receiver = [] if member.has(STATIC) else [("this", f"L{own};")]
        kinds = enumerate(parameter_types(key[1]), 1)
        return receiver + [(f"arg{number}", kind) for number, kind in kinds if kind[0] in "L["]

    def class_of(self, name):
        """The class of new objects of a type: one that is made for it, where it is abstract."""
        return MADE + name if name in self.closure.made else name

    def said(self, listed, name, key):
        """What a list of tools/facts says of a method; that of a class that is made stands at the type that it is made for."""
        return self.closure.said(listed, name[len(MADE):] if name.startswith(MADE) else name, key)

    def returns(self, name, key, arguments):
        """The results, and the kinds of what they assume."""
        outcome = key[1][key[1].index(")") + 1:]
        if outcome[0] == "V":
            return ["void"], []
        if outcome[0] == "[":
            same = [word for word, kind in arguments if kind == outcome]
            return same + ["null", f"new:{OBJECT}"], ["array"]
        given = result_class(key[1])
        if given is None:
            return ["prim"], []
        if given in self.closure.missing:
            named = self.closure.named
            kinds = ["missing"] + ["made"] * any(each in self.closure.made for each in named)
            return ["null", f"new:{OBJECT}"] + ["new:" + self.class_of(each) for each in named if each != OBJECT], kinds
        is_fresh = self.is_fresh(name, key)
        wide = self.wide(name, key, given)
        kinds = ["fresh"] * is_fresh + ["wide"] + ["made"] * any(each in self.closure.made for each in [given] + wide)
        same = [] if is_fresh else self.unkept(name, key, arguments, given)
        return same + ["kept"] * (not is_fresh) + ["null"] + ["new:" + self.class_of(each) for each in [given] + wide], kinds

    def unkept(self, name, key, arguments, given):
        """The arguments that a method which keeps nothing may give back: those whose type may have objects of the result's."""
        if self.said("keeps_nothing", name, key) is None:
            return []
        supers = self.closure.library_supers
        return [word for word, kind in arguments if kind[0] == "L" and (kind[1:-1] in [given, *supers(given)] or given in supers(kind[1:-1]))]

    def is_fresh(self, name, key):
        """Whether what a method gives is a new object each time: of a model's native method, by what models promise."""
        if name in self.closure.adopted:
            return name != LIBRARY
        return self.said("fresh_results", name, key) is not None

    def wide(self, name, key, given):
        """The classes below a result's that its objects may be of: those that the folder names, and the protocol's where the result's has an
        event. What gives elements of containers makes no objects with a protocol."""
        closure, protocol = self.closure, self.protocol
        below = [each for each in closure.named if given in closure.library_supers(each)]
        if protocol and given != OBJECT and given in closure.library_supers(protocol.class_name) and self.has_event(given):
            below += [] if protocol.class_name in below or protocol.class_name in closure.own else [protocol.class_name]
        if protocol and self.said("gives_kept", name, key) is not None:
            below = [each for each in below if protocol.class_name not in [each, *closure.library_supers(each)]]
        return below

    def has_event(self, name):
        """Whether a type declares an event of the protocol."""
        ways = [name, *self.closure.library_supers(name)]
        return any(key in self.closure.get(each).methods for each in ways if self.closure.get(each) for key in self.protocol.events)

    def throws(self, name, key, member):
        """The exceptions that a method may throw: those that it declares, and of those that the folder catches the ones below them and the
        unchecked ones; where these are listed, and no object of the folder is called, only such as are listed, or below or above one that is. A
        declared one that is not there may be below any that is caught."""
        closure = self.closure
        declared = [each for each in member.throws if each not in closure.missing]
        is_any = len(declared) < len(member.throws)
        listed = None if self.calls_back(name, key, member) else self.said("throws", name, key)
        caught = [each for each in closure.caught if each not in declared and closure.get(each) and (is_any or self.may_come(each, declared, listed))]
        return [self.class_of(each) for each in declared + caught]

    def calls_back(self, name, key, member):
        """Whether a method may call one of an object of the folder, which may throw what it likes."""
        called = [word.partition(".")[0] for word in self.said("calls", name, key) or [OBJECT]]
        kinds = [kind.lstrip("[") for _, kind in self.arguments(name, key, member)]
        is_given = any(kind[0] == "L" and kind[1:-1] not in self.values for kind in kinds)
        return is_given and any(each in self.above_own and (each != name or self.is_overridden(name)) for each in called)

    def is_overridden(self, name):
        """Whether a class of the folder overrides a method of a class of the library."""
        keys = self.closure.get(name).methods if self.closure.get(name) else {}
        below = [each for each in self.closure.own.values() if name in self.closure.library_supers(each.name)]
        return any(key in keys and not key[0].startswith("<") for each in below for key in each.methods)

    def may_come(self, name, declared, listed):
        """Whether an exception that is caught may come from a method that declares these, and of which these unchecked ones are listed."""
        ways = {name, *self.closure.library_supers(name)}
        if ways & set(declared):
            return True
        if not ways & set(UNCHECKED):
            return False
        if listed is None:
            return not ways & set(OF_THE_MACHINE)
        return any(each in ways or name in self.closure.library_supers(each) for each in listed)

    def keeps(self, name, key, arguments):
        """The arguments that a method keeps, and the kinds of what that assumes. The base stubs give the name of an enum's constant back."""
        is_quiet = name in self.closure.adopted and name != LIBRARY
        if is_quiet or self.said("keeps_nothing", name, key) is not None:
            return [], ["keeps nothing"] if arguments else []
        kept = [word for word, kind in arguments if kind[1:-1] not in self.values or name in (LIBRARY, ENUM)]
        return kept, ["values"] * (len(kept) < len(arguments))

    def method(self, name, key, member):
        """A method: the line of its assumptions, and its table."""
        parts = [f"name = {text(key[0])}", f"descriptor = {text(key[1])}"]
        if member.has(STATIC):
            parts.append("static = true")
        if member.has(ABSTRACT):
            self.counts["abstract"] += 1
            return ["# nothing: what descends from it describes it", "{ " + ", ".join(parts + ["abstract = true"]) + " },"]
        arguments = self.arguments(name, key, member)
        results, kinds = self.returns(name, key, arguments)
        keeps, more = self.keeps(name, key, arguments)
        throws = self.throws(name, key, member)
        parts.append(f"returns = {texts(results)}")
        parts += [f"throws = {texts(throws)}"] if throws else []
        parts += [f"keeps = {texts(keeps)}"] if keeps else []
        return [self.assumes(arguments, kinds + more), "{ " + ", ".join(parts) + " },"]

    def assumes(self, arguments, kinds):
        """The line that says what is assumed of a method, which is counted."""
        found = ["quiet"]
        passed = [word for word, kind in arguments if kind[1:-1] in self.open]
        found += ["open"] if passed else []
        found += ["listed"] + kinds
        found += ["elements"] if any(kind.startswith(("[L", "[[")) for _, kind in arguments) else []
        self.counts.update(found)
        self.counts["concrete"] += 1
        return "# " + ", ".join(f"open ({' '.join(passed)})" if each == "open" else each for each in found if each not in ("quiet", "listed"))

    # ---- a class

    def field(self, key, member):
        """The table of a field."""
        parts = [f"name = {text(key[0])}", f"descriptor = {text(key[1])}"]
        if member.has(STATIC):
            parts.append("static = true")
            holds = result_class(key[1])
            if holds or key[1].startswith("["):
                parts.append(f"holds = {text(self.class_of(holds) if holds else OBJECT)}")
                self.counts["holds"] += 1
        return ["{ " + ", ".join(parts) + " },"]

    def members(self, word, found, spell):
        """A list of methods or fields, in the order of their names."""
        if not found:
            return []
        lines = [line for key in in_byte_order(found) for line in spell(key, found[key])]
        return [f"{word} = ["] + lines + ["]"]

    def head(self, name):
        """The keys of a class beside its members."""
        lines = ["[[class]]", f"name = {text(name)}"]
        if name in self.closure.base or name in self.closure.folder:
            self.counts["patch"] += 1
            return lines + ["patch = true"]
        if name.startswith(MADE):
            of = name[len(MADE):]
            is_interface = self.closure.get(of).has(INTERFACE)
            return lines + [f"interfaces = {texts([of])}" if is_interface else f"super = {text(of)}"]
        found = self.closure.get(name)
        lines += [f"super = {text(found.super_class)}"] if found.super_class != OBJECT else []
        lines += [f"interfaces = {texts(found.interfaces)}"] if found.interfaces else []
        return lines + (["interface = true"] if found.has(INTERFACE) else [])

    def one_class(self, name):
        """The table of a class, with its members."""
        methods, fields = self.closure.methods.get(name, {}), self.closure.fields.get(name, {})
        lines = self.members("method", methods, lambda key, member: self.method(name, key, member))
        return self.head(name) + lines + self.members("field", fields, self.field)

    def whole(self, jdk, refused):
        """The stub file; `refused` are the lines on what the verifier refuses of the folder."""
        closure = self.closure
        names = in_byte_order(closure.classes | set(closure.methods) | {MADE + name for name in closure.made})
        body = [line for name in names for line in self.one_class(name)]
        return "\n".join(self.introduction(jdk, len(names), refused) + ["version = 1"] + ([] if names else ["class = []"]) + body) + "\n"

    def introduction(self, jdk, classes, refused):
        """The comment that stands first: what is assumed, and how often."""
        counts, closure = self.counts, self.closure
        lines = [
            f"Written by tools/stubs, from the library of Java {jdk}: {classes} entries, of which {counts['patch']} patch "
            "a class",
            f"and {len(closure.made)} are made ({MADE}..) for abstract types. {counts['concrete']} methods are described, and "
            f"{counts['abstract']} are abstract.",
            f"{len(closure.adopted)} classes of models stand in the folder.",
            "Of each method that is described the line above it says what is assumed; quiet and listed are all:",
            *(f"{kind} {counts[kind]}: {says}" for kind, says in KINDS.items()),
            "Beside that is assumed of the library: its initialisers do nothing;",
            f"{counts['holds']} static fields hold from the start an object of their type's class, or of one made for it.",
            f"Not described: {len(closure.left_out)} methods finalize and fillInStackTrace, and those of the classes in tools/facts/left_out;",
            f"{len(closure.base_fields)} fields of classes of the base stubs, and {len(closure.object_fields)} that hold objects of the library.",
            "What the verifier refuses of the folder where it may run, by reasons (--refused FILE lists all of it):",
            *(refused or ["none"]),
        ]
        return ["# " + line for line in lines]
