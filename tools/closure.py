"""Finds which classes and members of the library stubs have to describe for the class files of a folder, and which models it needs."""

import facts
from class_file import ABSTRACT, INTERFACE, NATIVE, OBJECT, PRIVATE, STATIC, BadClassFile, Member, element_class, parse
from library import Unusable

# How the names of classes begin that are made for abstract types of the library.
MADE = "made/"
# What the library calls by itself: each `new` of a class that declares one is refused, so that they stay undescribed.
LEFT_OUT = {("finalize", "()V"), ("fillInStackTrace", "()Ljava/lang/Throwable;")}
# Their methods take any descriptor, and every call of them is refused.
# Methods of the base stubs that give elements, or causes, which may be of the library's own making.
GIVE_ELEMENTS = [("java/util/ArrayList", "get", "(I)Ljava/lang/Object;"), ("java/util/ArrayList$Itr", "next", "()Ljava/lang/Object;"),
                 ("java/lang/Throwable", "getCause", "()Ljava/lang/Throwable;")]
# Methods of the base stubs without a body there, since the library's calls other methods of the same object: that is told as an assumption.
BODIES = [(OBJECT, "toString", "()Ljava/lang/String;"), ("java/io/InputStream", "read", "([B)I"), ("java/io/OutputStream", "write", "([B)V"),
          ("java/util/ArrayList", "equals", "(Ljava/lang/Object;)Z"), ("java/util/ArrayList", "hashCode", "()I")]
ENUM, ENUM_START = "java/lang/Enum", ("<init>", "(Ljava/lang/String;I)V")
POLYMORPHIC = {"java/lang/invoke/MethodHandle", "java/lang/invoke/VarHandle"}


def result_class(descriptor):
    """The class of a method's result, or of a field, if it is one."""
    outcome = descriptor[descriptor.rfind(")") + 1:]
    return outcome[1:-1] if outcome.startswith("L") else None


class Closure:
    """What is described: `classes` are names of classes of the library, `methods` and `fields` stand by class and by
    name and descriptor, and `made` are the abstract types of which results and fields hold objects of a class of their own. `folder` are
    the classes of the folder, with the models that it needs, which are `adopted` too; `wanted` are described in any case; `named` the classes of the library that it
    names in casts, tests and handlers, and `caught` those of handlers."""

    def __init__(self, jdk, folder, base, uses, models, running, wanted=()):
        self.jdk, self.base = jdk, base
        self.folder = dict(folder)
        self.wanted = wanted
        self.own = {name: folder[name] for name in running}
        self.models = {name: each for name, each in models.items() if name not in folder and name not in base}
        self.adopted, self.waiting = {}, list(self.own.values())
        self.read = {**self.models, **folder}
        self.classes, self.made = set(), set()
        self.methods, self.fields = {}, {}
        self.missing, self.missing_members, self.base_fields, self.object_fields = set(), set(), set(), set()
        self.left_out, self.not_described = set(), facts.names_of("left_out")
        self.above, self.library_above, self.found = {}, {}, {}
        self.caught = [name for name in sorted(uses.caught) if name not in folder]
        self.named = [name for name in sorted(uses.named) if name not in folder and not name.startswith("[")]

    # ---- classes

    def get(self, name):
        """The class of a name, as the folder or the library has it; None where neither has it."""
        if name not in self.read:
            data = self.jdk.read(name)
            try:
                self.read[name] = parse(data) if data else None
            except BadClassFile as fault:
                raise Unusable(f"the JDK's class {name} cannot be read ({fault}): name another JDK with --jdk PATH") from fault
        return self.read[name]

    def need(self, name):
        """Describes a class and those above it. Whether it is there."""
        if name in self.folder or name in self.base or name in self.classes:
            return True
        if name in self.models:
            self.adopt(name)
            return True
        if self.get(name) is None:
            self.missing.add(name)
            return False
        self.classes.add(name)
        for above in self.get(name).supers():
            self.need(above)
        return True

    def adopt(self, name):
        """Takes a model into the folder, and the ones above it."""
        self.folder[name] = self.adopted[name] = self.models[name]
        self.waiting.append(self.models[name])
        for above in self.models[name].supers():
            self.need(above)

    def library_supers(self, name):
        """The supertypes that the library, or the folder, gives a class, from the nearest on."""
        if name not in self.library_above:
            self.library_above[name] = self.walk(name, lambda each: self.get(each).supers() if self.get(each) else [])
        return self.library_above[name]

    def program_supers(self, name):
        """The supertypes that the program gives it: those of the base stubs where they describe it."""
        if name not in self.above:
            self.above[name] = self.walk(name, self.direct_supers)
        return self.above[name]

    def direct_supers(self, name):
        """The superclass and the interfaces that the program gives a class."""
        if name in self.base and name not in self.folder:
            return self.base[name].supers
        return self.get(name).supers() if self.get(name) else []

    def walk(self, name, supers):
        """All that is above a class, from the nearest on, where this function gives what is directly above one."""
        found = [name]
        for each in found:
            found.extend(above for above in dict.fromkeys(supers(each)) if above not in found)
        return found[1:]

    # ---- resolution (JVMS 5.4.3.2 to 5.4.3.4)

    def superclasses(self, name):
        """A class and its superclasses, as far as they are there."""
        while name and self.get(name):
            yield name
            name = self.get(name).super_class

    def find_method(self, name, key):
        """The class or interface that declares the method which resolution finds."""
        if (name, key) not in self.found:
            self.found[name, key] = self.look_for_method(name, key)
        return self.found[name, key]

    def look_for_method(self, name, key):
        """Looks for it, by JVMS 5.4.3.3 and 5.4.3.4."""
        for each in self.superclasses(name):
            if key in self.get(each).methods:
                return each
            if key[0] == "<init>":
                return None
        candidates = [each for each in self.library_supers(name) if self.is_candidate(each, key)]
        lowest = [each for each in candidates if not any(each in self.library_supers(other) for other in candidates)]
        concrete = [each for each in lowest if not self.get(each).methods[key].has(ABSTRACT)]
        return (concrete or sorted(lowest) or [None])[0]

    def is_candidate(self, name, key):
        """Whether an interface declares an instance method that a class below it has from there."""
        found = self.get(name)
        if not found or not found.has(INTERFACE) or key not in found.methods:
            return False
        return not found.methods[key].has(STATIC) and not found.methods[key].has(PRIVATE)

    def find_field(self, name, key):
        """The class or interface that declares the field which resolution finds."""
        found = self.get(name)
        if found is None or key in found.fields:
            return name if found else None
        results = (self.find_field(above, key) for above in found.interfaces + [found.super_class] if above)
        return next((each for each in results if each), None)

    # ---- members

    def place(self, name, declaring):
        """The class that describes a method which the library declares there: where the base stubs leave the way up to it
        out, the first of their classes on it."""
        if declaring == name or declaring in self.program_supers(name):
            return declaring
        ways = [each for each in [name] + self.program_supers(name) if each in self.base]
        return next(each for each in ways if declaring in self.library_supers(each))

    def said(self, listed, owner, key):
        """What a list of tools/facts says of a method."""
        return facts.nearest(listed, [owner, *self.library_supers(owner)], key, lambda each: self.get(each) and key in self.get(each).methods)

    def is_described(self, name, key):
        """Whether the stub file or the base stubs describe a method in this class."""
        return key in self.methods.get(name, {}) or (name in self.base and key in self.base[name].methods)

    def describe(self, name, key, member):
        """Describes a method of a class, and the classes that its description mentions."""
        if key in LEFT_OUT or name in self.not_described:
            self.left_out.add((name,) + key)
        elif not self.is_described(name, key):
            self.methods.setdefault(name, {})[key] = member
            if not member.has(ABSTRACT):
                for each in member.throws:
                    self.need(each)
                self.need_object(result_class(key[1]))

    def need_object(self, name):
        """Describes the class of objects that the library hands out, and where it is abstract one made for it."""
        if name and self.need(name) and self.is_abstract(name):
            self.made.add(name)

    def is_abstract(self, name):
        """Whether a class has no objects of its own."""
        return self.get(name).has(ABSTRACT) or self.get(name).has(INTERFACE)

    def method_named(self, name, key):
        """Takes a method that the folder names."""
        if name.startswith("[") or not self.get(name):
            return
        declaring = self.find_method(name, key)
        if declaring is None:
            if name not in POLYMORPHIC and name not in self.folder:
                self.missing_members.add((name,) + key)
        elif not self.has_body(name, declaring):
            self.describe(self.place(name, declaring), key, self.get(declaring).methods[key])

    def has_body(self, name, declaring):
        """Whether the folder has the class where the library declares a method, and the program has it above another one."""
        return declaring in self.folder and (declaring == name or declaring in self.program_supers(name))

    def field_named(self, name, key):
        """Takes a field that the folder names."""
        declaring = None if name.startswith("[") else self.find_field(name, key)
        if declaring is None or declaring in self.folder:
            return
        if declaring in self.base or declaring not in self.program_supers(name) + [name]:
            if declaring not in self.base or key not in self.base[declaring].fields:
                self.base_fields.add((declaring,) + key)
            return
        member = self.get(declaring).fields[key]
        if not member.has(STATIC) and key[1][0] in "L[":
            self.object_fields.add((declaring,) + key)
            return
        self.fields.setdefault(declaring, {})[key] = member
        if member.has(STATIC):
            self.need_object(result_class(key[1]))

    # ---- all of it

    def collect(self):
        """Takes what the folder names, and then the overrides of it, until nothing is new."""
        for each in list(self.folder.values()):
            for name in each.supers():
                self.need(name)
        for name in self.wanted:
            self.need(name)
        for name in self.named:
            self.need_object(name)
        self.names_of_folder()
        self.base_again()
        while self.overrides():
            self.names_of_folder()

    def names_of_folder(self):
        """Takes what classes of the folder name that were not asked yet."""
        while self.waiting:
            each = self.waiting.pop()
            for name in filter(None, map(element_class, each.classes_named)):
                self.need(name)
            for name, *key in each.fields_named:
                self.field_named(name, tuple(key))
            for name, *key in each.methods_named:
                self.method_named(name, tuple(key))
            self.natives(each)

    def base_again(self):
        """Describes methods of the base stubs anew that have no body there, that give what may be of another class in the folder, or that keep too
        little: an enum's constant can be got by its name."""
        for name, *key in BODIES + (GIVE_ELEMENTS if self.named else []):
            self.methods.setdefault(name, {})[tuple(key)] = self.get(name).methods[tuple(key)]
        if any(each.super_class == ENUM for each in self.folder.values()):
            self.methods.setdefault(ENUM, {})[ENUM_START] = self.get(ENUM).methods[ENUM_START]

    def without_supers(self):
        """The classes of the folder that have a supertype which is nowhere, each with the first one."""
        above = {name: [each for each in self.library_supers(name) if each in self.missing] for name in self.folder}
        return {name: missing[0] for name, missing in above.items() if missing}

    def natives(self, found):
        """Describes the native methods of a class of the folder."""
        for key, member in found.methods.items():
            if member.has(NATIVE):
                self.describe(found.name, key, member)

    def size(self):
        """How much is described."""
        return len(self.classes), len(self.made), sum(map(len, self.methods.values()))

    def overrides(self):
        """Describes the overrides of what is described. Whether there are new ones."""
        before = self.size()
        for name in sorted(self.classes) + list(self.base):
            if name not in self.folder:
                self.overrides_in(name)
        for name, found in [*self.own.items(), *self.adopted.items()]:
            if not found.has(INTERFACE):
                self.overrides_for(name)
        for name in sorted(self.made):
            self.implement(name)
        return self.size() != before

    def keys_above(self, supers):
        """The instance methods that are described in one of these classes."""
        found = {}
        for each in supers:
            found.update((key, None) for key, member in self.methods.get(each, {}).items() if not member.has(STATIC))
            found.update((key, None) for key in (self.base[each].methods if each in self.base else {}))
            found.update((key, None) for key, member in (self.adopted[each].methods if each in self.adopted else {}).items()
                         if not member.has(STATIC) and not member.has(PRIVATE))
        return [key for key in found if not key[0].startswith("<")]

    def base_is_abstract(self, name, key):
        """Whether the base stubs leave a method of a class to its descendants."""
        return name in self.base and self.base[name].methods.get(key, False)

    def overrides_in(self, name):
        """Describes the methods of a class of the library that override described ones."""
        supers = self.program_supers(name)
        for key in self.keys_above(supers):
            own = self.get(name).methods.get(key)
            if own:
                if not own.has(STATIC) and not own.has(PRIVATE):
                    self.describe(name, key, own)
            elif not self.get(name).has(INTERFACE):
                self.body_above(name, key, supers)

    def body_above(self, name, key, supers):
        """Describes the body that a class has for a method from above: there, or in the class itself where the base stubs leave
        the class of the body out, or leave it abstract."""
        declaring = self.find_method(name, key)
        if not declaring or self.has_body(name, declaring) or self.get(declaring).methods[key].has(ABSTRACT):
            return
        member = self.get(declaring).methods[key]
        if declaring not in supers:
            self.describe(self.place(name, declaring), key, member)
        elif not self.base_is_abstract(declaring, key):
            self.describe(declaring, key, member)
        elif not self.is_abstract(name) and name not in self.folder:
            self.describe(name, key, member)

    def overrides_for(self, name):
        """Describes the bodies in the library for methods that a class of the folder has from its interfaces."""
        if all(each in self.folder or each == OBJECT for each in self.superclasses(name)):
            return
        supers = self.program_supers(name)
        own = [key for each in supers if each in self.folder for key in self.get(each).methods if self.is_candidate(each, key)]
        for key in dict.fromkeys(own + self.keys_above(supers)):
            self.body_above(name, key, supers)

    def implement(self, name):
        """Describes, in the class that is made for an abstract one, what stays abstract there."""
        for key in self.keys_above([name] + self.program_supers(name)):
            declaring = self.find_method(name, key)
            if declaring and (self.get(declaring).methods[key].has(ABSTRACT) or self.base_is_abstract(declaring, key)):
                member = self.get(declaring).methods[key]
                self.describe(MADE + name, key, Member(member.flags & ~ABSTRACT, member.throws))
