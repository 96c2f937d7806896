"""Reads what the tools need of a class file: its version, names, members, where their code lies, and what its constant pool names."""

import struct
from dataclasses import dataclass, field

STATIC, PRIVATE, FINAL, NATIVE = 0x0008, 0x0002, 0x0010, 0x0100
INTERFACE, ABSTRACT, PUBLIC, BRIDGE = 0x0200, 0x0400, 0x0001, 0x0040
OBJECT = "java/lang/Object"

# The sizes of the entries of a constant pool behind their tags (JVMS 4.4); that of a text follows its length.
SIZES = {3: 4, 4: 4, 5: 8, 6: 8, 7: 2, 8: 2, 9: 4, 10: 4, 11: 4, 12: 4, 15: 3, 16: 2, 17: 4, 18: 4, 19: 2, 20: 2}


class BadClassFile(Exception):
    """The bytes are no class file."""


@dataclass
class Member:
    """A field or a method: its access flags, the exceptions that it declares, and the place of its code in the file, with its length."""
    flags: int
    throws: list
    code_at: int = 0
    code_length: int = 0

    def has(self, flag):
        """Whether this access flag is set."""
        return bool(self.flags & flag)


@dataclass
class ClassFile:
    """A class. Members are found by name and descriptor; `fields_named` and `methods_named` are (class, name, descriptor)."""
    version: int
    name: str
    flags: int
    super_class: str
    interfaces: list
    fields: dict
    methods: dict
    classes_named: set = field(default_factory=set)
    fields_named: set = field(default_factory=set)
    methods_named: set = field(default_factory=set)
    pool: dict = field(default_factory=dict)
    path: str = ""
    source: str = ""

    def has(self, flag):
        """Whether this access flag is set."""
        return bool(self.flags & flag)

    def supers(self):
        """The superclass, if there is one, and the interfaces."""
        return ([self.super_class] if self.super_class else []) + self.interfaces


def major_version(data):
    """The major version of a class file, or None where the bytes do not begin one."""
    if len(data) < 8 or data[:4] != b"\xca\xfe\xba\xbe":
        return None
    return struct.unpack_from(">H", data, 6)[0]


def parse(data):
    """The class of a class file's bytes."""
    if major_version(data) is None:
        raise BadClassFile("it does not begin with CAFEBABE")
    try:
        return Reader(data).whole()
    except (struct.error, IndexError, KeyError, TypeError, UnicodeDecodeError) as fault:
        raise BadClassFile("it is cut off or spelled wrongly") from fault


def element_class(name):
    """The class that a Class entry names: of an array that of its elements, if this is a class."""
    if not name.startswith("["):
        return name
    element = name.lstrip("[")
    return element[1:-1] if element.startswith("L") else None


def in_byte_order(names):
    """Names, or tuples of names, in the order of their bytes."""
    spelled = lambda each: each.encode("utf-8", "surrogatepass")
    return sorted(names, key=lambda each: spelled(each) if isinstance(each, str) else tuple(map(spelled, each)))


class Reader:
    """Goes through the bytes of a class file."""

    def __init__(self, data):
        self.data = data
        self.at = 8
        self.pool = {}

    def u2(self):
        """The next number of two bytes."""
        self.at += 2
        return struct.unpack_from(">H", self.data, self.at - 2)[0]

    def u4(self):
        """The next number of four bytes."""
        self.at += 4
        return struct.unpack_from(">I", self.data, self.at - 4)[0]

    def read_pool(self):
        """Reads the constant pool: each entry by its index, as its tag and its bytes."""
        count, index = self.u2(), 1
        while index < count:
            tag = self.data[self.at]
            start = self.at + 1
            size = struct.unpack_from(">H", self.data, start)[0] + 2 if tag == 1 else SIZES[tag]
            self.pool[index] = (tag, self.data[start:start + size])
            self.at = start + size
            index += 2 if tag in (5, 6) else 1

    def text(self, index):
        """The text of an entry."""
        tag, body = self.pool[index]
        if tag != 1:
            raise KeyError(f"entry {index} is no text")
        return body[2:].decode("utf-8", "surrogatepass")

    def class_name(self, index):
        """The class that an entry names."""
        return self.text(struct.unpack(">H", self.pool[index][1])[0])

    def reference(self, body):
        """The class, name and descriptor of a field or a method, from the bytes of its entry."""
        class_index, pair = struct.unpack(">HH", body)
        name, descriptor = struct.unpack(">HH", self.pool[pair][1])
        return self.class_name(class_index), self.text(name), self.text(descriptor)

    def member(self):
        """The next field or method, with its name and descriptor."""
        flags, name, descriptor = self.u2(), self.text(self.u2()), self.text(self.u2())
        found = Member(flags, [])
        for _ in range(self.u2()):
            attribute, length = self.text(self.u2()), self.u4()
            after = self.at + length
            if attribute == "Exceptions":
                found.throws = [self.class_name(self.u2()) for _ in range(self.u2())]
            elif attribute == "Code":
                self.at += 4
                found.code_length = self.u4()
                found.code_at = self.at
            self.at = after
        return (name, descriptor), found

    def members(self):
        """The fields or the methods, which stand next."""
        return dict(self.member() for _ in range(self.u2()))

    def source_file(self):
        """The name of the source file, from the attributes of the class, which stand next."""
        for _ in range(self.u2()):
            attribute, length = self.text(self.u2()), self.u4()
            if attribute == "SourceFile":
                return self.text(self.u2())
            self.at += length
        return ""

    def whole(self):
        """The class, from its constant pool on."""
        self.read_pool()
        flags, this, above = self.u2(), self.u2(), self.u2()
        interfaces = [self.class_name(self.u2()) for _ in range(self.u2())]
        found = ClassFile(major_version(self.data), self.class_name(this), flags,
                          self.class_name(above) if above else "", interfaces, self.members(), self.members())
        found.pool = self.pool
        found.source = self.source_file()
        for tag, body in self.pool.values():
            if tag == 7:
                found.classes_named.add(self.text(struct.unpack(">H", body)[0]))
            elif tag == 9:
                found.fields_named.add(self.reference(body))
            elif tag in (10, 11):
                found.methods_named.add(self.reference(body))
        return found
