"""Makes class files (JVMS 4) for the tools and the measuring scripts: a class with fields and with methods of code that is given as
bytes. The constant pool has each entry once, in the order in which they are first asked for.
"""

PUBLIC, STATIC, SUPER, NATIVE = 0x0001, 0x0008, 0x0020, 0x0100
OBJECT = "java/lang/Object"
LAST_VERSION = 52
MOST_ENTRIES = 65_534
MOST_CODE = 65_535

# The opcodes that the made code has (JVMS 6.5).
ACONST_NULL, ICONST_0, ICONST_1, LCONST_0, FCONST_0, DCONST_0 = 0x01, 0x03, 0x04, 0x09, 0x0B, 0x0E
ALOAD_0, ALOAD_1, ASTORE_0, ASTORE_1, POP, POP2, DUP = 0x2A, 0x2B, 0x4B, 0x4C, 0x57, 0x58, 0x59
IFEQ, IFNE, GOTO, TABLESWITCH = 0x99, 0x9A, 0xA7, 0xAA
IRETURN, LRETURN, FRETURN, DRETURN, ARETURN, RETURN = 0xAC, 0xAD, 0xAE, 0xAF, 0xB0, 0xB1
GETSTATIC, PUTSTATIC, GETFIELD, PUTFIELD = 0xB2, 0xB3, 0xB4, 0xB5
INVOKEVIRTUAL, INVOKESPECIAL, INVOKESTATIC, NEW, ATHROW = 0xB6, 0xB7, 0xB8, 0xBB, 0xBF
AASTORE, NEWARRAY, ANEWARRAY = 0x53, 0xBC, 0xBD

# The tags of entries of the constant pool (JVMS 4.4).
TEXT, CLASS, FIELD, METHOD, INTERFACE_METHOD, NAME_AND_TYPE = 1, 7, 9, 10, 11, 12


class TooLarge(Exception):
    """The class would have more entries, or a method more code, than a class file can."""


def u2(number: int) -> bytes:
    """A number in two bytes."""
    return number.to_bytes(2, "big")


def u4(number: int) -> bytes:
    """A number in four bytes."""
    return number.to_bytes(4, "big")


def code_attribute(name: int, stack: int, local: int, code: bytes, handlers: bytes = b"") -> bytes:
    """An attribute of this name's index that has the code, and handlers of eight bytes each (JVMS 4.7.3)."""
    if not 0 < len(code) <= MOST_CODE:
        raise TooLarge(f"{len(code)} bytes of code")
    body = u2(stack) + u2(local) + u4(len(code)) + code + u2(len(handlers) // 8) + handlers + u2(0)
    return u2(name) + u4(len(body)) + body


class ClassMaker:
    """A class that is being made. Up to version 49 a JVM needs no frames where branches lead (JVMS 4.10.2)."""

    def __init__(self, name: str, above: str = OBJECT, version: int = LAST_VERSION, interfaces: tuple[str, ...] = ()) -> None:
        self.name, self.version = name, version
        self.entries: dict[bytes, int] = {}
        self.this, self.above = self.class_entry(name), self.class_entry(above)
        self.interfaces = [self.class_entry(each) for each in interfaces]
        self.fields: list[bytes] = []
        self.methods: list[bytes] = []

    # ---- the constant pool

    def entry(self, content: bytes) -> int:
        """The index of an entry."""
        if content not in self.entries:
            if len(self.entries) >= MOST_ENTRIES:
                raise TooLarge(f"more than {MOST_ENTRIES} entries of the constant pool")
            self.entries[content] = len(self.entries) + 1
        return self.entries[content]

    def text(self, text: str) -> int:
        """The index of a text. Names that tools/class_file.py read are spelled as they were."""
        content = text.encode("utf-8", "surrogatepass")
        return self.entry(bytes([TEXT]) + u2(len(content)) + content)

    def class_entry(self, name: str) -> int:
        """The index of a class."""
        return self.entry(bytes([CLASS]) + u2(self.text(name)))

    def member_entry(self, tag: int, owner: str, name: str, descriptor: str) -> int:
        """The index of a field or a method of a class."""
        pair = self.entry(bytes([NAME_AND_TYPE]) + u2(self.text(name)) + u2(self.text(descriptor)))
        return self.entry(bytes([tag]) + u2(self.class_entry(owner)) + u2(pair))

    # ---- instructions

    def new(self, name: str) -> bytes:
        """Makes an object of a class, and leaves it twice on the stack."""
        return bytes([NEW]) + u2(self.class_entry(name)) + bytes([DUP])

    def access(self, opcode: int, owner: str, name: str, descriptor: str) -> bytes:
        """Reads or writes a field."""
        return bytes([opcode]) + u2(self.member_entry(FIELD, owner, name, descriptor))

    def call(self, opcode: int, owner: str, name: str, descriptor: str, of_interface: bool = False) -> bytes:
        """Calls a method, but not by `invokeinterface`."""
        tag = INTERFACE_METHOD if of_interface else METHOD
        return bytes([opcode]) + u2(self.member_entry(tag, owner, name, descriptor))

    def construct(self, name: str) -> bytes:
        """Makes an object of a class by its constructor without parameters, and leaves it on the stack."""
        return self.new(name) + self.call(INVOKESPECIAL, name, "<init>", "()V")

    # ---- members

    def add_field(self, flags: int, name: str, descriptor: str) -> None:
        """Adds a field."""
        self.fields.append(u2(flags) + u2(self.text(name)) + u2(self.text(descriptor)) + u2(0))

    def add_method(self, flags: int, name: str, descriptor: str, stack: int, local: int, code: bytes,
                   handlers: bytes = b"") -> None:
        """Adds a method with its code."""
        head = u2(flags) + u2(self.text(name)) + u2(self.text(descriptor)) + u2(1)
        self.methods.append(head + code_attribute(self.text("Code"), stack, local, code, handlers))

    def add_native(self, name: str, descriptor: str) -> None:
        """Adds a static native method."""
        self.methods.append(u2(PUBLIC | STATIC | NATIVE) + u2(self.text(name)) + u2(self.text(descriptor)) + u2(0))

    def add_constructor(self, above: str = OBJECT) -> None:
        """Adds a constructor without parameters, which calls that of the superclass."""
        code = bytes([ALOAD_0]) + self.call(INVOKESPECIAL, above, "<init>", "()V") + bytes([RETURN])
        self.add_method(PUBLIC, "<init>", "()V", 1, 1, code)

    def content(self) -> bytes:
        """The class file."""
        head = bytes.fromhex("cafebabe0000") + u2(self.version) + u2(len(self.entries) + 1) + b"".join(self.entries)
        names = u2(PUBLIC | SUPER) + u2(self.this) + u2(self.above) + u2(len(self.interfaces)) + b"".join(map(u2, self.interfaces))
        fields = u2(len(self.fields)) + b"".join(self.fields)
        methods = u2(len(self.methods)) + b"".join(self.methods)
        return head + names + fields + methods + u2(0)
