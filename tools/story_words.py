"""Methods, local variables, fields and events in the words of a story."""

from bodies import Key
from edges import SLOT, Path
from flows import Flow
from numbering import Method, Numbering
from words import java_method, java_name, java_types


class Names:
    """Says what a story speaks of."""

    def __init__(self, numbering: Numbering):
        self.numbering = numbering

    def brief(self, method: Method) -> str:
        """A method, without its parameters."""
        owner, (name, _) = method
        spelled = {"<init>": f"the constructor of {java_name(owner)}", "<clinit>": f"the static initialiser of {java_name(owner)}"}
        return spelled.get(name, f"{java_name(owner)}.{name}")

    def whole(self, method: Method) -> str:
        """A method, with its parameters."""
        return java_method(method[0], *method[1])

    def event(self, key: Key) -> str:
        """An event."""
        return spelled_event(key)

    def variable(self, flow: Flow, slot: int, offset: int) -> str:
        """A local variable, at an offset: by its name in the source, where the class file has it."""
        named = flow.body.variable(slot, offset)
        if named or (slot == 0 and not flow.body.is_static):
            return named or "this"
        number = flow.parameters.get(slot)
        return f"local {slot}" if number is None else f"the parameter {number}"

    def path(self, flow: Flow, path: Path, offset: int) -> str:
        """An access path that begins at a local variable or at a static field."""
        root = self.variable(flow, path.number, offset) if path.root == SLOT else self.static(path.number)
        fields = ".".join(self.numbering.field(each)[1][0] for each in path.fields)
        if not fields:
            return root
        return f"the field {fields} of {root}" if " " in root else f"{root}.{fields}"

    def static(self, number: int) -> str:
        """A static field."""
        owner, (name, _) = self.numbering.field(number)
        return f"{java_name(owner)}.{name}"


def spelled_event(key: Key) -> str:
    """An event: its name, with its parameters."""
    return f"{key[0]}({java_types(key[1])})"
