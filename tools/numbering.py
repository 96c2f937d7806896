"""The numbers of methods and fields in the linked program, by which path edges name them (docs/FORMATS.md, "What is written")."""

from bodies import Key
from class_file import in_byte_order
from library import Unusable
from program import Program
from report import Place
from words import qualified

Method = tuple[str, Key]


class Numbering:
    """Methods and fields class by class, in byte order of the names of classes, and in a class in its order: each stands at its number."""

    def __init__(self, program: Program):
        self.methods: list[Method] = []
        self.fields: list[tuple[str, Key]] = []
        for name in in_byte_order({*program.code, *program.stubs}):
            found = program.code.get(name) or program.stubs[name]
            self.methods += [(name, key) for key in found.methods]
            self.fields += [(name, key) for key in found.fields]

    def method(self, number: int) -> Method:
        """The method of a number."""
        if number >= len(self.methods):
            raise Unusable(f"the report names the method {number}, and the program has {len(self.methods)}: {OTHER_RUN}")
        return self.methods[number]

    def field(self, number: int) -> tuple[str, Key]:
        """The field of a number, with its class."""
        if number >= len(self.fields):
            raise Unusable(f"the report names the field {number}, and the program has {len(self.fields)}: {OTHER_RUN}")
        return self.fields[number]

    def check(self, place: Place) -> None:
        """Sees that the edges of a place name it by the method and the offset of its own line."""
        own: Method = (place.class_name, (place.method, place.descriptor))
        for site in {edge.site for edge in place.edges}:
            found = self.method(site.method)
            if found != own or site.offset != place.offset:
                raise Unusable(f"the report names the place {qualified(own[0], *own[1])}, offset {place.offset}, and below it "
                               f"{qualified(found[0], *found[1])}, offset {site.offset}: {OTHER_RUN}")


OTHER_RUN = "give the folder, the property and the stub file of the run that printed it"
