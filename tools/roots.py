"""The folders in which source files stand."""

import pathlib
from dataclasses import dataclass, field


@dataclass
class Roots:
    """Folders of sources, below which files stand by their packages."""
    folders: list[str] = field(default_factory=list)

    def path(self, file: str) -> str:
        """The path of a source file: in the first folder that has it, or else in the first one; as it is where none is named."""
        if not file or not self.folders:
            return file
        there = next((each for each in self.folders if (pathlib.Path(each) / file).is_file()), self.folders[0])
        return (pathlib.Path(there) / file).as_posix()
