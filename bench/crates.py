"""Builds the small programs of the measuring scripts. Such a program is a crate of its own, in a folder of the system's temporary folder,
beside copies of the crates that it stands on. Which these are is read of the repository's crates.txt: a script names only the crates
that its program uses itself, and what these stand on comes with them.
"""

import pathlib
import shutil
import subprocess
import sys
import tempfile

ROOT = pathlib.Path(__file__).resolve().parent.parent


def listed() -> dict[str, list[str]]:
    """What each crate of the repository stands on, in the order of crates.txt."""
    lines = (line.partition(":") for line in (ROOT / "crates.txt").read_text().splitlines())
    return {name.strip(): names.split() for name, _, names in lines}


def closure(uses: list[str]) -> list[str]:
    """These crates and all that they stand on, in the order of crates.txt; those of other authors after them."""
    below = listed()
    found: list[str] = []
    waiting = list(uses)
    while waiting:
        name = waiting.pop()
        if name not in found:
            found.append(name)
            waiting += below.get(name, [])
    return [name for name in below if name in found] + sorted(name for name in found if name not in below)


def copy(place: pathlib.Path, crates: list[str]) -> None:
    """Puts copies of the crates into a folder, instead of those that are there."""
    for crate in crates:
        for part in ("src", "specs", "proofs"):
            shutil.rmtree(place / "crates" / crate / part, ignore_errors=True)
            if (ROOT / "crates" / crate / part).exists():
                shutil.copytree(ROOT / "crates" / crate / part, place / "crates" / crate / part)
    shutil.copy(ROOT / "HANDLES", place)


def build(script: str, uses: list[str], files: dict[str, str]) -> pathlib.Path:
    """The built program of a script, which uses these crates and has these files."""
    place = pathlib.Path(tempfile.gettempdir()) / f"typestate-bench-{script}"
    name = f"{script}_bench"
    below = listed()
    crates = closure(uses)
    copy(place, [crate for crate in crates if crate in below])
    lines = [f"{crate}: {' '.join(below[crate])}" for crate in crates if crate in below] + [f"{name}: {' '.join(crates)}"]
    (place / "crates.txt").write_text("".join(line + "\n" for line in lines))
    crate = place / "crates" / name
    for part in ("src", "specs", "proofs"):
        shutil.rmtree(crate / part, ignore_errors=True)
    for path, text in files.items():
        (crate / path).parent.mkdir(parents=True, exist_ok=True)
        (crate / path).write_text(text)
    run = subprocess.run(["rt", "run"], cwd=crate, capture_output=True, text=True, check=False)
    if run.returncode != 0:
        sys.exit(f"bench/{script}: the program could not be built\n{run.stdout}{run.stderr}")
    return crate / "out" / name
