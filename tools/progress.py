"""Says on a terminal which step of a run goes on, and how far it is, where it takes longer than two seconds. Where standard error is no terminal it
says nothing."""

import contextlib
import sys
import threading
import time
from collections.abc import Iterator

# After so many seconds a step is told, and so often it is told anew.
LONG, AGAIN = 2.0, 1.0


class Progress:
    """The steps that go on, the outermost first, each with how far it is."""

    def __init__(self) -> None:
        self.steps: list[str] = []
        self.width = 0

    def line(self, seconds: float) -> str:
        """What is told."""
        return f"check: {', '.join(self.steps)} ({seconds:.0f} s)"

    def tell(self, seconds: float) -> None:
        """Writes the line over the one before."""
        line = self.line(seconds)
        sys.stderr.write("\r" + line.ljust(self.width))
        sys.stderr.flush()
        self.width = max(self.width, len(line))

    def clear(self) -> None:
        """Takes the line away."""
        if self.width:
            sys.stderr.write("\r" + " " * self.width + "\r")
            sys.stderr.flush()
            self.width = 0

    def watch(self, done: threading.Event, start: float) -> None:
        """Tells the step until it is done."""
        wait = LONG
        while not done.wait(wait):
            self.tell(time.monotonic() - start)
            wait = AGAIN


PROGRESS = Progress()


@contextlib.contextmanager
def step(says: str, part: int = 0, whole: int = 0) -> Iterator[None]:
    """A step, and which part of the whole it is, if there are several."""
    PROGRESS.steps.append(f"{says} {part} of {whole}" if whole > 1 else says)
    done = threading.Event()
    watcher = None
    if len(PROGRESS.steps) == 1 and sys.stderr.isatty():
        watcher = threading.Thread(target=PROGRESS.watch, args=(done, time.monotonic()), daemon=True)
        watcher.start()
    try:
        yield
    finally:
        PROGRESS.steps.pop()
        done.set()
        if watcher is not None:
            watcher.join()
            PROGRESS.clear()
