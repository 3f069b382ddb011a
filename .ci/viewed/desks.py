"""A session of the view without a terminal, for tests: opened over a file, with keys as words of a script."""
import contextlib
import os
from typing import Iterator, List, Optional, Tuple

from front.opening import TOP, Opened
from front.signals import Signals
from front.view.cells import plain
from front.view.desk import Desk

# The most questions of a walk.
WALKED = 30_000


@contextlib.contextmanager
def opened(file: str, ksy: str, size: Tuple[int, int] = (24, 80), out: Optional[str] = None, signals: Optional[Signals] = None) -> Iterator[Desk]:
    """A desk over a file. Its edits aren't kept."""
    notes: List[str] = []
    with signals or Signals() as heard, Opened((file, ksy, out), heard, notes.append) as found:
        try:
            yield Desk(found, notes, *size, most_walked=WALKED)
        finally:
            found.keeper.close(False)


def example(name: str) -> Tuple[str, str]:
    """The file and the description of an example."""
    return f"{TOP}/examples/{name}.bin", f"{TOP}/examples/{name}.ksy"


def press(desk: Desk, word: str) -> None:
    """Does what a word of a script means: a key, `key*5`, `:letters`, or `resize=60x14`."""
    if word.startswith(":"):
        desk.keys(word[1:])
    elif word.startswith("resize="):
        columns, rows = word[7:].split("x")
        desk.resize(int(rows), int(columns))
    else:
        key, _, count = word.partition("*")
        desk.keys([key] * int(count or 1) if key else [word])


def play(desk: Desk, script: str) -> List[str]:
    """The rows after a script, each of whose keys sees the screen that is drawn after the one before."""
    for it in script.split():
        press(desk, it)
        desk.screen()
    return [plain(it) for it in desk.screen().rows]


@contextlib.contextmanager
def inside(room: str) -> Iterator[None]:
    """While the working folder is another one, so that names of files are of it."""
    was = os.getcwd()
    os.chdir(room)
    try:
        yield
    finally:
        os.chdir(was)
