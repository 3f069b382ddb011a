"""What the shell prints, on a terminal cut to what a person reads, or plainly through a pipe."""
import itertools
import os
import shutil
import sys
from typing import Iterable, Iterator, List, TextIO

from front.texts import Line, Painted, cut, narrow_of, visible

# How much of a line is shown on a terminal, and the least width of a tree's rows.
WIDTH, WIDEST_NAME = 300, 44
# How many lines `all` shows at most, after how many letters no more are kept for it, and how many of the others are counted.
MOST_KEPT, MOST_LETTERS, MOST_COUNTED = 10_000, 1 << 23, 100_000
# How many letters are written at once where there are many.
TOGETHER = 1 << 15


class OutputFailed(Exception):
    """What is printed can't be written any more: nobody reads it, or the disk is full."""


def length(line: Line) -> int:
    """How many letters a line has."""
    return len(line if isinstance(line, str) else line.plain)


def kept(lines: Iterator[Line]) -> List[Line]:
    """The first of some lines, as many as are kept of a reply."""
    found, letters = [], 0
    while len(found) < MOST_KEPT and letters < MOST_LETTERS:
        it = next(lines, None)
        if it is None:
            break
        found.append(it)
        letters += length(it)
    return found


class Output:
    """Where replies go, and the last reply."""

    def __init__(self, stream: TextIO, is_terminal: bool) -> None:
        self.stream, self.is_terminal = stream, is_terminal
        self.is_coloured = is_terminal and "NO_COLOR" not in os.environ and os.environ.get("TERM") != "dumb"
        self.last: List[Line] = []
        is_utf8 = (stream.encoding or "").lower().replace("-", "") == "utf8"
        stream.reconfigure(errors="surrogateescape" if is_utf8 and not is_terminal else "backslashreplace")

    def write(self, text: str) -> None:
        """Writes a text at once."""
        try:
            self.stream.write(text)
            self.stream.flush()
        except OSError as error:
            with open(os.devnull, "wb") as nothing:
                os.dup2(nothing.fileno(), self.stream.fileno())
            raise OutputFailed(str(error)) from error

    def painted(self, line: Line) -> str:
        """A line as it is printed."""
        if isinstance(line, Painted):
            return line.coloured if self.is_coloured else line.plain
        return visible(line) if self.is_terminal else line

    def show(self, lines: Iterable[Line], is_whole: bool = False, is_narrow: bool = False) -> None:
        """Shows lines; on a terminal long ones and many are cut, where that isn't excluded, and `all` shows them whole. Narrow ones have a row each, but for
        those that name a fault."""
        if not self.is_terminal or is_whole:
            some, letters = [], 0  # type: List[str], int
            for it in lines:
                some.append(f"{self.painted(it)}\n")
                letters += len(some[-1])
                if letters > TOGETHER:
                    self.write("".join(some))
                    some, letters = [], 0
            self.write("".join(some))
            return
        lines = iter(lines)
        self.last = kept(lines)
        others = sum(1 for _ in itertools.islice(lines, MOST_COUNTED + 1))
        more = f"{others}" if others <= MOST_COUNTED else f"more than {MOST_COUNTED}"
        size = shutil.get_terminal_size()
        rows, narrow = max(5, size.lines - 3), min(WIDTH, max(WIDEST_NAME, size.columns - 4))
        shown = narrow_of(self.last[:rows], narrow if is_narrow else WIDTH, WIDTH)
        self.write("".join(f"{self.painted(it)}\n" for it in shown))
        if others:
            self.write(f"  (cut: {len(self.last)} lines, which `all` shows, and {more} more)\n")
            self.last.append(f"  (and {more} more)")
        elif shown != self.last:
            self.cut()

    def cut(self) -> None:
        """Tells that the last reply was cut, and how long it is."""
        letters, count = sum(map(length, self.last)), len(self.last)
        self.write(f"  (cut: {count} line{'s' if count > 1 else ''}, {letters} characters; `all` shows them)\n")

    def all(self) -> None:
        """Shows the last reply whole."""
        for it in self.last:
            self.write(f"{self.painted(it)}\n")

    def tell(self, text: str) -> None:
        """Tells the person something that is no reply: on a terminal among the replies, else on standard error."""
        if self.is_terminal:
            self.write(f"  ({visible(text)})\n")
        else:
            print(f"ksv-shell: {visible(text)}", file=sys.stderr, flush=True)
