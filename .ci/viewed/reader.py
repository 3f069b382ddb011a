"""A small reader of a terminal's escapes: bytes in, the rows of its screen out; as much as curses sends to TERM=xterm."""
import re
import unicodedata
from typing import List, Tuple

ESCAPE = re.compile(r"\x1b\[([?>]?)([0-9;]*)([A-Za-z@`])|\x1b([=>78MDEHc])|\x1b[()][A-B0]|\x1b\]([^\x07]*)\x07")


class Reader:
    """A screen of rows and columns, and where its cursor is."""

    def __init__(self, rows: int, columns: int) -> None:
        self.rest, self.colours, self.is_alternate, self.unknown = "", set(), False, []  # type: str, set, bool, List[str]
        self.resize(rows, columns)

    def resize(self, rows: int, columns: int) -> None:
        """An empty screen of another size."""
        self.rows, self.columns = rows, columns
        self.cells = [[" "] * columns for _ in range(rows)]
        self.row, self.column, self.region = 0, 0, (0, rows - 1)

    def feed(self, some: bytes) -> None:
        """Takes what the terminal was sent."""
        text, at = self.rest + some.decode("utf-8", errors="replace"), 0
        self.rest = ""
        while at < len(text):
            if text[at] == "\x1b":
                found = ESCAPE.match(text, at)
                if not found and len(text) - at < 32:
                    self.rest = text[at:]
                    return
                if not found:
                    self.unknown.append(text[at : at + 8])
                    at += 1
                    continue
                self.escape(found)
                at = found.end()
            else:
                self.letter(text[at])
                at += 1

    def letter(self, it: str) -> None:
        """One letter, or a control."""
        if it == "\r":
            self.column = 0
        elif it == "\n":
            self.line_feed()
        elif it == "\b":
            self.column = max(0, self.column - 1)
        elif it == "\t":
            self.column = min(self.columns - 1, self.column // 8 * 8 + 8)
        elif it >= " ":
            self.write(it)

    def write(self, it: str) -> None:
        """A letter at the cursor."""
        if unicodedata.category(it) in ("Mn", "Me") or "\u1160" <= it <= "\u11ff":
            return
        if self.column >= self.columns:
            self.column = 0
            self.line_feed()
        width = 2 if unicodedata.east_asian_width(it) in "WF" else 1
        self.cells[self.row][self.column] = it
        if width == 2 and self.column + 1 < self.columns:
            self.cells[self.row][self.column + 1] = ""
        self.column += width

    def line_feed(self) -> None:
        """Goes down, and moves the rows up at the end."""
        if self.row == self.region[1]:
            self.scroll(1)
        else:
            self.row = min(self.rows - 1, self.row + 1)

    def scroll(self, count: int) -> None:
        """Moves the rows of the region up, or down."""
        top, bottom = self.region
        for _ in range(abs(count)):
            if count > 0:
                del self.cells[top]
                self.cells.insert(bottom, [" "] * self.columns)
            else:
                del self.cells[bottom]
                self.cells.insert(top, [" "] * self.columns)

    def escape(self, found: "re.Match[str]") -> None:
        """One escape."""
        private, digits, word, other, _ = found.groups()
        numbers = [int(it or 0) for it in (digits or "").split(";")]
        if word == "m":
            self.colours |= {it for it in numbers if 30 <= it <= 38 or 40 <= it <= 48}
        elif private:
            self.is_alternate = word == "h" if 1049 in numbers else self.is_alternate
        elif other == "M":
            if self.row == self.region[0]:
                self.scroll(-1)
            else:
                self.row -= 1
        elif word:
            self.moved(word, numbers, max(1, numbers[0]))

    def moved(self, word: str, numbers: List[int], count: int) -> None:
        """One escape of moving, erasing or shifting."""
        row = self.cells[self.row]
        if word in "Hf":
            self.row, self.column = self.within(count - 1, max(1, numbers[1] if len(numbers) > 1 else 1) - 1)
        elif word in "ABCDGd`":
            to = {"A": (self.row - count, self.column), "B": (self.row + count, self.column), "C": (self.row, self.column + count),
                  "D": (self.row, self.column - count), "G": (self.row, count - 1), "`": (self.row, count - 1), "d": (count - 1, self.column)}[word]
            self.row, self.column = self.within(*to)
        elif word == "K":
            begin, end = {0: (self.column, self.columns), 1: (0, self.column + 1), 2: (0, self.columns)}[numbers[0]]
            row[begin:end] = [" "] * (end - begin)
        elif word == "J":
            first = self.row + 1 if numbers[0] == 0 else 0
            if numbers[0] == 0:
                row[self.column :] = [" "] * (self.columns - self.column)
            for it in range(first, self.rows if numbers[0] != 1 else self.row):
                self.cells[it] = [" "] * self.columns
        elif word == "X":
            row[self.column : self.column + count] = [" "] * min(count, self.columns - self.column)
        elif word == "P":
            del row[self.column : self.column + count]
            row += [" "] * (self.columns - len(row))
        elif word == "@":
            row[self.column : self.column] = [" "] * count
            del row[self.columns :]
        elif word in "LM":
            self.shift(count if word == "M" else -count)
        elif word in "ST":
            self.scroll(count if word == "S" else -count)
        elif word == "b":
            for _ in range(count):
                self.write(row[self.column - 1])
        elif word == "r":
            self.region = (count - 1, (numbers[1] if len(numbers) > 1 and numbers[1] else self.rows) - 1)
            self.row, self.column = 0, 0
        elif word not in "hltcn":
            self.unknown.append(word)

    def shift(self, count: int) -> None:
        """Takes rows out at the cursor's, or puts some in."""
        was, self.region = self.region, (self.row, self.region[1])
        self.scroll(count)
        self.region = was

    def within(self, row: int, column: int) -> Tuple[int, int]:
        """A place on the screen."""
        return max(0, min(self.rows - 1, row)), max(0, min(self.columns - 1, column))

    def lines(self) -> List[str]:
        """The rows, without spaces at their ends."""
        return ["".join(it).rstrip() for it in self.cells]
