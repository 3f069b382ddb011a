"""Commands that hand a question to the program."""
from itertools import islice
from typing import TYPE_CHECKING, Iterator, List

from front import words as reader
from front.look import Spent
from front.lost import Lost
from front.survey import expanded
from front.words import Word

if TYPE_CHECKING:
    from front.shell import Shell

# The most paths that a path with `*` is asked for, and how many others are counted.
MOST_PATHS, MOST_COUNTED = 2000, 100_000


def question(shell: "Shell", word: str, words: List[Word]) -> None:
    """A question of ksv about a path, or about each that a path with `*` is."""
    is_hex = word == "get" and bool(words) and words[0].text == "-x"
    words = words[1:] if is_hex else words
    if len(words) > 1:
        shell.usage(word)
        return
    path = shell.path(words[0].text if words else ".")
    if "*" in path.split("/"):
        each(shell, word, path, is_hex)
    else:
        shell.asked = path
        shell.reply(f"{word} {path}", is_hex)


def each(shell: "Shell", word: str, path: str, is_hex: bool) -> None:
    """The same question about each path that a path with `*` for steps is, a line each."""
    shell.output.show(rows_of(shell, word, path, is_hex))


def rows_of(shell: "Shell", word: str, path: str, is_hex: bool) -> Iterator[str]:
    """A line for each path, one after another, as there may be many long ones."""
    explorer, lost, count = shell.explorer(), Lost(shell.description()), 0
    paths = expanded(explorer, path)
    try:
        for count, it in enumerate(islice(paths, MOST_PATHS), 1):
            told = explorer.ask(f"{word} {it}")
            was = lost.said(explorer, it, told) if word == "get" else ""
            yield "  ".join(part for part in (it, shell.shown(told, is_hex), was) if part)
        more = sum(1 for _ in islice(paths, MOST_COUNTED + 1))
        if more:
            yield f"  (and {more if more <= MOST_COUNTED else f'more than {MOST_COUNTED}'} more paths)"
        if not count:
            yield f"nothing is at {path}"
    except Spent:
        yield f"  (given up after {explorer.num_asked()} questions)"


def plain(shell: "Shell", word: str, words: List[Word]) -> None:
    """A question of ksv with numbers, or with nothing."""
    shell.reply(" ".join([word, *map(reader.number, words)]))


def numbers(shell: "Shell", word: str, words: List[Word]) -> None:
    """Whether integers are shown as hexadecimal digits from now on."""
    if len(words) != 1 or words[0].text not in ("hex", "decimal"):
        shell.usage(word)
    else:
        shell.is_hex = words[0].text == "hex"


def show_all(shell: "Shell", _word: str, _words: List[Word]) -> None:
    """The last reply whole."""
    shell.output.all()
