"""Commands that look around: places, trees, bytes."""
import re
from typing import TYPE_CHECKING, Callable, Iterator, List, Tuple

from front import words as reader
from front.follow import Follower
from front.look import Explorer, Search, Spent
from front.lost import Lost
from front.session import Died, Refused
from front.survey import expanded
from front.texts import ROW, Line, rows_of_bytes
from front.tree import Tree
from front.words import Word

if TYPE_CHECKING:
    from front.shell import Shell

# The most bytes that `hex` shows, the most steps down of a tree, and after how many lines signals are looked at.
MOST_SHOWN, DEEPEST, LOOKED = 1 << 16, 64, 1000


def go(shell: "Shell", word: str, words: List[Word]) -> None:
    """Goes to an object or a list."""
    to = shell.path(words[0].text) if words else "/"
    told = shell.ask(f"ls {to}")
    if len(words) > 1:
        shell.usage(word)
    elif told.startswith(("members", "[")) or told.startswith("fault") and shell.explorer().children(to):
        shell.place = shell.asked = to
    elif told.startswith(("fault", "error")):
        shell.output.show([told, *shell.explained(told, f"ls {to}")])
    else:
        target = Follower(shell.explorer(), shell.description()).target(to) if told == "no members" else None
        if target:
            shell.place = shell.asked = target
        else:
            shell.output.show([f"{to} has {told}"])


def tree(shell: "Shell", word: str, words: List[Word]) -> None:
    """Members, places and values below a path, or below each that a path with `*` is."""
    depth = reader.place(words[-1]) if words else None
    if depth is not None and (len(words) > 1 or not is_index(shell, depth)):
        words = words[:-1]
    else:
        depth = 2
    if len(words) > 1:
        shell.usage(word)
        return
    found = tree_of(shell)
    found.below_all(expanded(found.explorer, shell.path(words[0].text if words else ".")), min(depth, DEEPEST))
    shell.more = found.more
    shell.output.show(found.rows, is_narrow=True)


def tree_of(shell: "Shell") -> Tree:
    """An empty tree, with a budget of questions."""
    explorer = shell.explorer()
    return Tree(explorer, Follower(explorer, shell.description()), Lost(shell.description()), shell.shown)


def more_of(shell: "Shell", word: str, words: List[Word]) -> None:
    """The next elements of the list that the last tree cut."""
    if words:
        shell.usage(word)
    elif not shell.more:
        shell.output.show(["no list was cut: `tree` shows the first elements of one"])
    else:
        found = tree_of(shell)
        path, start = shell.more
        found.elements(path, start, 1)
        shell.more = found.more
        shell.output.show([f"{path} from {start} on", *found.rows], is_narrow=True)


def is_index(shell: "Shell", number: int) -> bool:
    """Whether a number names an element of the place in the prompt."""
    below = shell.explorer().children(shell.place)
    return isinstance(below, range) and number < len(below)


def reload(shell: "Shell", word: str, words: List[Word]) -> None:
    """Reads the description again. Where it is refused, that is told, and all is as it was."""
    if words:
        shell.usage(word)
        return
    try:
        size = shell.opened.reload()
    except (Died, OSError, Refused) as error:
        shell.output.show([why_not(error, shell.opened.ksy), "  (the description is as it was)"])
        return
    shell.more = None
    shell.output.show([f"ok {size.split()[1]}  (read again: {shell.opened.ksy})"])
    if shell.place != "/" and not shell.explorer().children(shell.place):
        shell.output.show([f"  (nothing is in {shell.place} any more: the place is / now)"])
        shell.place = shell.asked = "/"


def why_not(error: Exception, ksy: str) -> str:
    """Why a description wasn't read again."""
    return f"{ksy}: {error.strerror or 'cannot read'}" if isinstance(error, OSError) else str(error)


def show_bytes(shell: "Shell", word: str, words: List[Word]) -> None:
    """Bytes in rows, with what was asked marked."""
    count = reader.place(words[1]) if len(words) == 2 else 256
    if not 1 <= len(words) <= 2 or count is None:
        shell.usage(word)
        return
    start = reader.place(words[0])
    if start is None:
        shell.asked = shell.path(words[0].text)
        span = shell.explorer().span(shell.asked)
        if not span:
            shell.reply(f"at {shell.asked}")
            return
        start = span[0] // ROW * ROW
        count = count if len(words) == 2 else min(256, max(ROW, -(-(span[1] - start) // ROW) * ROW))
    shell.output.show(rows(shell, start, count))


def rows(shell: "Shell", start: int, count: int) -> List[Line]:
    """The rows of `hex`."""
    some = shell.keeper.session.content(start, min(count, MOST_SHOWN))
    if not some:
        return [f"no bytes from {start} on: {shell.ask('size')}"]
    more = [f"  (the first {MOST_SHOWN} bytes)"] if count > MOST_SHOWN and len(some) == MOST_SHOWN else []
    return [*rows_of_bytes(some, start, shell.explorer().span(shell.asked) or (0, 0)), *more]


def where(shell: "Shell", word: str, words: List[Word]) -> None:
    """The innermost member that has a byte; of bits all that share the byte."""
    place = reader.place(words[0]) if len(words) == 1 else None
    if place is None:
        shell.usage(word)
    elif place >= shell.keeper.session.size():
        shell.output.show([f"no byte {place}: {shell.ask('size')}"])
    else:
        found = Search(shell.explorer(), place).run()
        if not found.best:
            shell.output.show([f"no member has the byte {place}" + (", as far as was searched" if found.cuts else ""), *found.notes()])
            return
        shell.asked = found.best
        paths, notes = sharing(shell, found.best, place)
        explorer, lost = shell.explorer(), Lost(shell.description())
        shell.output.show([f"{it}  {explorer.ask(f'at {it}')}  {with_lost(shell, lost, explorer, it)}" for it in paths] + notes + found.notes())


def with_lost(shell: "Shell", lost: Lost, explorer: Explorer, path: str) -> str:
    """The value at a path, and how it read before its description was mended."""
    told = explorer.value(path)
    return "  ".join(it for it in (shell.shown(told), lost.said(explorer, path, told)) if it)


def sharing(shell: "Shell", path: str, place: int) -> Tuple[List[str], List[str]]:
    """What has bits of a byte, and what is told where it wasn't all found."""
    try:
        return shell.explorer().sharing(path, place), []
    except Spent:
        return [path], ["  (others may have bits of this byte: that many questions are asked at most)"]


def find(shell: "Shell", word: str, words: List[Word]) -> None:
    """Each place of some bytes."""
    digits = reader.bytes_of(words)
    if not re.fullmatch(r"(?:[0-9a-fA-F]{2})+", digits):
        shell.usage(word)
        return
    wanted, content = bytes.fromhex(digits), shell.keeper.session.content(0, shell.keeper.session.size())
    shell.output.show(places_of(wanted, content, shell.signals.look) if wanted in content else ["not found"])


def places_of(wanted: bytes, content: bytes, look: Callable[[], None]) -> Iterator[str]:
    """A line for each place of some bytes. There may be millions, so signals are looked at meanwhile."""
    at, count = content.find(wanted), 0
    while at >= 0:
        yield f"at {at} {at + len(wanted)}  (0x{at:x})"
        at, count = content.find(wanted, at + 1), count + 1
        if count % LOOKED == 0:
            look()
