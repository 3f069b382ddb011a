"""Commands that look over all that is below a path, and at another file beside this one."""
from typing import TYPE_CHECKING, List

from front import words as reader
from front.commands.writing import read_file
from front.copies import Copy
from front.look import MOST_ASKED, Explorer, Spent
from front.session import Session
from front.survey import cover, differences, faults
from front.words import Word

if TYPE_CHECKING:
    from front.shell import Shell


def show_faults(shell: "Shell", word: str, words: List[Word]) -> None:
    """All faults below a path."""
    path = shell.path(words[0].text if words else ".")
    if len(words) > 1:
        shell.usage(word)
    elif not is_refused(shell, path):
        shell.output.show(faults(shell.explorer(), path))


def is_refused(shell: "Shell", path: str) -> bool:
    """Whether no type has a path, which is told then."""
    line = f"ls {path}"
    told = shell.ask(line)
    if told.startswith("error: "):
        shell.output.show([told, *shell.explained(told, line)])
    return told.startswith("error: ")


def show_cover(shell: "Shell", word: str, words: List[Word]) -> None:
    """The bytes that no member has, and those that two have."""
    if words:
        shell.usage(word)
    else:
        shell.output.show(cover(shell.explorer(), shell.keeper.session.size()))


def show_differences(shell: "Shell", word: str, words: List[Word]) -> None:
    """What differs in another file, by the same description."""
    path = shell.path(words[1].text if len(words) > 1 else ".")
    if not 1 <= len(words) <= 2:
        shell.usage(word)
        return
    if is_refused(shell, path):
        return
    session, found = shell.keeper.session, []
    with Copy(read_file(reader.word_name(words[0]))) as copy:
        other = Session(session.program, copy, session.ksy, lambda: (), shell.signals, shell.output.tell)
        try:
            ours, theirs = shell.explorer(), Explorer(other, MOST_ASKED)
            for it in differences(ours, theirs, path, shell.shown):
                found.append(it)
        except Spent:
            found.append(f"  (there may be more: {MOST_ASKED} questions were asked)")
        finally:
            other.end()
    shell.output.show(found or ["no differences"])
