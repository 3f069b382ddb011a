"""Commands that change bytes, take changes back, and take up what an ended session left."""
from typing import TYPE_CHECKING, List, Optional

from front import words as reader
from front.edits import edits_of
from front.journal import removed, sum_at, when
from front.keeper import WORDS, lefts
from front.save import CHANGED, look_of
from front.words import Word

if TYPE_CHECKING:
    from front.shell import Shell


def edit(shell: "Shell", word: str, words: List[Word]) -> None:
    """An edit of ksv, which `undo` can take back."""
    line = edit_line(shell, word, words)
    if line is None:
        shell.usage(word)
    else:
        told = shell.made(line)
        shell.output.show([told, *shell.explained(told, line)])


def edit_line(shell: "Shell", word: str, words: List[Word]) -> Optional[str]:
    """The line of an edit; None where it has too few words, or too many."""
    if len(words) < WORDS[word] - 1 or word in ("put", "del") and len(words) > 2:
        return None
    if word == "app":
        return f"app {reader.bytes_of(words)}"
    if word == "put":
        shell.asked = shell.path(words[0].text)
        return f"put {shell.asked} {reader.number(words[1])}"
    return f"{word} {reader.number(words[0])} {reader.number(words[1]) if word == 'del' else reader.bytes_of(words[1:])}"


def undo(shell: "Shell", word: str, words: List[Word]) -> None:
    """Takes the last edit back."""
    if words:
        shell.usage(word)
    elif not shell.keeper.edits.last:
        shell.output.show(["no edit to undo"])
    else:
        taken, told = shell.keeper.undo()
        shell.is_warned = False
        shell.output.show([f"{told}  (took back: {taken.line})"])


def redo(shell: "Shell", word: str, words: List[Word]) -> None:
    """Makes the edit again that was taken back last."""
    if words:
        shell.usage(word)
    elif not shell.keeper.edits.undone:
        shell.output.show(["no edit to redo"])
    else:
        made, told = shell.keeper.redo()
        shell.is_warned = False
        shell.output.show([f"{told}  (again: {made.line})"])


def listed(shell: "Shell", word: str, words: List[Word]) -> None:
    """The edits so far."""
    if words:
        shell.usage(word)
        return
    edits = shell.keeper.edits
    lines = [f"{count:4}  {it.edit.line}" for count, it in enumerate(edits.holding(), 1)]
    if edits.undone:
        lines.append(f"  and {edits.num_undone()} that `redo` makes again")
    shell.output.show(lines + [f"saved: {'yes' if edits.is_saved() else 'no'}"])


def recover(shell: "Shell", word: str, words: List[Word]) -> None:
    """Takes up the edits of a session that ended before they were saved, or removes them."""
    left = next((it for it in lefts(shell.file) if not it.is_open), None)
    if len(words) > 1 or words and words[0].text != "drop":
        shell.usage(word)
    elif not left:
        shell.output.show(["nothing to recover"])
    elif words:
        removed(left.path)
        shell.output.show([f"removed: {edits_of(left.count)} of {when(left.time)}"])
    elif not shell.keeper.edits.is_saved():
        shell.output.show(["this session has edits of its own: save them, or take them back, and then `recover`"])
    else:
        look = look_of(shell.file)
        is_changed = left.sum != sum_at(shell.file)
        told = shell.keeper.recover(left)
        shell.at_out, shell.is_warned = None, False
        shell.saver.know(shell.file, CHANGED if is_changed else look)
        also = f"; {shell.file} was changed since, this is the session's own" if is_changed else ""
        shell.output.show([f"{told}  (took up {edits_of(len(shell.keeper.edits.holding()))}{also})"])
