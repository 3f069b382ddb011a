"""Keys about files: saving, leaving, reading the description again, and what an ended session left."""
from typing import TYPE_CHECKING

from front.edits import edits_of
from front.journal import removed, sum_of, when
from front.keeper import lefts
from front.save import CHANGED, NotSaved
from front.session import Died, Refused
from front.view import editing
from front.view.help import by_keys

if TYPE_CHECKING:
    from front.view.desk import Desk


class Leave(Exception):
    """The person leaves: the status, whether edits that aren't saved stay in the journal, and what is told once the screen is the terminal's again."""

    def __init__(self, status: int, is_kept: bool, message: str = "") -> None:
        super().__init__(status)
        self.status, self.is_kept, self.message = status, is_kept, message


def ask_name(desk: "Desk") -> None:
    """Asks where to save; what was named with `--save`, or the file itself, is offered."""
    desk.ask_line("save to", desk.opened.out or desk.opened.file)


def save(desk: "Desk", name: str) -> None:
    """Saves to a file."""
    if name:
        is_saved(desk, name)


def is_saved(desk: "Desk", out: str) -> bool:
    """Whether saving to a file went well; what is told of it."""
    opened = desk.opened
    session = opened.keeper.session
    try:
        if "\0" in out:
            raise NotSaved("a file's name has no byte 0")
        content = session.content(0, session.size())
        opened.saver.save(content, out)
    except (Died, NotSaved, OSError, Refused) as error:
        desk.status = 3
        desk.state = desk.state.told(by_keys(str(error)))
        return False
    desk.status = 0
    opened.keeper.saved()
    if opened.out is not None and opened.saver.is_same(out, opened.out):
        desk.at_out = opened.keeper.edits.version
    desk.state = desk.state.told(f"saved {len(content)} bytes to {out}")
    return True


def leave(desk: "Desk") -> None:
    """Leaves; with `--save` the bytes are saved there. Else, where edits aren't saved, that is told, and the next time it leaves."""
    opened = desk.opened
    edits = opened.keeper.edits
    is_owed = desk.at_out != edits.version if opened.out else not edits.is_saved()
    if is_owed and not desk.is_warned:
        if not opened.out:
            desk.is_warned = True
            desk.state = desk.state.told("edits aren't saved: s saves them, q once more loses them")
            return
        if not is_saved(desk, opened.out):
            desk.is_warned = True
            desk.state = desk.state.told(f"{desk.state.message}; q once more loses the edits")
            return
        raise Leave(desk.status, is_kept=False, message=desk.state.message)
    raise Leave(desk.status, is_kept=False)


def reload(desk: "Desk") -> None:
    """Reads the description again."""
    desk.opened.reload()
    editing.changed(desk, (), f"read again: {desk.opened.ksy}")


def recover(desk: "Desk") -> None:
    """Takes up the edits of a session that ended before they were saved."""
    keeper, state = desk.opened.keeper, desk.state
    left = next((it for it in lefts(keeper.file) if not it.is_open), None)
    if not left:
        desk.state = state.told("nothing to recover")
    elif not keeper.edits.is_saved():
        desk.state = state.told("this session has edits of its own: save them, or take them back, and then R")
    else:
        is_changed = left.sum != sum_of(keeper.origin)
        keeper.recover(left)
        desk.at_out = None
        if is_changed:
            desk.opened.saver.know(keeper.file, CHANGED)
        also = f"; {keeper.file} was changed since, this is the session's own" if is_changed else ""
        editing.changed(desk, (), f"took up {edits_of(len(keeper.edits.holding()))}{also}")


def drop(desk: "Desk") -> None:
    """Removes the edits of a session that ended before they were saved."""
    left = next((it for it in lefts(desk.opened.file) if not it.is_open), None)
    if left:
        removed(left.path)
    desk.state = desk.state.told(f"removed: {edits_of(left.count)} of {when(left.time)}" if left else "nothing to remove")
