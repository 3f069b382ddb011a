"""Leaving with edits that aren't saved: it is told, and the second time they are lost. With `--save` they are saved."""
import os
import tempfile
from typing import Iterator, Optional

from front.view.filing import Leave
from viewed import desks, fresh

EDIT = "tab 1 2"


def content(name: str) -> bytes:
    """The bytes of a file."""
    with open(name, "rb") as file:
        return file.read()


def left(script: str, out: Optional[str] = None) -> str:
    """What the keys of a script come to: the status of who left and whether the edits are kept, or the last row."""
    with desks.opened(*desks.example("ico"), out=out) as desk:
        try:
            return desks.play(desk, script)[-1].strip()
        except Leave as end:
            return f"left {end.status} {end.is_kept}"


def trials() -> Iterator[str]:
    """Ways to leave, and what each must come to."""
    with tempfile.TemporaryDirectory(prefix="ksv-view-leave-") as room, desks.inside(room):
        fresh.apart(room)
        warned, gone = "edits aren't saved: s saves them, q once more loses them", "left 0 False"
        rows = [("q", gone), (f"{EDIT} q", warned), (f"{EDIT} q q", gone), (f"{EDIT} q right q", warned), (f"{EDIT} q enter q", warned),
                (f"{EDIT} q resize=60x14 resize=80x24 q", gone), (f"{EDIT} s ctrl-u :OUT enter q", gone),
                (f"{EDIT} s ctrl-u :OUT enter u q", warned), (f"{EDIT} u q", gone), (f"{EDIT} ctrl-d", warned)]
        for script, wanted in rows:
            own = left(script)
            yield "" if own == wanted else f"{script}: {own!r}, and not {wanted!r}"
        own = left(f"{EDIT} q", "SAVED")
        wanted = fresh.edited(content(desks.example("ico")[0]), ["set 0 12"])
        yield "" if own == gone and os.path.exists("SAVED") and content("SAVED") == wanted else f"--save: {own!r}"
        own = left(f"{EDIT} q", "none/x")
        yield "" if "q once more loses the edits" in own else f"--save to where nothing can be saved: {own!r}"
