"""The damaged examples, repaired by keys alone: what is then saved is what the examples' own readers accept."""
import os
import subprocess
import sys
import tempfile
from typing import Dict, Tuple

from front.opening import TOP
from viewed import desks, fresh

# The keys that mend each file, as a person would press them: to the fault, to what it is made of, the value written over, and to the next fault; and what a
# row then says. In the disk that is the name of a file that was deleted.
REPAIRS: Dict[str, Tuple[str, str]] = {
    "ico": ("f e 2 2 enter f", "no faults"),
    "fat16": ("f enter g :/fats/1/next/2 enter b e 5 enter f", "/root/entries/2/full_name  calculated  fault bad-text"),
    "bson": ("/ :len_document enter e :156 enter n e :56 enter n n e :26 enter f", "no faults"),
}
SAVE = "s :OUT enter"


def checked(name: str, file: str) -> "subprocess.CompletedProcess[str]":
    """What the reader of an example says of a file."""
    return subprocess.run([sys.executable, "-B", f"{TOP}/examples/{name}.py", "check", file], capture_output=True, text=True, check=False)


def repaired(name: str) -> str:
    """What is wrong with a file once it is repaired by keys."""
    file, ksy = desks.example(name)
    if checked(name, file).returncode == 0:
        return f"{name}: its reader finds no damage in it"
    with tempfile.TemporaryDirectory(prefix="ksv-view-repair-") as room, desks.inside(room):
        fresh.apart(room)
        with desks.opened(file, ksy) as desk:
            script, wanted = REPAIRS[name]
            rows = [it.strip() for it in desks.play(desk, script)]
            why = fresh.wrong(desk, desk.screen(), ksy)
            if why or wanted not in rows:
                return f"{name}: after {script}: {why or rows}"
            last = desks.play(desk, SAVE)[-1].strip()
        if not os.path.exists("OUT"):
            return f"{name}: not saved: {last}"
        told = checked(name, f"{room}/OUT")
        return f"{name}: {told.stdout}" if told.returncode else ""

