"""What the last row and the page of help say of keys."""
from typing import List, Tuple

from front.texts import columns
from front.view.cells import wrapped

# What the prompt's messages say of its commands, and what is pressed here.
COMMANDS = {
    "`ins` and `del` make room or take it": "i and Del make room or take it", "the same `save` once more": "s and the same name once more",
}
TITLE, BACK = " keys", "any other key goes back"
# The columns of keys in the page of help, and the least ones beside them.
KEYS, LEAST = 10, 20
# The keys that the last row names, the most wanted ones first; it has as many as there is room for.
TREE_KEYS = [
    ("?", "help"), ("q", "quit"), ("f", "fault"), ("e", "edit"), ("s", "save"), ("u", "undo"), ("Tab", "bytes"), ("/", "search"), ("g", "go to"),
    ("arrows", "walk"), ("r", "read ksy again"),
]
BYTES_KEYS = [
    ("?", "help"), ("q", "quit"), ("0-9 a-f", "write"), ("Tab", "tree"), ("i", "insert"), ("Del", "delete"), ("u", "undo"), ("s", "save"), ("/", "search"),
    ("g", "go to"), ("arrows", "walk"),
]
MADE_OF = ("Enter", "what it is made of")
LINES = [
    ("Up Down", "to the row above or below, or the byte; PgUp PgDn a screen, Home End the first and the last one"),
    ("Right Left", "in the tree: opens, or goes in; closes, or goes out. Over bytes: the next one, the one before"),
    ("Enter", "in the tree: opens or closes (+ -), edits a value, goes to what a calculated one is (=) or is made of. Over bytes: to the tree"),
    ("b", "back to where it was before Enter, f, g or / went elsewhere"),
    ("Tab", "from the tree to the bytes, and back: there the node is the one that has the byte"),
    ("e  (E)", "edits the value: a number (31, 0x1f), a member of an enum, true or false, a \"text\", bytes (0a ff). E over bytes too"),
    ("0-9 a-f", "over bytes: two digits write a byte; at the end of the file they add one"),
    ("i", "puts bytes before the cursor or the node: 0a ff, \"text\""),
    ("Del", "takes the byte out; in the tree all bytes of the node"),
    ("u  ctrl-R", "takes the last edit back; makes it again"),
    ("s", "saves: to the file that is named, with Enter"),
    ("f  (F)", "the next fault in the tree, where it arose; F over bytes"),
    ("/", "searches: a name in the tree, else a text in the bytes, else bytes in hex. \"text\" and 0x0aff are only sought in the bytes"),
    ("n", "the next one"),
    ("g", "goes to a path (/a/0, or a name in the node) or a place (31, 0x1f)"),
    ("r", "reads the description again; bytes and edits stay"),
    ("x", "numbers in hex, or not. Places are in hex, without 0x"),
    ("R  D", "takes up the edits of a session that ended without saving; removes them"),
    ("ctrl-L", "draws all again, and asks again what was broken off"),
    ("ctrl-C", "breaks off what takes long, or what is being typed (Esc does that too)"),
    ("q", "leaves; edits that aren't saved are named, and a second q loses them. With --save OUT the bytes are saved there"),
    ("", ""),
    ("marks", "> the chosen row, * another value than before the last edit, [ ] the bytes of the node; + can be opened, = is elsewhere"),
    ("", "calc: calculated, not read. An absent value has no bytes. A fault tells what is wrong, and where that arose"),
]


def lines_of(width: int) -> List[Tuple[str, str]]:
    """The lines of the page of help in a width, with the keys beside the first one of each."""
    found = []
    for key, what in LINES:
        rows = wrapped(what, max(LEAST, width - KEYS - 1), len(what) + 1) or [""]
        found += [(it, row) for it, row in zip([key, *[""] * len(rows)], rows)]
    return found


def by_keys(text: str) -> str:
    """A message of the prompt's, with keys in place of its commands."""
    for command, key in COMMANDS.items():
        text = text.replace(command, key)
    return text


def keys_of(half: str, width: int, is_calculated: bool) -> List[Tuple[str, str]]:
    """The keys of the last row that there is room for; of a calculated value that which leads to what it is made of."""
    found, room = [], width
    keys = BYTES_KEYS if half == "bytes" else TREE_KEYS
    for key, what in [*keys[:2], MADE_OF, *keys[2:]] if is_calculated and half == "tree" else keys:
        room -= columns(f"{key} {what}  ")
        if room < -2:
            break
        found.append((key, what))
    return found
