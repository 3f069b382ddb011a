"""The pictures of the view in pages: each is a block of text that begins with the line of three backquotes and `view NAME`. The first one of README.md is
one."""
import os
import re
from typing import Dict, Iterator, Tuple

from front.opening import TOP, Opened
from front.signals import Signals
from front.view.cells import plain
from front.view.desk import Desk

PAGES = ("docs/SHELL.md", "README.md")
# Names, and for each the example, rows and columns, and keys.
PICTURES: Dict[str, Tuple[str, int, int, str]] = {
    "icon": ("ico", 16, 80, "f"),
    "fault": ("ico", 24, 80, "f"),
    "edited": ("ico", 24, 80, "f e 2 2 enter down down right"),
    "bytes": ("fat16", 20, 100, "g / f a t s / 0 / n e x t / 2 enter tab"),
}
BLOCK = re.compile(r"(?ms)^```view (\w+)\n(.*?)^```$")


def picture(name: str) -> str:
    """The rows of a picture."""
    example, rows, columns, keys = PICTURES[name]
    with Signals() as signals, Opened((f"examples/{example}.bin", f"examples/{example}.ksy", None), signals, lambda _: None) as opened:
        desk = Desk(opened, [], rows, columns)
        for it in keys.split():
            desk.screen()
            desk.key(it)
        found = [plain(it).rstrip() for it in desk.screen().rows]
        opened.keeper.close(False)
    return "".join(f"{it}\n" for it in found)


def texts() -> Iterator[Tuple[str, str]]:
    """The pages, and their texts."""
    for page in PAGES:
        if os.path.exists(f"{TOP}/{page}"):
            with open(f"{TOP}/{page}", encoding="utf-8") as file:
                yield page, file.read()


def compared() -> Iterator[str]:
    """Whether each picture is as it is drawn now, and each is in a page."""
    seen = set()
    for page, text in texts():
        for name, rows in BLOCK.findall(text):
            seen.add(name)
            yield "" if name in PICTURES and picture(name) == rows else f"{page}: the picture `{name}` is another one; `.ci/view --write` makes it"
    yield "" if first_of("README.md").startswith("view ") else "README.md: its first picture isn't one of the view"
    yield "" if seen == set(PICTURES) else f"pictures in no page: {set(PICTURES) - seen}"


def first_of(page: str) -> str:
    """What the first block of a page begins with."""
    found = re.search(r"(?m)^```(.+)$", dict(texts())[page])
    return found[1] if found else ""


def write() -> None:
    """Makes the pictures in pages anew."""
    for page, text in texts():
        made = BLOCK.sub(lambda it: f"```view {it[1]}\n{picture(it[1])}```", text)
        if made != text:
            with open(f"{TOP}/{page}.new", "w", encoding="utf-8") as file:
                file.write(made)
            os.replace(f"{TOP}/{page}.new", f"{TOP}/{page}")
