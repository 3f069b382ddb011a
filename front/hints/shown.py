"""Texts as a terminal may show them: nothing in them moves the cursor or hides what is beside it."""
from __future__ import annotations

# How much of a line is shown.
WIDTH = 160


def visible(text: str, width: int = WIDTH) -> str:
    """The first characters of a text, with spaces for tabs and a mark for what isn't printable."""
    found = "".join(it if it.isprintable() else "\ufffd" for it in text[: width + 1].replace("\t", "    "))
    return found if len(found) <= width else found[:width] + " .."
