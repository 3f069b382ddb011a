"""The words that the program is called with, as it reads them."""
from __future__ import annotations

from typing import List, NamedTuple, Optional, Sequence


class Arguments(NamedTuple):
    """The plain words, FILE and KSY where all is right, and what `--save` names; the latter is None where it isn't there, or help is asked for."""

    plain: List[str]
    out: Optional[str]


def read(words: Sequence[str]) -> Arguments:
    """Splits words; after `--` each is a plain one."""
    plain: List[str] = []
    out, is_help, rest = None, False, list(words)
    while rest:
        word = rest.pop(0)
        if word == "--":
            plain, rest = plain + rest, []
        elif word == "--save" and rest:
            out = rest.pop(0)
        elif word.startswith("--save="):
            out = word[len("--save=") :]
        elif word in ("--help", "-h"):
            is_help = True
        else:
            plain.append(word)
    return Arguments(plain, None if is_help else out)
