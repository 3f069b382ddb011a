"""The crates of crates.txt, the libraries that each uses, and what each took on another machine."""
from __future__ import annotations

import os
from dataclasses import dataclass

TOP = os.path.dirname(os.path.dirname(os.path.dirname(os.path.realpath(__file__))))
MINUTES = f"{TOP}/tools/build/minutes.txt"
# What a crate takes of which nothing is stored: minutes of a processor, and MiB of memory.
UNKNOWN = (2.0, 2500)


@dataclass(frozen=True)
class Crate:
    """A crate: the libraries that it uses, the repository's and the kit's; and what its proof took: minutes of a processor, and the most memory in MiB."""

    name: str
    own: tuple[str, ...]
    of_kit: tuple[str, ...]
    minutes: float = UNKNOWN[0]
    memory: int = UNKNOWN[1]


def stored() -> dict[str, tuple[float, int]]:
    """What proofs took, by the crate's name: minutes of a processor, and MiB. A line of the file is NAME MINUTES MIB; `#` begins a comment."""
    found = {}
    with open(MINUTES, encoding="utf-8") as file:
        for row in file:
            cells = row.split("#")[0].split()
            if len(cells) == 3:
                found[cells[0]] = (float(cells[1]), int(cells[2]))
    return found


def rows(top: str = TOP) -> dict[str, list[str]]:
    """The libraries of each crate, as crates.txt names them."""
    with open(f"{top}/crates.txt", encoding="utf-8") as file:
        lines = [row.split("#")[0].strip() for row in file]
    return {name.strip(): used.split() for name, _, used in (line.partition(":") for line in lines if line)}


def crates(top: str = TOP) -> dict[str, Crate]:
    """All crates, by their names."""
    named, took = rows(top), stored()
    return {
        name: Crate(name, tuple(it for it in used if it in named), tuple(it for it in used if it not in named), *took.get(name, UNKNOWN))
        for name, used in named.items()
    }


def below(names: list[str], known: dict[str, Crate]) -> list[str]:
    """These crates and the libraries below them, each after those that it uses."""
    found: list[str] = []
    for name in names:
        found += [it for it in [*below([*known[name].own], known), name] if it not in found]
    return found
