"""The files that a recipe of docs/CONTRIBUTING.md names, beside those of its patch.

The row of a recipe has a link to its patch, `[NAME.patch](changes/NAME.patch)`, and between backquotes the files that the patch changes and nothing else.
A path is from the top of the repository where its first folder is there, and else from the folder of the crate that is named last before it, as `ksv_x:`.
"""
from __future__ import annotations

import os
import re
from typing import Optional

from patch import GROUPS, PROGRAM, TOP, Patch

PAGE = "docs/CONTRIBUTING.md"


def row_of(name: str) -> Optional[str]:
    """The row of the page that has a patch; None where there is none."""
    with open(f"{TOP}/{PAGE}", encoding="utf-8") as file:
        return next((row for row in file if row.startswith("| ") and f"(changes/{name}.patch)" in row), None)


def listed(row: str) -> set[str]:
    """The files that a row names."""
    found, crate, top = set(), "", {*os.listdir(TOP)}
    for named, path in re.findall(r"\b(ksv_\w+):|`([^`]+)`", row):
        crate = named or crate
        if path:
            found.add(path if path.split("/")[0] in top else f"crates/{crate}/{path}")
    return found


def difference(patch: Patch) -> str:
    """What the page's row has otherwise than a patch; empty where it has exactly its files."""
    row = row_of(patch.name)
    if row is None:
        return f"{PAGE} has no row with changes/{patch.name}.patch"
    wanted, found = {it.path for it in patch.files}, listed(row)
    more = [f"{PAGE} names {it}, which {patch.name}.patch doesn't change" for it in sorted(found - wanted)]
    return "; ".join(more + [f"{PAGE} doesn't name {it}, which {patch.name}.patch changes" for it in sorted(wanted - found)])


def written(patch: Patch) -> str:
    """The files of a patch as such a row names them: those of the program by their crates, and then the other groups."""
    said = []
    for group in (PROGRAM, *reversed(GROUPS)):
        by_crate: dict[str, list[str]] = {}
        for it in patch.of(group):
            crate, _, path = it.path.partition("/")[2].partition("/") if it.path.startswith("crates/") else ("", "", it.path)
            by_crate.setdefault(crate, []).append(f"`{path}`")
        some = [f"{crate}: {', '.join(paths)}" if crate else ", ".join(paths) for crate, paths in sorted(by_crate.items(), reverse=True)]
        said += [f"{group[:1].upper()}{group[1:]}: {'; '.join(some)}" if group != PROGRAM else "; ".join(some)] if some else []
    return ". ".join([f"[{patch.name}.patch](changes/{patch.name}.patch)", *said])
