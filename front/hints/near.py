"""Names that are near each other: one that is meant by another, where no second one is as near."""
from __future__ import annotations

from typing import Iterable, Optional

# How long a name is that is compared, and how many it is compared with.
LONGEST, MOST = 40, 1200


def plain(name: str) -> str:
    """A name without what people write otherwise: large letters, and signs between words."""
    return name.lower().replace("-", "").replace("_", "").replace(" ", "")


def near(name: str, names: Iterable[str]) -> Optional[str]:
    """The one name that is meant; None where none is near, or two are as near."""
    best, found, is_alone = 3, None, True
    if not 1 < len(name) <= LONGEST:
        return None
    limit = 1 if len(name) < 6 else 2
    for count, it in enumerate(names):
        if count >= MOST:
            return None
        far = 0 if plain(it) == plain(name) else apart(name, it, limit)
        if it == name or far > limit:
            continue
        if far < best:
            best, found, is_alone = far, it, True
        elif far == best and it != found:
            is_alone = False
    return found if is_alone else None


def apart(one: str, other: str, limit: int) -> int:
    """How many letters are written otherwise in two names, added, lost, or two in the other order; more than the limit where they are further apart."""
    if abs(len(one) - len(other)) > limit or len(other) < 2 or len(set(one) ^ set(other)) > 2 * limit:
        return limit + 1
    before: list = []
    above = list(range(len(other) + 1))
    for i, letter in enumerate(one, 1):
        row = [i]
        for j, it in enumerate(other, 1):
            cost = min(above[j] + 1, row[j - 1] + 1, above[j - 1] + (letter != it))
            if i > 1 and j > 1 and letter == other[j - 2] and one[i - 2] == it:
                cost = min(cost, before[j - 2] + 1)
            row.append(cost)
        if min(row) > limit:
            return limit + 1
        before, above = above, row
    return above[-1]
