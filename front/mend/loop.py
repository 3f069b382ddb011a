"""A description is asked about, changed and asked about again, until it loads or a person is needed.

It ends, by this measure, of which each change makes the first part that it changes smaller: how many names and keys aren't known, in the text and in the files
that may be put in; how many `imports` there are; how many places of all other kinds that are changed. A change of a kind removes each place of it, and puts in
none of another kind. Besides, the lines that are read in all rounds together are bounded, and so are the rounds.
"""
from __future__ import annotations

import re
from typing import Callable, Dict, List, NamedTuple, Optional

from front.hints import advice
from front.hints.kinds import Hint
from front.hints.refusal import Refusal
from front.mend import arrays, bits, casts, checks, encodings, enums, floats, imports, keys, names, sizes, texts
from front.mend.change import Change, Found, Need, Overlap, applied, shown
from front.mend.library import MOST, Library
from front.mend.whole import LINES, Whole

# How many rounds there are, and how many lines are read in all of them.
ROUNDS, WORK = 20, 40_000
# What asks the program: it gives the refusal of a text, or None where it loads.
Ask = Callable[[str], Optional[Refusal]]
# The changes of the whole text, by the kinds of hints that they follow.
CHANGES: Dict[str, Callable[[Whole], Found]] = {
    "float": floats.bits, "fraction": floats.fractions, "utf8": encodings.renamed, "encoding": encodings.raw, "low bits": bits.low, "array": arrays.one_by_one,
    "in-enum": enums.members, "choice": texts.quoted, "colon": texts.quoted, "first letter": texts.quoted, "case text": texts.cases, "contents": texts.contents,
    "padding": texts.padded, "padding of none": texts.padded, "checked list": arrays.one_by_one, "cast": casts.left_out, "size of type": sizes.known,
    **dict.fromkeys(("near key", "key as written", "other word", "unread key", "unknown key"), keys.mended),
}
# Those of the names of a line.
NAMES = ("near member", "near enum member", "near enum", "near type", "one byte", "integer type")


class Step(NamedTuple):
    """A change that was made: why, its diff, and what is lost by it."""

    reason: str
    diff: str
    losses: List[str]


class Mended(NamedTuple):
    """What came of a description: its text, the steps, and what is refused of it and why no change is made; `refusal` is None where it loads."""

    text: str
    steps: List[Step]
    refusal: Optional[Refusal]
    why: str


def mend(text: str, ask: Ask, library: Library) -> Mended:
    """Changes a text until it loads or a person is needed."""
    steps: List[Step] = []
    work = 0
    for _ in range(ROUNDS):
        refusal = ask(text)
        if refusal is None:
            found, changed = of_loaded(text)
            if changed == text:
                return Mended(text, steps, None, "")
            steps.append(Step(found.reason.replace("`", ""), shown(text, found), []))
            text = ended_alike(changed, text)
            continue
        work += text.count("\n") + len(text) // 40 + 1
        if len(text) > MOST or work > WORK:
            return Mended(text, steps, refusal, "the description is too long to be changed without one")
        hint = advice.of(text, refusal.line, refusal.code, refusal.text)
        found, changed = of_hint(text, refusal, hint, library)
        if isinstance(found, Need) or changed == text:
            why = found.why if isinstance(found, Need) else ""
            return Mended(text, steps, refusal, f"{hint.text}{'; ' if hint.text and why else ''}{why}".replace("`", ""))
        steps.append(Step(found.reason.replace("`", ""), shown(text, found), [it.replace("`", "") for it in found.losses]))
        text = ended_alike(changed, text)
    return Mended(text, steps, ask(text), "too many changes")


def ended_alike(text: str, before: str) -> str:
    """A changed text with the line ends that it had before, where all were CR LF."""
    return re.sub(r"(?<!\r)\n", "\r\n", text) if 0 < before.count("\n") == before.count("\r\n") else text


def of_loaded(text: str) -> tuple:
    """The change of a text that loads and would have faults that it is known how to avoid, with the text that it makes; or none, with the text as it is."""
    whole = Whole(text) if len(text) <= MOST else None
    for of_faulty in (checks.own, sizes.known) if whole and whole.outline.is_whole else ():
        found = of_faulty(whole)
        if isinstance(found, Change):
            return found, applied(text, found)
    return Need(), text


def of_hint(text: str, refusal: Refusal, hint: Hint, library: Library) -> tuple:
    """The change that a hint says, with the text that it makes; or why there is none, with the text as it is."""
    whole = Whole(text)
    if not whole.outline.is_whole:
        return Need(f"it has more than {LINES:,} lines"), text
    found: Found = Need()
    if hint.kind in CHANGES:
        found = CHANGES[hint.kind](whole)
    elif hint.kind in NAMES:
        found = names.near(whole, refusal.line, hint)
    elif hint.kind in ("imports", "imports of none"):
        found = imports.put_in(whole, library)
    try:
        return (found, applied(text, found)) if isinstance(found, Change) else (found, text)
    except Overlap:
        return Need("two changes are of one place"), text
