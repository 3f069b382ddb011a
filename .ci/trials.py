"""Whether what hints propose does what they say: each proposal is made, and the program is asked again.

Of the rows of .ci/hints.txt and .ci/mistakes.txt a proposal may not leave the same refusal at the line. Of descriptions that are right but for one mistake, which
mutants.py makes of the examples and of the gallery after bin/ksv-mend, it may leave none at the line or above it; but after some kinds another one, THEN.
"""
from __future__ import annotations

import glob
import os
from typing import Callable, Dict, Iterator, List, NamedTuple, Optional, Sequence, Set, Tuple

import mutants
import proposals
from front.hints import advice
from front.hints.kinds import KINDS, Hint
from front.hints.refusal import Refusal
from front.mend.library import Library
from front.mend.loop import mend

TOP = os.path.dirname(os.path.dirname(os.path.realpath(__file__)))
# How many mistakes are made in each description, by which seed, and how many of them and of their proposals there are at least.
EACH, SEED, LEAST_REFUSED, LEAST_MADE = 44, 68, 900, 900
# Hints that say no more than what is always true of their code: at most one in twenty of the mistakes has one.
GENERAL = ("key", "missing key", "against", "unknown name", "value", "feature", "form", "left out form", "count of arguments", "key place", "key twice",
    "not closed",
           "indentation alone", "unclear character", "character", "early end", "no key")
# Kinds after whose change something else may be missing on the line, or above it in the mapping, which is told then.
THEN = ("no place", "beside value", "word type", "integer type", "other type", "type as written", "struct format", "struct bytes", "text size", "no colon",
    "question", "braces", "other word",
        "closing", "terminator letter", "no dash", "merge", "quote", "flow entry", "item column", "number form", "key again", "near key", "key as written",
            "enum order",
        "terminator list", "first letter", "yaml escape", "apostrophe", "colon", "case key", "list wanted", "flow colon")
Ask = Callable[[str], Optional[Refusal]]
Results = Iterator[Tuple[str, str]]


class Tried(NamedTuple):
    """A refused text, its refusal and hint, and whether no refusal may be left."""

    name: str
    text: str
    refusal: Refusal
    hint: Hint
    is_strict: bool


def tried(name: str, text: str, ask: Ask, is_strict: bool) -> Optional[Tried]:
    """What the program refuses of a text, with its hint; None where it loads."""
    found = ask(text)
    hint = advice.of(text, found.line, found.code, found.text) if found else Hint("", "")
    return Tried(name, text, found, hint, is_strict and hint.kind not in THEN) if found else None


def is_gone(it: Tried, text: str, ask: Ask) -> bool:
    """Whether a refusal isn't there any more in a text that was made by its hint."""
    found = ask(text)
    if found is None:
        return True
    left = it.text.count("\n") - it.refusal.line, text.count("\n") - found.line
    return left[1] < left[0] or not it.is_strict and (left[1], found.code, found.text) != (left[0], it.refusal.code, it.refusal.text)


def bases(ask: Ask) -> Iterator[Tuple[str, str]]:
    """The names and texts of descriptions that load."""
    for path in sorted(glob.glob(f"{TOP}/examples/*.ksy")) + sorted(glob.glob(f"{TOP}/.ci/mended/gallery/*.ksy")):
        with open(path, encoding="utf-8") as file:
            text = file.read()
        if ask(text) is not None:
            text = mend(text, ask, Library(os.path.dirname(path), [])).text
        if ask(text) is None:
            yield os.path.basename(path), text


def mistakes(ask: Ask, seed: int = SEED, each: int = EACH) -> Iterator[Tried]:
    """What the program refuses of descriptions with one mistake each."""
    for count, (name, text) in enumerate(bases(ask)):
        for it in mutants.of(text, seed * 1000 + count, each):
            found = tried(f"{name}: {it.kind}", it.text, ask, True)
            if found:
                yield found


def wrong(it: Tried, texts: Sequence[str], ask: Ask) -> str:
    """What is wrong with what comes of one proposal; the empty text where one of its texts does what the hint says."""
    if any(is_gone(it, text, ask) for text in texts):
        return ""
    found = ask(texts[0])
    rows = it.text.split("\n")[max(0, it.refusal.line - 3) : it.refusal.line + 1]
    return f"{it.hint.text!r} of line {it.refusal.line} of\n" + "\n".join(rows) + f"\nleaves {found} of\n" + "\n".join(texts[0].split("\n")[max(0,
        it.refusal.line - 3) : it.refusal.line + 2])


def results(rows: Sequence[Tuple[str, str]], ask: Ask) -> Results:
    """Each proposal of rows, which are names and texts, and of mistakes; whether enough are made, of each kind one; and how many hints say no more than a rule."""
    made: Dict[str, int] = {}
    found: List[Tried] = [one for one in (tried(name, text, ask, False) for name, text in rows) if one]
    refused = list(mistakes(ask))
    for it in found + refused:
        for texts in proposals.alternatives(it.text, it.refusal.line, it.refusal.code, it.refusal.text, it.hint):
            made[it.hint.kind] = made.get(it.hint.kind, 0) + 1
            yield f"proposal: {it.name}", wrong(it, texts, ask)
    yield from of_kinds(set(made))
    other = [(it.name, it.hint.kind, it.refusal.code) for it in refused if it.refusal.code not in KINDS[it.hint.kind].codes.replace("X", "S10 X").split()]
    yield "proposals", "" if not other else f"hints of another code: {other}"
    general = [it for it in refused if it.hint.kind in GENERAL]
    yield "proposals", "" if len(refused) >= LEAST_REFUSED and sum(made.values()) >= LEAST_MADE else f"{len(refused)} mistakes are refused, and {sum(made.values())} proposals made"
    yield "proposals", "" if 20 * len(general) <= len(refused) else f"{len(general)} of {len(refused)} hints say no more than a rule: {[(it.name, it.hint.kind) for it in general]}"


def of_kinds(made: Set[str]) -> Results:
    """Whether each kind of hint is one whose proposals are made, and some were, or says why not."""
    for kind in KINDS:
        is_made, is_said = kind in proposals.MADE, kind in proposals.SAID
        why = "it has proposals, and nobody says whether they are made" if is_made == is_said else "nothing was made of its proposals" if is_made and kind not in made else ""
        yield f"proposals of {kind}", why
