"""Parts of a description as they are written: values, and keys that are taken out."""
from __future__ import annotations

import re
from typing import List, Optional, Sequence, Tuple

from front.hints.node import Node, Pair
from front.mend.change import MARK, Edit, Mark

PLAIN = re.compile(r"[A-Za-z0-9_(][^\n]*\Z")


def scalar(words: str, is_inside: bool = False) -> str:
    """A text as a value in YAML, in quotes where they are needed; inside brackets or braces more often."""
    words = " ".join(words.split("\n"))
    is_plain = PLAIN.match(words) and ": " not in words and " #" not in words and not words.endswith((":", " "))
    if is_plain and not (is_inside and re.search(r"[,\[\]{}]", words)):
        return words
    return "'" + words.replace("'", "''") + "'"


def flow_without(text: str, node: Node, lost: Sequence[str], more: Sequence[str] = ()) -> Edit:
    """A mapping in braces without some keys, and with further pairs."""
    kept = [text[it.at : max(it.value.stop, it.at)].strip() for it in node.pairs if it.key not in lost]
    return Edit(node.at, node.stop, "{" + ", ".join([*kept, *more]) + "}")


def without(text: str, node: Node, lost: Sequence[str], is_told: bool = True) -> Optional[Tuple[List[Edit], List[Mark]]]:
    """What takes keys out of a mapping, and tells what they were; None where nothing would be left, or it isn't so simple."""
    pairs = node.pairs
    gone = [it for it in pairs if it.key in lost]
    if not gone or len(gone) == len(pairs):
        return None
    if node.is_flow:
        return [flow_without(text, node, lost)], [Mark(node.stop, "", was(text, it)) for it in gone if is_told]
    edits, marks = [], []
    for count, it in enumerate(pairs):
        if it.key not in lost:
            continue
        begin = text.rfind("\n", 0, it.at) + 1
        if text[begin : it.at].strip(" "):
            after = pairs[count + 1] if count + 1 < len(pairs) else None
            if after is None or after.key in lost:
                return None
            edits.append(Edit(it.at, after.at, ""))
            marks += [Mark(after.at, "", was(text, it))] if is_told else []
        else:
            edits.append(commented(text, begin, it) if is_told else Edit(begin, line_stop(text, last(text, it)), ""))
    return edits, marks


def was(text: str, pair: Pair) -> str:
    """What tells that a pair was there."""
    return f"was {' '.join(text[pair.at : last(text, pair)].split())}"


def last(text: str, pair: Pair) -> int:
    """Where a pair ends, without blank lines and comments after it."""
    stop = pair.value.stop
    if pair.value.is_flow or pair.value.mark in ("'", '"'):
        return stop
    lines = text[pair.at : stop].split("\n")
    while len(lines) > 1 and (not lines[-1].strip() or lines[-1].lstrip().startswith("#")):
        lines.pop()
    return pair.at + len("\n".join(lines).rstrip()) if pair.value.stop > pair.at else line_stop(text, pair.at) - 1


def line_stop(text: str, at: int) -> int:
    """Where the line after that of a place begins."""
    found = text.find("\n", at)
    return len(text) if found < 0 else found + 1


def commented(text: str, begin: int, pair: Pair) -> Edit:
    """Lines of a pair that are made comments, each as it was."""
    stop = last(text, pair)
    rest = line_stop(text, stop)
    stop = rest - (rest > stop and text.startswith("\n", rest - 1))
    indent = pair.at - begin
    rows = [f"{' ' * indent}{MARK}was {it[indent:]}".rstrip() for it in text[begin:stop].split("\n")]
    return Edit(begin, stop, "\n".join(rows))
