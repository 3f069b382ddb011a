"""What a hint says, taken from its text by the text of its kind."""
from __future__ import annotations

import re
from string import Formatter
from typing import Dict, List

from front.hints.kinds import KINDS, Hint


def values(hint: Hint) -> Dict[str, str]:
    """What is filled into the places of a hint's text; nothing where it was cut."""
    kind = KINDS[hint.kind]
    found = re.fullmatch(pattern(kind.text), hint.text, re.S)
    return {key: it for key, it in found.groupdict().items() if not it.endswith(" ..")} if found and not kind.what else {}


def pattern(text: str) -> str:
    """What matches a text with its places filled in: anything, and in a place that is there a second time the same."""
    parts: List[str] = []
    seen: List[str] = []
    for words, name, _, _ in Formatter().parse(text):
        parts += [re.escape(words), "" if name is None else f"(?P={name})" if name in seen else f"(?P<{name}>.*?)"]
        seen += [name] if name else []
    return "".join(parts)
