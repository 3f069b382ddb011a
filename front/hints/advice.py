"""What to say of a refusal: the hint of its code, from what begins on its line."""
from __future__ import annotations

from front.hints import features, keys, names, syntax, values, yaml
from front.hints.kinds import Hint, say
from front.hints.outline import Outline
from front.hints.places import Places

# How many lines of a description are read for a hint.
LINES = 5_000


def of(text: str, line: int, code: str, told: str) -> Hint:
    """The hint of a refusal of a text, at a line, by a code and what is told beside it."""
    if code.startswith("Y"):
        return yaml.bad(text, line, code)
    if code == "S11":
        return say("memory")
    places = Places(Outline(text, LINES), line)
    found = {
        "S1": keys.unknown, "S2": keys.missing, "S3": keys.against, "S4": names.unknown, "S5": names.no_order, "S6": values.bad, "S7": names.arguments,
        "S8": features.left_out, "S9": values.limit, "S10": lambda it: syntax.bad(it, told),
    }
    general = {"S1": "key", "S2": "missing key", "S3": "against", "S4": "unknown name", "S7": "count of arguments"}
    hint = (found[code](places) or say(general[code])) if code in found else Hint("", "")
    return hint if places.outline.is_whole or code not in ("S2", "S4", "S7") else say(general[code])
