"""What is said of the chosen node: its path, place and value, and what the description has of it."""
import re
from typing import Callable, Dict, List, Optional, Tuple

from front.description import Description, Member
from front.explain import Explainer
from front.follow import Follower
from front.look import Explorer, Spent
from front.session import Refused
from front.texts import columns
from front.view.cells import cut, ending, wrapped
from front.view.replies import Replies
from front.view.sources import Sources
from front.view.state import parent

# The keys of a member that are named, in this order; and the most questions for an explanation.
KEYS = ("type", "enum", "contents", "value", "size", "size-eos", "terminator", "pos", "io", "repeat-expr", "repeat-until", "if", "valid")
ASKED = 300
# How much of a value is shown that another one is made of.
VALUE = 24
# How many columns of a path and of its value there are before its place is told in hexadecimal digits too; and the least ones of a path.
ENOUGH, LEAST = 20, 12


def member_of(replies: Replies, description: Description, path: str) -> Optional[Member]:
    """What the description has of a path: of an element its list."""
    path = re.sub(r"(?:/\d+)+$", "", path)
    front, _, name = path.rpartition("/")
    kind = re.fullmatch(r"object (\S+)", replies.ask(f"get {front or '/'}"))
    if not kind and front:
        kind = kind_of(replies, description, front)
        return description.member(kind, name) if kind else None
    return description.member(kind[1] if front and kind else None, name)


def kind_of(replies: Replies, description: Description, path: str) -> Optional[str]:
    """The type of an object whose value is a fault, as its description has it."""
    member = member_of(replies, description, path)
    text = member.value.said("type") if member else ""
    return text.rpartition("::")[2].partition("(")[0] or None


def described(replies: Replies, description: Description, ksy: str, path: str) -> str:
    """The line of a node in the description, and what is there; the check comes first where it fails."""
    if path == "/":
        return f"{ksy}: the whole file"
    member = member_of(replies, description, path)
    if not member:
        return f"{ksy}: no one line has it"
    if member.value.is_flow:
        return f"{ksy}:{member.line}  {member.text('type')}"
    keys = ("valid", *KEYS[:-1]) if replies.ask(f"get {path}") == f"fault invalid at {path}" else KEYS
    said = [f"{key}: {text}" for key in keys if (text := member.text(key))]
    return f"{ksy}:{member.line}  {'; '.join(said)}"


def doc_of(replies: Replies, description: Description, path: str) -> str:
    """What the description says of a node in words."""
    member = member_of(replies, description, path) if path != "/" else None
    if not member or member.value.is_flow:
        return ""
    return " ".join(member.text("doc").split())


def place_of(told: str) -> str:
    """A place as it is told, and in hexadecimal digits."""
    found = re.fullmatch(r"at (\d+)((?:\.\d)?) (\d+)((?:\.\d)?)", told)
    return f"{told} (0x{int(found[1]):x}{found[2]} 0x{int(found[3]):x}{found[4]})" if found else told


def bits_at(told: str) -> Tuple[int, int]:
    """Which bits of its first byte a place has: the first one, and how many."""
    found = re.fullmatch(r"at (\d+)(?:\.(\d))? (\d+)(?:\.(\d))?", told)
    if not found:
        return 0, 8
    first = int(found[2] or 0)
    last = int(found[4] or 0) if found[1] == found[3] else 8
    return (first, last - first) if last > first else (0, 8)


def sources_of(replies: Replies, description: Description, path: str) -> Dict[str, str]:
    """The paths of what the value at a path, its place or its check is made of, with how its description names them."""
    member = member_of(replies, description, path) if path != "/" else None
    if not member:
        return {}
    keys = ("value", "if", "pos", "size", "repeat-expr", "valid")
    text = member.text("value") if member.value.is_flow else " ; ".join(strip_keys(member.text(it)) for it in keys)
    explorer = Explorer(replies, ASKED)
    home = parent(re.sub(r"(?:/\d+)+$", "", path))
    named = Sources(explorer, Follower(explorer, description), home).named(text)
    return {it: name for it, name in named.items() if it != path}


def strip_keys(text: str) -> str:
    """An expression, or those of `valid`, without the keys before them."""
    return re.sub(r"(?:^|(?<=, ))(?:min|max|eq|any-of|expr): ", "", text)


def lines_of(replies: Replies, description: Callable[[], Description], ksy: str, path: str, width: int, most: int) -> List[str]:
    """What is said of a node: its path, place and value; its line in the description; what its value is made of, where that is a fault or calculated."""
    told, where = replies.ask(f"get {path}"), replies.ask(f"at {path}")
    lines = [first_line(path, told, where, width)]
    try:
        lines += wrapped(described(replies, description(), ksy, path), width, 2 if most > 2 else 1)
        lines += wrapped(noted(replies, description, path, told, where), width, most - len(lines)) if most > len(lines) else []
    except (Refused, Spent):
        pass
    return (lines + [""] * most)[:most]


def first_line(path: str, told: str, where: str, width: int) -> str:
    """A path, or its end, with its place and its value."""
    value = told[: -len(f" at {path}")] if told.startswith("fault") and told.endswith(f" at {path}") else told
    # of a long value no more than a row holds, as all of it would take long to measure
    values = [cut(value, width)] if where != told else []
    room = width - 2 - sum(2 + min(ENOUGH, columns(it)) for it in values)
    place = place_of(where) if min(ENOUGH, columns(path)) + columns(place_of(where)) <= room else where
    rest = "  ".join([place, *values])
    return f"{ending(path, max(LEAST, min(ENOUGH, room - columns(place)), width - 2 - columns(rest)))}  {rest}"


def noted(replies: Replies, description: Callable[[], Description], path: str, told: str, where: str) -> str:
    """What a faulty or calculated value is made of; else what the description says in words."""
    is_fault = told.startswith("fault") and told != f"fault absent at {path}"
    origin = told.rpartition(" at ")[2] if is_fault else path
    found = []
    if is_fault or where == "calculated" or told.startswith("fault"):
        found = [f"{min(it, name, key=len)} {value_of(replies, it)}" for it, name in sources_of(replies, description(), origin).items()]
    made = f"{'there: ' if origin != path else 'here: '}{', '.join(found)}" if found else ""
    if is_fault and origin == path and where.startswith("fault end-of-bytes") or told.startswith("fault end-of-bytes"):
        explained = Explainer(Explorer(replies, ASKED), description, False).explained(told, f"get {path}")
        made = " ".join([*(it.strip() for it in explained), made])
    return made or doc_of(replies, description(), path)


def value_of(replies: Replies, path: str) -> str:
    """A value in a few letters."""
    return cut(replies.ask(f"get {path}"), VALUE)
