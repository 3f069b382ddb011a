"""What a member read as before its description was mended: `Lost(Description(text)).shown("vec3d", "x", "1067030938")` is `1.2`.

The marks of bin/ksv-mend tell it: `# ksv-mend: was f8`, and where a line has several, `# ksv-mend: x was f4; y was f4`. The name of a type is that of the reply
`object NAME`, None for the root; the name of a member is the last step of its path that is no index; the reply is that of `get`. The empty text means that
nothing was lost there, or that it can't be told. What is shown is found by Python alone: it isn't proved.
"""
from __future__ import annotations

import codecs
import json
import re
import struct
from typing import Dict, Iterator, NamedTuple, Optional, Tuple

from front.cases import Switch, cases_of
from front.description import Description, Member
from front.hints import lines
from front.look import Explorer

MARK = re.compile(r"# ksv-mend: ([^\n]*)")
WAS = re.compile(r"(?:([a-z][a-z0-9_]*) )?was (?:(f[48])(?:le|be)?|(strz?) ([\w.:-]{1,40}))\Z")
REPLY = re.compile(r"hex ([0-9a-f]*)\Z")
LOSING = re.compile(r"[0-9]|hex ")
# How many bytes of a text are shown.
MOST = 4096


class Was(NamedTuple):
    """What a member was: `f4`, `f8`, `str` or `strz`, and of a text its encoding."""

    kind: str
    encoding: str


class Lost:
    """The members of a description that were read otherwise before it was mended."""

    def __init__(self, description: Description) -> None:
        """Takes a description; what it has of a member is looked for once."""
        self._description, self._text = description, description.text
        self._is_mended = bool(MARK.search(self._text))
        self._known: Dict[Tuple[Optional[str], str], Optional[Member]] = {}

    def _member(self, type_name: Optional[str], name: str) -> Optional[Member]:
        """A member that has a mark; None where it has none."""
        key = type_name, name
        if key not in self._known:
            found = self._description.member(type_name, name)
            self._known[key] = found if found and any(self._marks(found, name)) else None
        return self._known[key]

    def _marks(self, found: Member, name: str) -> Iterator[Was]:
        """What the marks on the lines of a member tell."""
        begin = lines.start(self._text, found.line) or 0
        return self._between(begin, lines.stop(self._text, found.value.stop) if found.value.is_flow else found.value.stop, name)

    def _between(self, begin: int, stop: int, name: str) -> Iterator[Was]:
        """What the marks of a part of the text tell of a member."""
        for it in MARK.finditer(self._text, begin, stop):
            for words in it[1].split("# ksv-mend: ")[-1].split("; "):
                was = WAS.match(words.strip())
                if was and was[1] in (None, name):
                    yield Was(was[2] or was[3], was[4] or "")

    def shown(self, type_name: Optional[str], name: str, reply: str, chosen: Optional[str] = None) -> str:
        """How the reply of `get` would read as what was lost: a number, or a text in quotes. Of a member that is read by the case of a switch the key of that
        case must be given; where it isn't known, nothing is shown."""
        found = self._member(type_name, name) if self._is_mended else None
        was = self._was(found, name, chosen) if found else None
        if was is None:
            return ""
        return number(was.kind, reply) if not was.encoding else words(was, reply)

    def _was(self, found: Member, name: str, chosen: Optional[str]) -> Optional[Was]:
        """What a member with a mark was."""
        cases = cases_of(found)
        if cases is None:
            return next(self._marks(found, name), None)
        pair = next((it for it in cases.pairs if it.key == chosen), None)
        begin = pair.at if pair and not cases.is_flow else len(self._text)
        return next(self._between(begin, lines.stop(self._text, begin), name), None)

    def said(self, explorer: Explorer, path: str, reply: str) -> str:
        """What is said of a value beside the reply of `get`: `= 3.5 (not proved)`, since only Python found it; the empty text where nothing was lost."""
        was = self.at(explorer, path, reply)
        return f"= {was} (not proved)" if was else ""

    def at(self, explorer: Explorer, path: str, reply: str) -> str:
        """How the value at a path reads as what was lost, by the reply of `get`; the empty text where nothing was lost there."""
        if not self._is_mended or not LOSING.match(reply):
            return ""
        front, _, name = re.sub(r"(?:/\d+)+$", "", path).rpartition("/")
        kind = re.fullmatch(r"object (\S+)", explorer.ask(f"get {front or '/'}"))
        if not kind or not name:
            return ""
        found = self._member(kind[1] if front else None, name)
        chosen = Switch(explorer, self._description).chosen(found, front or "/") if found else None
        return self.shown(kind[1] if front else None, name, reply, chosen)


def number(kind: str, reply: str) -> str:
    """A float, by the integer of its bytes: the shortest digits that mean it."""
    size = int(kind[1])
    if not re.fullmatch(r"[0-9]{1,20}", reply) or int(reply) >= 1 << 8 * size:
        return ""
    content = int(reply).to_bytes(size, "big")
    found = struct.unpack(">d" if size == 8 else ">f", content)[0]
    return repr(found) if size == 8 else shortest(content, found)


def shortest(content: bytes, value: float) -> str:
    """The fewest digits by which a float of four bytes is found again."""
    return repr(float(next((it for it in (f"{value:.{digits}g}" for digits in range(1, 9)) if is_same(it, content)), f"{value:.9g}")))


def is_same(text: str, content: bytes) -> bool:
    """Whether a number is that of four bytes."""
    try:
        return struct.pack(">f", float(text)) == content
    except OverflowError:
        return False


def words(was: Was, reply: str) -> str:
    """A text, by its bytes: in quotes, and such that a terminal may show it; one that is longer than what is shown ends with two points."""
    found = REPLY.match(reply)
    try:
        codec = codecs.lookup(was.encoding)
    except LookupError:
        return ""
    if not found or not codec._is_text_encoding:
        return ""
    content = bytes.fromhex(found[1][: 2 * MOST])
    try:
        text = codec.decode(content, "replace")[0]
    except (UnicodeError, ValueError):
        return ""
    text = text.split("\0", 1)[0] if was.kind == "strz" else text
    quoted = "".join(it if it.isprintable() else json.dumps(it)[1:-1] for it in json.dumps(text, ensure_ascii=False)[1:-1])
    return f'"{quoted}"' + (" .." if len(found[1]) > 2 * MOST else "")
