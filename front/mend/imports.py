"""Types of other files, which are put into a description, each file once."""
from __future__ import annotations

import os
import re
from typing import Dict, Iterator, List, NamedTuple, Optional, Set, Tuple

from front.hints import tokens
from front.hints.node import Node
from front.mend.bits import column_of, free
from front.mend.change import MARK, Change, Edit, Found, Mark, Need, applied
from front.mend.library import MOST, File, Library
from front.mend.whole import Whole, expressions, kinds, span
from front.mend.written import scalar, without

# How many files are put in, how many names of files are looked at, and how long one is.
MOST_FILES, MOST_NAMES, LONGEST = 64, 1000, 200


class Stop(Exception):
    """A person is needed: why."""


class Taken(NamedTuple):
    """A file that is put in: its description, the name of its type, and what the files that it imports are called, by their own names."""

    file: File
    whole: Whole
    name: str
    others: Dict[str, str]


def put_in(whole: Whole, library: Library) -> Found:
    """The types of all imported files, and of those that they import."""
    pair = whole.root.meta.get("imports")
    if pair is None:
        found = without_words(whole, "ks-opaque-types")
        return found or Need("only the root's `imports` are read")
    try:
        taken = collected(whole, library)
        gone = without(whole.text, whole.root.keys["meta"].value, ["imports"])
        if not gone:
            raise Stop
        texts = [block(whole, it) for it in taken]
        if sum(map(len, texts)) + len(whole.text) > MOST:
            raise Stop("with all that it imports it would have more than 262,144 bytes")
        edits, marks = place(whole, texts, *gone) if texts else gone
    except Stop as stop:
        return Need(str(stop))
    losses = tuple(f"`{it.whole.root.name}` of {it.file.name} is the type `{it.name}` here" for it in taken if it.name != it.whole.root.name)
    reason = "no other file is read: the imported types are put in" if texts else "`imports` names no file"
    return Change(reason, tuple(edits), tuple(marks), losses)


def without_words(whole: Whole, key: str) -> Optional[Change]:
    """What takes a key out of each `meta` that has it."""
    edits: List[Edit] = []
    marks: List[Mark] = []
    for body in whole.bodies:
        found = without(whole.text, body.keys["meta"].value, [key]) if key in body.meta else None
        edits, marks = (edits + found[0], marks + found[1]) if found else (edits, marks)
    return Change(f"`{key}` isn't read: a type that isn't here is refused by its name", tuple(edits), tuple(marks)) if edits else None


def names_of(node: Optional[Node]) -> List[str]:
    """The names that an `imports` has."""
    return [] if node is None else [it.text for it in node.items] if node.kind == "list" else [node.text] if node.text else []


def collected(whole: Whole, library: Library) -> List[Taken]:
    """The imported files, each once, with the names of their types."""
    names: Set[str] = {*whole.root.types, whole.root.name}
    by_place: Dict[str, Taken] = {}
    rest: List[Tuple[str, str, Dict[str, str]]] = [(it, library.folders[0], {}) for it in names_of(whole.root.meta["imports"].value)]
    for count in range(MOST_NAMES + 1):
        if not rest:
            break
        name, folder, others = rest.pop(0)
        file = library.find(name, folder) if len(name) <= LONGEST else None
        if count == MOST_NAMES:
            raise Stop("too many files are imported")
        if file is None:
            raise Stop(f"`{name[:LONGEST]}.ksy` isn't below the folder of the description, nor below one that `-I` names")
        if file.place not in by_place:
            if len(by_place) >= MOST_FILES or sum(len(it.file.text) for it in by_place.values()) > MOST:
                raise Stop("too many files are imported")
            found = Whole(file.text)
            if not found.outline.is_whole or not found.root.name:
                raise Stop(f"{file.name} is no description that can be put in")
            taken = Taken(file, found, free(found.root.name, names), {})
            by_place[file.place] = taken
            imported = found.root.meta["imports"].value if "imports" in found.root.meta else None
            rest += [(it, os.path.dirname(file.place), taken.others) for it in names_of(imported)]
        others[by_place[file.place].whole.root.name] = by_place[file.place].name
    return list(by_place.values())


def block(whole: Whole, taken: Taken) -> str:
    """A file as a type's value: without what it imports, and with names as they are here."""
    own, root = taken.whole, taken.whole.root
    edits: List[Edit] = []
    marks: List[Mark] = []
    if "imports" in root.meta:
        found = without(own.text, root.keys["meta"].value, ["imports"])
        if not found:
            raise Stop(f"{taken.file.name}: its `imports` can't be taken out")
        edits, marks = list(found[0]), list(found[1])
    names = {key: it for key, it in {root.name: taken.name, **taken.others}.items() if key != it}
    for begin, stop, words in rewritten(own, names, taken):
        edits.append(Edit(begin, stop, words))
    if whole.root.stated("bit-endian") == "le" and "bit-endian" not in root.meta:
        at = root.meta["id"].at
        edits.append(Edit(at, at, "bit-endian: be" + (", " if root.keys["meta"].value.is_flow else "\n" + " " * column_of(own.text, at))))
    text = applied(own.text, Change("", tuple(edits), tuple(marks)))
    begin = text.rfind("\n", 0, own.outline.starts[0]) + 1 if own.outline.starts else 0
    body = "".join(f"  {it}" if it.strip() else it for it in (text[begin:].lstrip("\ufeff").rstrip() + "\n").splitlines(True))
    return f"{taken.name}: {MARK}from {taken.file.name}\n{body}"


def rewritten(own: Whole, names: Dict[str, str], taken: Taken) -> Iterator[Tuple[int, int, str]]:
    """The texts of a file that name types by other names here, or the file's own root."""
    done = set()
    for field in own.fields:
        enum = [field.keys["enum"].value] if "enum" in field.keys else []
        nodes = [(it, True) for it in [*kinds(field), *enum]] + [(it.node, it.key == "argument") for it in expressions(field)]
        for node, is_type in nodes:
            if node.at in done:
                continue
            done.add(node.at)
            words = renamed(node.text, {key: it for key, it in names.items() if not field.body.find([key])}, is_type)
            if "_root" in words and any(it.text == "_root" for it in tokens.read(words)):
                if field.body is not own.root or is_type:
                    raise Stop(f"{taken.file.name}: `_root` in it is its own root, which can't be named from inside another description")
                words = re.sub(r"\b_root\s*\.\s*(?!_io\b)", "", words)
                if re.search(r"\b_root\b", words):
                    raise Stop(f"{taken.file.name}: `_root` in it is its own root")
            if words != node.text:
                place_of = span(own.text, node)
                if not place_of:
                    raise Stop(f"{taken.file.name}: a name in a text over several lines")
                yield place_of[0], place_of[1], scalar(words, field.node.is_flow)


def renamed(text: str, names: Dict[str, str], is_type: bool) -> str:
    """A text of a type, an enum or an expression in which types have other names."""
    for old, new in names.items():
        pattern = rf"^{old}(?=$|::|\(|\s)" if is_type else rf"(?<![\w.:]){old}(?=\s*::)|(?<=<){old}(?=\s*(?:::|>))"
        text = re.sub(pattern, new, text)
    return text


def place(whole: Whole, texts: List[str], gone: List[Edit], marks: List[Mark]) -> Tuple[List[Edit], List[Mark]]:
    """The edits that put types in, below the description's own `types` or at its end."""
    text, root = whole.text, whole.root
    node = root.value("types")
    if root.node.is_flow or node is not None and (node.is_flow or not node.pairs):
        raise Stop("types can't be put into braces")
    if node is None:
        begin, column = len(text), 2
        head = ("" if text.endswith("\n") else "\n") + "types:\n"
    else:
        begin, column, head = text.rfind("\n", 0, node.pairs[0].at) + 1, column_of(text, node.pairs[0].at), ""
    return [*gone, Edit(begin, begin, head + "".join(indented(it, column) for it in texts))], marks


def indented(text: str, column: int) -> str:
    """A text with its lines further in."""
    return "".join(f"{' ' * column}{it}" if it.strip() else it for it in text.splitlines(True))
