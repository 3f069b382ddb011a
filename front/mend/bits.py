"""Bits of which the lowest of a byte is the first: the bytes that they fill as an integer, and what is calculated from it."""
from __future__ import annotations

import re
from typing import Iterator, List, NamedTuple, Sequence, Set, Tuple

from front.hints.node import Pair
from front.mend.change import MARK, Change, Edit, Found, Mark, Need
from front.mend.encodings import without_meta
from front.mend.whole import Body, Field, Whole, kinds, span
from front.mend.written import last, line_stop

BITS = re.compile(r"b([1-9]|[1-5]\d|6[0-4])(le|be)?\Z")
# The integers by their bits, and of which integers other widths are put together.
INTEGERS = {8: "u1", 16: "u2le", 32: "u4le", 64: "u8le"}
PARTS = {24: (16, 8), 40: (32, 8), 48: (32, 16), 56: (32, 16, 8)}
KEPT = ("enum", "valid", "doc", "doc-ref")


class Stop(Exception):
    """A person is needed: why."""


class Chunk(NamedTuple):
    """Fields that fill bytes: how many bits they have, and the names of the integers that they are taken from."""

    fields: List[Field]
    bits: int
    names: List[str]


def width(field: Field, is_low: bool) -> int:
    """How many bits a field has of which the lowest comes first; 0 of any other."""
    found = BITS.match(field.said("type"))
    return int(found[1]) if found and (found[2] == "le" or is_low and not found[2]) else 0


def low(whole: Whole) -> Found:
    """Each such field taken from an integer."""
    edits: List[Edit] = []
    marks: List[Mark] = []
    losses: List[str] = []
    try:
        for body in whole.bodies:
            is_low = body.stated("bit-endian") == "le"
            for one in (of_sequence(whole, body, is_low), of_instances(whole, body, is_low)):
                edits, marks, losses = edits + one[0], marks + one[1], losses + one[2]
            if "bit-endian" in body.meta and body.meta["bit-endian"].value.text == "le":
                found = without_meta(whole, body, "bit-endian")
                if not found:
                    raise Stop
                edits, marks = edits + found[0], marks + found[1]
    except Stop as stop:
        return Need(str(stop))
    if not edits:
        return Need()
    return Change("the highest bit is the first: an integer has the bytes, and the fields are taken from it", tuple(edits), tuple(marks), tuple(losses))


Parts = Tuple[List[Edit], List[Mark], List[str]]


def whole_bytes(whole: Whole, field: Field, bits: int) -> Tuple[Edit, Mark]:
    """A field that is an integer by itself."""
    place = span(whole.text, field.keys["type"].value)
    if not place:
        raise Stop
    return Edit(*place, INTEGERS[bits]), Mark(place[0], field.name, f"was {field.said('type')}, the lowest bit first")


def of_instances(whole: Whole, body: Body, is_low: bool) -> Parts:
    """The edits of parse instances, which must be integers."""
    edits, marks = [], []
    for it in body.fields:
        cases = any(BITS.match(one.text) and (one.text.endswith("le") or is_low) for one in kinds(it)) and not it.said("type")
        bits = width(it, is_low) if it.role != "attribute" else 0
        if cases or bits and bits not in INTEGERS:
            raise Stop(f"line {whole.line(it.at)}: these bits don't fill an integer")
        if bits:
            one = whole_bytes(whole, it, bits)
            edits, marks = edits + [one[0]], marks + [one[1]]
    return edits, marks, []


def of_sequence(whole: Whole, body: Body, is_low: bool) -> Parts:
    """The edits of the fields of `seq`."""
    edits: List[Edit] = []
    marks: List[Mark] = []
    taken: Set[str] = names_in(body)
    instances: List[Tuple[Chunk, Field, int]] = []
    for chunk in chunks(whole, body, is_low, taken):
        if not chunk.names:
            one = whole_bytes(whole, chunk.fields[0], chunk.bits)
            edits, marks = edits + [one[0]], marks + [one[1]]
            continue
        edits += items(whole, chunk)
        at = 0
        for it in chunk.fields:
            instances += [(chunk, it, at)] if it.name else []
            at += width(it, is_low)
    if instances:
        edits.append(under_instances(whole, body, instances, is_low))
    return edits, marks, lost(whole, instances)


def names_in(body: Body) -> Set[str]:
    """The names of a type's members, its parameters with them."""
    params = body.value("params")
    return {it.name for it in body.fields} | {it.said("id") for it in (params.items if params is not None else [])}


def lost(whole: Whole, instances: Sequence[Tuple[Chunk, Field, int]]) -> List[str]:
    """What is lost where fields are calculated."""
    found = {it.names[0] + str(it.fields[0].at): it for it, _, _ in instances}
    return [f"line {whole.line(it.fields[0].at)}: `put` and `dump` have `{it.names[0]}`, and `get` what is taken from it" for it in found.values()]


def chunks(whole: Whole, body: Body, is_low: bool, taken: Set[str]) -> Iterator[Chunk]:
    """The fields of a type's `seq` by the bytes that they fill."""
    group: List[Field] = []
    ahead = 0
    for it in [*(one for one in body.fields if one.role == "attribute"), None]:
        bits = width(it, is_low) if it else 0
        is_plain = it is not None and not set(it.keys) & {"if", "repeat"}
        if bits and is_plain:
            if ahead % 8:
                raise Stop(f"line {whole.line(it.at)}: the bits before it have another order")
            group.append(it)
            continue
        yield from divided(whole, group, is_low, taken)
        group = []
        if it and bits:
            if bits not in INTEGERS:
                raise Stop(f"line {whole.line(it.at)}: `if` or `repeat` of bits that fill no integer")
            yield Chunk([it], bits, [])
        found = BITS.match(it.said("type")) if it else None
        ahead = ahead + int(found[1]) if found and not bits else 0


def divided(whole: Whole, group: List[Field], is_low: bool, taken: Set[str]) -> Iterator[Chunk]:
    """Fields beside each other as one integer, or else by the bytes that they fill."""
    parts, here, total = [], [], 0
    for it in group:
        here.append(it)
        total += width(it, is_low)
        if not total % 8:
            parts.append(here)
            here = []
    if here:
        raise Stop(f"line {whole.line(here[0].at)}: these bits don't fill whole bytes")
    is_one = total in INTEGERS and any(len(it) > 1 or width(it[0], is_low) not in INTEGERS for it in parts)
    for fields in [group] if is_one else parts:
        bits = sum(width(it, is_low) for it in fields)
        if bits not in INTEGERS and bits not in PARTS:
            raise Stop(f"line {whole.line(fields[0].at)}: these bits fill more than 8 bytes")
        if len(fields) == 1 and bits in INTEGERS:
            yield Chunk(fields, bits, [])
        else:
            yield Chunk(fields, bits, [free("bits", taken) for _ in PARTS.get(bits, (bits,))])


def free(name: str, taken: Set[str]) -> str:
    """A name that isn't taken, which it then is."""
    count, found = 1, name
    while found in taken:
        count += 1
        found = f"{name}_{count}"
    taken.add(found)
    return found


def items(whole: Whole, chunk: Chunk) -> List[Edit]:
    """The edits that put integers in place of the items of fields."""
    text, edits = whole.text, []
    for count, it in enumerate(chunk.fields):
        begin = text.rfind("\n", 0, it.at) + 1
        front = text[begin : it.at]
        if not re.fullmatch(r" *- *", front):
            raise Stop(f"line {whole.line(it.at)}: this list is better written with an item on each line")
        stop = line_stop(text, item_last(text, it))
        indent = " " * front.index("-")
        sizes = PARTS.get(chunk.bits, (chunk.bits,))
        rows = [f"{indent}- id: {name}\n{indent}  type: {INTEGERS[size]} {MARK}was bits, the lowest first\n" for name, size in zip(chunk.names, sizes)]
        edits.append(Edit(begin, stop, "" if count else "".join(rows)))
    return edits


def item_last(text: str, field: Field) -> int:
    """Where the last key of an item ends."""
    if field.node.is_flow:
        return field.node.stop
    return last(text, field.node.pairs[-1])


def under_instances(whole: Whole, body: Body, found: List[Tuple[Chunk, Field, int]], is_low: bool) -> Edit:
    """The edit that puts what is calculated under a type's `instances`."""
    text = whole.text
    node = body.value("instances")
    if body.node.is_flow or node is not None and (node.is_flow or not node.pairs):
        raise Stop(f"line {whole.line(body.at)}: `instances` can't be written into braces")
    if node is not None:
        at = node.pairs[0].at
        begin = text.rfind("\n", 0, at) + 1
        column, head = at - begin, ""
    else:
        pair = body.keys["seq"]
        outer = column_of(text, pair.at)
        begin, column, head = line_stop(text, last(text, pair)), outer + 2, f"{' ' * outer}instances:\n"
    rows = [instance(text, chunk, field, at, width(field, is_low), " " * column) for chunk, field, at in found]
    lead = "" if not begin or text[begin - 1] == "\n" else "\n"
    return Edit(begin, begin, lead + head + "".join(rows))


def column_of(text: str, at: int) -> int:
    """How many characters of its line come before a place."""
    return at - text.rfind("\n", 0, at) - 1


def instance(text: str, chunk: Chunk, field: Field, at: int, bits: int, indent: str) -> str:
    """A value instance in place of a field."""
    sizes, whole, before = PARTS.get(chunk.bits, (chunk.bits,)), [], 0
    for name, size in zip(chunk.names, sizes):
        whole.append(f"{name} << {before}" if before else name)
        before += size
    joined = " | ".join(whole)
    value = joined
    if bits < chunk.bits:
        value = f"({joined})" if len(whole) > 1 else joined
        value += (f" >> {at}" if at else "") + (f" & {(1 << bits) - 1:#x}" if at + bits < chunk.bits or bits == 1 else "")
    if bits == 1 and "enum" not in field.keys:
        value += " != 0"
    rows = [f"{indent}{field.name}:", f"{indent}  value: {value} {MARK}was {field.said('type')}, the lowest bit first"]
    for it in field.node.pairs:
        if it.key in KEPT or it.key.startswith("-"):
            rows += moved(text, field, it, indent + "  ")
        elif it.key not in ("id", "type"):
            raise Stop(f"`{it.key}` of the bits `{field.name}`")
    return "".join(f"{it}\n" for it in rows)


def moved(text: str, field: Field, pair: Pair, indent: str) -> List[str]:
    """The lines of a pair at another column."""
    if field.node.is_flow:
        return [indent + " ".join(text[pair.at : pair.value.stop].split())]
    lines, old = text[pair.at : last(text, pair)].split("\n"), column_of(text, pair.at)
    shift = len(indent) - old
    rest = [" " * shift + it if shift >= 0 else it[min(-shift, len(it) - len(it.lstrip(" "))) :] for it in lines[1:]]
    return [indent + lines[0], *(it if it.strip() else "" for it in rest)]
