"""Bytes that are compared with a list of numbers: compared one by one."""
from __future__ import annotations

from typing import List, NamedTuple, Optional, Tuple

from front.hints import tokens
from front.hints.tokens import Token
from front.mend.change import Change, Edit, Found, Mark, Need
from front.mend.whole import Expression, Field, Whole, expressions, extent, keyed
from front.mend.written import scalar

# What may be beside a comparison: another operand would be a part of it.
# How many tokens an operand and an expression have at most, and how many comparisons are written out in one round.
OPERAND, LONGEST, MOST = 32, 700, 2000
EDGES = ("and", "or", "not", "(", ")", "?", ":", ",", "[", "]")


class Compared(NamedTuple):
    """A comparison with a list: where it begins and ends, what is compared, whether it must differ, and the numbers."""

    begin: int
    stop: int
    operand: str
    differs: bool
    numbers: List[str]


def one_by_one(whole: Whole) -> Found:
    """All such comparisons."""
    edits: List[Edit] = []
    marks: List[Mark] = []
    done, count = set(), 0
    for field in whole.fields:
        check = of_check(whole, field)
        if check:
            edits, marks = edits + [check[0]], marks + [check[1]]
            continue
        for it in expressions(field):
            if "[" not in it.text or it.key == "argument" or id(it.node) in done:
                continue
            done.add(id(it.node))
            count += it.text.count("==") + it.text.count("!=")
            if count > MOST:
                return Need("too many comparisons")
            words, place = compared(it), extent(whole.text, it.node)
            if words != it.text:
                edits.append(Edit(*place, scalar(words, field.node.is_flow or is_inside(field, it))))
                marks.append(Mark(place[1], field.name, f"was {' '.join(it.text.split())}"))
    return Change("bytes are compared with a list of numbers one by one", tuple(edits), tuple(marks)) if edits else Need()


def is_inside(field: Field, one: Expression) -> bool:
    """Whether an expression is in braces or brackets."""
    check = field.keys.get("valid")
    return one.key == "valid" and check is not None and (check.value.is_flow or any(it.value.is_flow for it in check.value.pairs))


def of_check(whole: Whole, field: Field) -> Optional[Tuple[Edit, Mark]]:
    """The check that the bytes are one list, or one of some."""
    pair = field.keys.get("valid")
    if pair is None:
        return None
    equal = keyed(pair.value).get("eq") or keyed(pair.value).get("any-of")
    node = equal.value if equal else pair.value
    values = node.items if node.kind == "list" else [node]
    lists = [numbers_of(it.text) if it.kind == "text" else None for it in values]
    if not values or not all(lists) or equal and len(pair.value.pairs) > 1:
        return None
    words = " or ".join(joined("_", it or []) for it in lists)
    begin = equal.at if equal and not pair.value.is_flow else pair.value.at
    stop = extent(whole.text, pair.value if pair.value.is_flow or not equal else node)[1]
    quoted = scalar(words, True)
    text = f"expr: {quoted}" if equal and not pair.value.is_flow else f"{{expr: {quoted}}}"
    old = " ".join(whole.text[begin:stop].split())
    return Edit(begin, stop, text), Mark(stop, field.name, f"was {old}")


def numbers_of(text: str) -> Optional[List[str]]:
    """The numbers that a list in an expression has, if it is one of bytes."""
    found = tokens.read(text)
    if len(found) < 3 or found[0].text != "[" or found[-1].text != "]":
        return None
    inner = found[1:-1]
    if inner[-1].text == ",":
        inner = inner[:-1]
    numbers, commas = inner[::2], inner[1::2]
    is_list = all(it.kind == "number" for it in numbers) and all(it.text == "," for it in commas) and len(numbers) == len(commas) + 1
    return [it.text for it in numbers] if is_list else None


def joined(operand: str, numbers: List[str], count_of: str = "length") -> str:
    """Bytes, or the elements of a list, compared with numbers one by one."""
    return "(" + " and ".join([f"{operand}.{count_of} == {len(numbers)}", *(f"{operand}[{count}] == {it}" for count, it in enumerate(numbers))]) + ")"


def compared(one: Expression) -> str:
    """An expression with its comparisons written out; as it was where it has none that can be."""
    text, found = one.text, comparisons(one.text)
    for it in reversed(found):
        is_list = any(member.name == it.operand and "repeat" in member.keys for member in one.field.body.fields)
        words = joined(it.operand, it.numbers, "size" if is_list else "length")
        text = text[: it.begin] + (f"(not {words})" if it.differs else words) + text[it.stop :]
    return text


def comparisons(text: str) -> List[Compared]:
    """The comparisons with a list in an expression."""
    found, read = [], tokens.read(text)
    for count, it in enumerate(read if len(read) <= LONGEST else []):
        if it.text not in ("==", "!=") or it.kind != "sign":
            continue
        left, right = operand_before(read, count), operand_after(read, count)
        if left is None or right is None:
            continue
        first, second = text[read[left].at : it.at].strip(), text[read[count + 1].at : end(read[right])].strip()
        numbers, operand = (numbers_of(second), first) if numbers_of(second) else (numbers_of(first), second)
        outer = [read[left - 1].text if left else "(", read[right + 1].text if right + 1 < len(read) else ")"]
        if numbers and all(one in EDGES for one in outer):
            found.append(Compared(read[left].at, end(read[right]), operand, it.text == "!=", numbers))
    return found


def end(token: Token) -> int:
    """Where a token ends."""
    return token.at + len(token.text)


def operand_before(read: List[Token], at: int) -> Optional[int]:
    """The first token of the value before an operator; None where that isn't so simple."""
    here, depth = at - 1, 0
    while here >= max(0, at - OPERAND):
        text = read[here].text
        depth += (text in (")", "]")) - (text in ("(", "["))
        if depth < 0:
            return None
        before = read[here - 1] if here else None
        if not depth and not (text == "." or before and before.text == "." or text in ("(", "[") and before and is_value(before)):
            return here
        here -= 1
    return None


def operand_after(read: List[Token], at: int) -> Optional[int]:
    """The last token of the value after an operator; None where that isn't so simple."""
    here, depth = at + 1, 0
    while here < min(len(read), at + LONGEST):
        text = read[here].text
        depth += (text in ("(", "[")) - (text in (")", "]"))
        if depth < 0:
            return None
        after = read[here + 1].text if here + 1 < len(read) else ""
        if not depth and text != "." and after not in (".", "(", "["):
            return here
        here += 1
    return None


def is_value(token: Token) -> bool:
    """Whether a value may end with a token."""
    return token.text in (")", "]") or token.kind == "name" and token.text not in ("and", "or", "not")
