"""What the bytes from a place on are, read in several ways."""
import struct
from typing import List, Optional

from front.view.cells import flowed

# How many bytes are read, and how many of them as a text.
READ, LETTERS = 24, 24
ORDERS = {"le": "<", "be": ">"}
FORMS = {"u1": "B", "s1": "b", "u2": "H", "s2": "h", "u4": "I", "s4": "i", "u8": "Q", "s8": "q", "f4": "f", "f8": "d"}


def value_of(some: bytes, form: str, order: str) -> Optional[str]:
    """The first bytes as a number of a form, such as `u2`; None where there are too few."""
    count = int(form[1])
    if len(some) < count:
        return None
    [found] = struct.unpack(ORDERS[order] + FORMS[form], some[:count])
    return f"{found:.7g}" if form == "f4" else repr(found)


def numbers(some: bytes, order: str, forms: List[str]) -> List[str]:
    """The first bytes as numbers of some forms, each after its form."""
    return [f"{it} {found}" for it in forms if (found := value_of(some, it, order)) is not None]


def text_of(some: bytes) -> str:
    """Bytes as a text in UTF-8, with points for what can't be shown."""
    return "".join(it if it.isprintable() and it != "\ufffd" else "." for it in some.decode("utf-8", errors="replace"))


def bits_of(byte: int, first: int, count: int) -> str:
    """The bits of a byte, with some of them in brackets."""
    digits = f"{byte:08b}"
    return digits if (first, count) == (0, 8) else f"{digits[:first]}[{digits[first : first + count]}]{digits[first + count :]}"


def lines_of(some: bytes, width: int, first: int = 0, count: int = 8) -> List[str]:
    """All readings, in lines of a width."""
    if not some:
        return ["no byte here: i puts bytes at the end"]
    small = [*numbers(some, "le", ["u1", "s1"]), f"bits {bits_of(some[0], first, count)}", f"text {text_of(some[:LETTERS])}"]
    lines = flowed(small, width)
    for forms in (["u2", "s2", "u4", "s4", "f4"], ["u8", "s8", "f8"]):
        for order in ORDERS:
            found = numbers(some, order, forms)
            lines += flowed([f"{order} {found[0]}", *found[1:]], width) if found else []
    return lines
