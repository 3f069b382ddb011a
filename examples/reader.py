"""What the readers beside the examples have in common. A reader is a script NAME.py that knows the format and nothing of ksv:

    NAME.py replies CMD     answers the command lines of a file from its own reading of NAME.bin, `?` where it has no answer

and where the file is a damaged one

    NAME.py make            writes NAME.bin to standard output, damaged as it is
    NAME.py check FILE      tells what is wrong with a file, and that nothing is where all is as the format says
    NAME.py done FILE       tells whether a file is as the dialogue NAME.cmd leaves it
"""
import json
import struct
import sys
from typing import NamedTuple


class Bits(NamedTuple):
    """A place by the numbers of bits before it and before its end."""

    start: int
    end: int

    def __str__(self):
        return " ".join(f"{it // 8}.{it % 8}" if it % 8 else str(it // 8) for it in self)


def digits(data):
    """Bytes as a text of the digits 0 and 1."""
    return "".join(f"{byte:08b}" for byte in data)


def bit_fields(path, data, start, rows):
    """Values and places of fields of bits that follow each other from a byte on: rows of a name and how many bits it has. A field whose bits aren't all there is
    left out."""
    values, places, at, whole = {}, {}, 8 * start, digits(data)
    for name, width in rows:
        if at + width <= len(whole):
            values[f"{path}/{name}"], places[f"{path}/{name}"] = int(whole[at : at + width], 2), Bits(at, at + width)
        at += width
    return values, places


def fields(path, start, rows):
    """Values and places of fields that follow each other: rows of a name, a `struct` format, and bytes."""
    values, places = {}, {}
    for name, form, data in rows:
        width = struct.calcsize(form)
        values[f"{path}/{name}"] = struct.unpack_from(form, data, start)[0]
        places[f"{path}/{name}"] = (start, start + width)
        start += width
    return values, places


def written(data, place, number, order):
    """Writes a number over the bytes of a place, whose third part may say that it is "signed" or "unsigned", or over its bits; whether it fits."""
    if isinstance(place, Bits):
        whole, width = digits(data), place.end - place.start
        if number < 0 or number >= 1 << width:
            return False
        whole = whole[: place.start] + f"{number:0{width}b}" + whole[place.end :]
        data[:] = bytes(int(whole[at : at + 8], 2) for at in range(0, len(whole), 8))
        return True
    start, end, *sign = place
    bits = 8 * (end - start)
    if number < (0 if sign == ["unsigned"] else -(1 << bits - 1)) or number >= 1 << bits - (sign == ["signed"]):
        return False
    data[start:end] = (number % (1 << bits)).to_bytes(end - start, order)
    return True


def text(value):
    """A value as ksv prints it: a number, a truth value, bytes, or a text, and what is neither as it stands."""
    if isinstance(value, bool):
        return str(value).lower()
    return f"hex {value.hex()}" if isinstance(value, bytes) else str(value)


def quoted(value):
    """A text as ksv prints it."""
    return json.dumps(value, ensure_ascii=False)


def found(read, data):
    """What a reader tells of a file: values and places by their paths. Where it can't read it, nothing."""
    try:
        return read(bytes(data))
    except Exception:  # a reader of a library stops in its own way at a damaged file
        return {}, {}


def reply(line, data, read, order):
    """The reply to a line over some bytes, which an edit changes."""
    word, *words = line.split()
    values, places = found(read, data)
    if word in ("get", "at"):
        value = (values if word == "get" else places).get(words[0])
        if isinstance(value, Bits):
            return f"at {value}"
        return "?" if value is None else f"at {value[0]} {value[1]}" if isinstance(value, tuple) else text(value)
    if word == "bytes":
        return f"hex {data[int(words[0]) : int(words[0]) + int(words[1])].hex()}"
    if word == "put":
        if isinstance(values.get(words[0]), bool):
            return "error: not an integer"
        if not written(data, places[words[0]], int(words[1]), order):
            return "error: out of range"
    elif word == "set":
        some = bytes.fromhex(words[1])
        data[int(words[0]) : int(words[0]) + len(some)] = some
    elif word == "ins":
        data[int(words[0]) : int(words[0])] = bytes.fromhex(words[1])
    elif word == "del":
        del data[int(words[0]) : int(words[0]) + int(words[1])]
    elif word == "app":
        data += bytes.fromhex(words[0])
    else:
        return {"size": f"size {len(data)}", "quit": "bye"}.get(word, "?")
    return f"ok {len(data)}"


def replies(name, read, order):
    """Answers the lines of a file."""
    with open(sys.argv[0].removesuffix(".py") + ".bin", "rb") as file:
        data = bytearray(file.read())
    with open(name, encoding="utf-8") as file:
        for line in file:
            if line.strip() and not line.startswith("#"):
                print(reply(line, data, read, order))


def main(read, order="little", **does):
    """Does what the words say: `replies CMD`, and `make`, `check FILE` and `done FILE` where the reader does these."""
    what, *names = sys.argv[1:] or ["help"]
    if what == "replies" and len(names) == 1:
        replies(names[0], read, order)
    elif what == "make" and what in does:
        sys.stdout.buffer.write(does[what]())
    elif what in ("check", "done") and what in does and len(names) == 1:
        try:
            with open(names[0], "rb") as file:
                data = file.read()
        except OSError as why:
            sys.exit(f"{names[0]}: cannot read: {why.strerror}")
        wrong = does[what](data)
        print("\n".join(wrong or ["nothing is wrong"]))
        sys.exit(1 if wrong else 0)
    else:
        print(f"usage: {sys.argv[0]} " + " | ".join(["replies CMD", *(it if it == "make" else f"{it} FILE" for it in does)]), file=sys.stderr)
        sys.exit(2)
