#!/usr/bin/env python3
"""A reader of BSON of its own, by the specification, and the maker of bson.bin. See reader.py."""
import struct
import sys

sys.dont_write_bytecode = True

import reader  # noqa: E402

KINDS = {1: "double", 2: "text", 3: "document", 4: "list", 5: "binary", 7: "object_id", 8: "truth", 9: "date", 10: "nothing", 16: "int32", 17: "timestamp", 18: "int64"}
# What the file says before it is damaged, and after the dialogue.
BUOY = {"name": "buoy", "depth": 12.5, "tide": -0.375, "readings": [[3, -1], [20, 21, 22]], "is_afloat": True, "seen": 1715948400000, "count": 1 << 40}
MENDED = {"name": "buoy 7", "depth": 13.25, "tide": -0.375, "readings": [[3, -1, 5], [20, 21, 22]], "seen": 1715948400000, "count": 1 << 40}
DATES = ("seen",)


class Broken(Exception):
    """A document that isn't as the format says."""


def written(value):
    """A document or a list, as bytes."""
    body = b""
    for name, it in value.items() if isinstance(value, dict) else enumerate(value):
        if isinstance(it, bool):
            kind, content = 8, bytes([it])
        elif isinstance(it, float):
            kind, content = 1, struct.pack("<d", it)
        elif isinstance(it, str):
            kind, content = 2, struct.pack("<i", len(it.encode()) + 1) + it.encode() + b"\0"
        elif isinstance(it, int):
            kind = 9 if name in DATES else 16 if -(1 << 31) <= it < 1 << 31 else 18
            content = struct.pack("<i" if kind == 16 else "<q", it)
        else:
            kind, content = 3 if isinstance(it, dict) else 4, written(it)
        body += bytes([kind]) + str(name).encode() + b"\0" + content
    return struct.pack("<i", len(body) + 5) + body + b"\0"


def make():
    """The document, as left by a program that put the last number into a list, and forgot that three lengths count it."""
    data = bytearray(written(BUOY))
    for place in starts(data, 0, "/document").values():
        if place[1]:
            struct.pack_into("<i", data, place[0], struct.unpack_from("<i", data, place[0])[0] - 7)
    return bytes(data)


def starts(data, at, path):
    """The places of all documents in one, and whether each has the number 22, a list's third one."""
    found = {path: (at, struct.pack("<B2si", 16, b"2\0", 22) in data[at : at + struct.unpack_from("<i", data, at)[0]])}
    place, number, size = at + 4, 0, struct.unpack_from("<i", data, at)[0]
    while place < at + size - 1:
        kind, end = data[place], data.index(b"\0", place + 1)
        if kind in (3, 4):
            found.update(starts(data, end + 1, f"{path}/elements/list/{number}/value"))
        place, number = end + 1 + width(data, kind, end + 1), number + 1
    return found


def width(data, kind, at):
    """How many bytes a value of a kind has."""
    fixed = {1: 8, 7: 12, 8: 1, 9: 8, 10: 0, 16: 4, 17: 8, 18: 8}
    if kind in fixed:
        return fixed[kind]
    if kind not in (2, 3, 4, 5):
        raise Broken(f"there is no kind {kind}")
    size = struct.unpack_from("<i", data, at)[0]
    return size + {2: 4, 5: 5}.get(kind, 0)


def add_value(data, kind, at, path, told):
    """What is told of an element's value."""
    values, places = told
    end = at + width(data, kind, at)
    places[f"{path}/value"] = (at, end)
    if kind in (16, 18):
        values[f"{path}/value"] = int.from_bytes(data[at:end], "little", signed=True)
    elif kind == 1:
        (number,) = struct.unpack_from("<d", data, at)
        values[f"{path}/value/bits"] = struct.unpack_from("<Q", data, at)[0]
        values[f"{path}/value/is_negative"] = str(number < 0).lower()
        places[f"{path}/value/bits"] = (at, end)
        if 1 <= abs(number) < 2048:
            values.update({f"{path}/value/whole": int(abs(number)), f"{path}/value/thousandths": int(abs(number) % 1 * 1000)})
    elif kind == 2:
        values.update({f"{path}/value/text": '"' + data[at + 4 : end - 1].decode() + '"', f"{path}/value/len_text": end - at - 4})
        places.update({f"{path}/value/text": (at + 4, end - 1), f"{path}/value/len_text": (at, at + 4)})
    elif kind == 8:
        values[f"{path}/value/is_true"] = str(data[at] == 1).lower()
    elif kind == 9:
        values[f"{path}/value/year"] = 1970 + struct.unpack_from("<q", data, at)[0] // 31556952000
    elif kind in (3, 4):
        add_document(data, at, f"{path}/value", told)


def add_document(data, at, path, told):
    """What is told of a document and all that is in it. It ends where its length says: what stands there must be a zero."""
    values, places = told
    size = struct.unpack_from("<i", data, at)[0]
    values[f"{path}/len_document"], places[f"{path}/len_document"], places[path] = size, (at, at + 4), (at, at + size)
    place, number, stop = at + 4, 0, at + size - 1
    while place < stop:
        element = f"{path}/elements/list/{number}"
        try:
            finish = add_element(data, place, stop, element, told)
        except (Broken, ValueError, IndexError, struct.error) as why:
            raise Broken(str(why) if str(why).startswith("/") else f"{element}: {reason(why)}") from None
        places[element], place, number = (place, finish), finish, number + 1
    values[f"{path}/elements/list"] = f"[{number}]"
    if data[stop]:
        values[f"{path}/end"] = f"fault contents at {path}/end"
        raise Broken(f"{path}/end: no zero at {stop}")
    values[f"{path}/end"] = "hex 00"


def add_element(data, place, stop, path, told):
    """What is told of an element of a document whose end is known; where it ends."""
    end = data.index(b"\0", place + 1)
    finish = end + 1 + width(data, data[place], end + 1)
    if not place < finish <= stop:
        raise Broken(f"it ends at {finish}, and its document at {stop}")
    told[0].update({f"{path}/kind": f"kind::{KINDS.get(data[place], '?')} ({data[place]})", f"{path}/name": '"' + data[place + 1 : end].decode() + '"'})
    add_value(data, data[place], end + 1, path, told)
    if data[place] == 2 and data[finish - 1]:
        raise Broken(f"no zero behind its text, at {finish - 1}")
    return finish


def reason(why):
    """Why an element can't be read, in words."""
    if isinstance(why, UnicodeDecodeError):
        return f"byte {why.start} of its text, {why.object[why.start]}, isn't UTF-8"
    return str(why) if isinstance(why, Broken) else "its name has no end" if isinstance(why, ValueError) else "the file ends in it"


def read(data):
    """What a person would ask: values and places by their paths, as far as the document can be read."""
    told = {}, {}
    try:
        add_document(data, 0, "/document", told)
    except (Broken, ValueError, UnicodeDecodeError, struct.error):
        told[1].pop("/document", None)
    return told


def check(data):
    """What is wrong with the document: its length, and the first element that can't be read."""
    size = int.from_bytes(data[:4], "little", signed=True)
    wrong = [] if size == len(data) else [f"the document has {size} bytes, and the file {len(data)}"]
    try:
        add_document(data, 0, "/document", ({}, {}))
    except (Broken, IndexError, struct.error) as why:
        wrong.append(str(why) if isinstance(why, Broken) else f"/document: {reason(why)}")
    return wrong


def done(data):
    """What is other than the dialogue leaves it."""
    return [] if data == written(MENDED) else [f"it is {data.hex()}, and not {written(MENDED).hex()}"]


if __name__ == "__main__":
    reader.main(read, make=make, check=check, done=done)
