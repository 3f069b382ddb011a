#!/usr/bin/env python3
"""A reader of pictures in PNG: `struct` for the chunks, and `zlib` for their sums. What a field may hold is from the W3C's specification. See reader.py."""
import struct
import sys
import zlib

sys.dont_write_bytecode = True

import reader  # noqa: E402

HEADER = (("width", ">I"), ("height", ">I"), ("bits", ">B"), ("color", ">B"), ("compression", ">B"), ("filter", ">B"), ("interlaced", ">B"))
TIME = (("year", ">H"), ("month", ">B"), ("day", ">B"), ("hour", ">B"), ("minute", ">B"), ("second", ">B"))
COLORS = {0: ("grey", 1), 2: ("truecolor", 3), 3: ("palette", 1), 4: ("grey_alpha", 2), 6: ("truecolor_alpha", 4)}
ALLOWED = {"width": range(1, 1 << 31), "height": range(1, 1 << 31), "bits": (1, 2, 4, 8, 16), "compression": (0,), "filter": (0,), "interlaced": (0, 1), "month": range(1, 13), "day": range(1, 32)}


def read(data):
    """What a person would ask: values and places by their paths."""
    values, places, at, number, name = {}, {}, 8, 0, b""
    while name != b"IEND":
        path, (size, name) = f"/chunks/{number}", struct.unpack_from(">I4s", data, at)
        places[f"{path}/len"] = (at, at + 4)
        values.update({f"{path}/name": reader.quoted(name.decode()), f"{path}/is_optional": name[:1].islower()})
        if size >= 1 << 31:
            values.update({f"{path}/len": f"fault invalid at {path}/len", f"/chunks/{number + 1}/name": f"fault invalid at {path}/len"})
            return values, places
        body, end = data[at + 8 : at + 8 + size], at + 8 + size
        places.update({path: (at, end + 4), f"{path}/body": (at + 8, end)})
        values[f"{path}/crc"] = struct.unpack_from(">I", data, end)[0]
        # A chunk whose sum is right is whole.
        values[f"{path}/is_whole"] = values[f"{path}/crc"] == zlib.crc32(name + body)
        add_body(data, name, f"{path}/body", at + 8, body, (values, places))
        at, number = end + 4, number + 1
    if values["/chunks/0/name"] == '"IHDR"':
        values["/chunks"], values["/header"], places["/header"] = f"[{number}]", "object header", "calculated"
    else:
        values.update({it: "fault invalid at /chunks/0" for it in ("/chunks", "/chunks/0", "/header")})
    return values, places


def add_fields(path, rows, data, at, told):
    """The fields of a chunk's body, and which of them aren't allowed."""
    own, where = reader.fields(path, at, [(it, form, data) for it, form in rows])
    for name, allowed in ALLOWED.items():
        if own.get(f"{path}/{name}", allowed[0]) not in allowed:
            own[f"{path}/{name}"] = f"fault invalid at {path}/{name}"
    told[0].update(own)
    told[1].update(where)


def add_body(data, name, path, at, body, told):
    """What is told of a chunk's body."""
    values, places = told
    if name == b"IHDR":
        add_fields(path, HEADER, data, at, told)
        kind, channels = COLORS[data[at + 9]]
        values[f"{path}/color"] = f"color::{kind} ({data[at + 9]})"
        width, bits = values[f"{path}/width"], values[f"{path}/bits"]
        values[f"{path}/len_line"] = bits if isinstance(bits, str) else 1 + (width * bits * channels + 7) // 8
        values.update({"/width": width, "/height": values[f"{path}/height"]})
    elif name == b"PLTE":
        values[f"{path}/colors"] = f"[{len(body) // 3}]"
        values.update({f"{path}/colors/{it // 3}/{('red', 'green', 'blue')[it % 3]}": byte for it, byte in enumerate(body)})
    elif name == b"gAMA":
        values[f"{path}/times_100000"] = struct.unpack(">I", body)[0]
    elif name == b"tIME":
        add_fields(path, TIME, data, at, told)
    elif name == b"tEXt":
        key, _, words = body.partition(b"\0")
        values.update({f"{path}/key": reader.quoted(key.decode()) if 0 < len(key) < 80 else f"fault invalid at {path}/key", f"{path}/text": reader.quoted(words.decode())})
        places[f"{path}/key"] = (at, at + len(key) + 1)
    else:
        values[path] = body


if __name__ == "__main__":
    reader.main(read, order="big")
