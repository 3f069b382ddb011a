#!/usr/bin/env python3
"""A reader of gzip files: Python's `zlib` for the text and its sum, `struct` for the header. See reader.py."""
import struct
import sys
import zlib

sys.dont_write_bytecode = True

import reader  # noqa: E402

HEADER = (("method", "<B"), ("flags", "<B"), ("time", "<I"), ("extra_flags", "<B"), ("system", "<B"))
SYSTEMS = {0: "fat", 3: "unix"}


def read(data):
    """What a person would ask: values and places by their paths."""
    values, places = reader.fields("", 2, [(it, form, data) for it, form in HEADER])
    flags, at = values["/flags"], 10
    values.update({"/method": f"method::deflate ({values['/method']})", "/system": f"system::{SYSTEMS[data[9]]} ({data[9]})"})
    if flags & 4:
        end, at, found = at + 2 + struct.unpack_from("<H", data, at)[0], at + 2, []
        while at < end:
            name, size = struct.unpack_from("<2sH", data, at)
            found.append((name.decode(), data[at + 4 : at + 4 + size]))
            at += 4 + size
        values["/extra/fields/list"] = f"[{len(found)}]"
        for number, (name, some) in enumerate(found):
            values.update({f"/extra/fields/list/{number}/id": reader.quoted(name), f"/extra/fields/list/{number}/data": some})
    else:
        values["/extra"] = "fault absent at /extra"
    for bit, name in ((8, "name"), (16, "comment")):
        if flags & bit:
            end = data.index(b"\0", at)
            values[f"/{name}"], places[f"/{name}"], at = reader.quoted(data[at:end].decode()), (at, end + 1), end + 1
    if flags & 2:
        values["/crc16"], at = struct.unpack_from("<H", data, at)[0], at + 2
    own, where = reader.fields("/footer", len(data) - 8, [("crc32", "<I", data), ("len", "<I", data)])
    values.update({**own, "/body": data[at : len(data) - 8]})
    places.update({**where, "/body": (at, len(data) - 8), "/footer": (len(data) - 8, len(data))})
    places["/percent"] = "calculated" if own["/footer/len"] else "absent"
    # The sum and the length are told where they are those of the text, which `zlib` finds.
    opened = zlib.decompressobj(-15)
    text = opened.decompress(data[at:])
    if opened.unused_data[:4] == struct.pack("<I", zlib.crc32(text)) and own["/footer/len"] == len(text):
        values["/percent"] = (len(data) - 8 - at) * 100 // len(text)
    return values, places


if __name__ == "__main__":
    reader.main(read)
