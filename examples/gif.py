#!/usr/bin/env python3
"""A reader of GIF pictures, by `struct`. What a field may hold is from CompuServe's specification. See reader.py."""
import struct
import sys

sys.dont_write_bytecode = True

import reader  # noqa: E402

IMAGE = (("left", "<H"), ("top", "<H"), ("width", "<H"), ("height", "<H"), ("flags", "<B"))
LABELS, DISPOSALS = {1: "text", 0xF9: "control", 0xFE: "comment", 0xFF: "application"}, ("any", "keep", "background", "previous")
KINDS = {0x21: "extension", 0x2C: "image", 0x3B: "trailer"}


def pieces(data, at):
    """The bytes of pieces up to an empty one, and the place behind that."""
    found = b""
    while data[at]:
        found, at = found + data[at + 1 : at + 1 + data[at]], at + 1 + data[at]
    return found, at + 1


def read(data):
    """What a person would ask: values and places by their paths."""
    version, (width, height) = data[3:6].decode(), struct.unpack_from("<HH", data, 6)
    count = 2 << (data[10] & 7)
    values = {"/version": reader.quoted(version) if version in ("87a", "89a") else "fault invalid at /version", "/width": width, "/height": height, "/palette/colors": f"[{count}]"}
    rgb = [int.from_bytes(data[13 + 3 * it : 16 + 3 * it], "big") for it in range(count)]
    values["/background"] = data[11] if data[11] < count else "fault invalid at /background"
    values["/background_color"] = rgb[data[11]] if data[11] < count else "fault invalid at /background"
    places, at, number, control = {"/version": (3, 6), "/background": (11, 12)}, 13 + 3 * count, 0, None
    start = at
    while data[at] != 0x3B:
        path = f"/blocks/{number}"
        places[f"{path}/kind"] = (at, at + 1)
        if data[at] not in KINDS:
            values.update({it: f"fault invalid at {path}/kind" for it in (f"{path}/kind", f"/blocks/{number + 1}/kind", "/blocks")})
            return values, places
        values[f"{path}/kind"] = f"kind::{KINDS[data[at]]} ({data[at]})"
        first, told = at, (values, places)
        if data[at] == 0x21:
            control, at = add_extension(data, at + 1, f"{path}/body", told)
        else:
            at = add_image(data, at + 1, f"{path}/body", told, (rgb, control, width, height))
        places[path], number = (first, at), number + 1
    values["/blocks"], places["/blocks"], places[f"/blocks/{number}/body"] = f"[{number + 1}]", (start, at + 1), "absent"
    return values, places


def add_extension(data, at, path, told):
    """What is told of an extension; what it says of the next picture, and the place behind it."""
    values, (some, end) = told[0], pieces(data, at + 1)
    values[f"{path}/label"] = f"label::{LABELS[data[at]]} ({data[at]})"
    if data[at] == 0xF9:
        flags, delay, transparent = struct.unpack("<BHB", some)
        values.update({f"{path}/body/delay": delay, f"{path}/body/disposal": f"disposal::{DISPOSALS[flags >> 2 & 7]} ({flags >> 2 & 7})"})
        return (flags, transparent), end
    if data[at] == 0xFF:
        values.update({f"{path}/body/name": reader.quoted(some[:8].decode()), f"{path}/body/loops": int.from_bytes(some[12:14], "little")})
    else:
        values[f"{path}/body/text"] = reader.quoted(some.decode())
    return None, end


def add_image(data, at, path, told, screen):
    """What is told of a picture; the place behind it."""
    (values, places), (rgb, control, width, height) = told, screen
    own, where = reader.fields(path, at, [(it, form, data) for it, form in IMAGE])
    left, top, wide, high, flags = own.values()
    values.update({**own, f"{path}/fits": left + wide <= width and top + high <= height})
    places.update(where)
    at += 9
    places[f"{path}/palette"] = "absent"
    if flags & 0x80:
        count = 2 << (flags & 7)
        rgb, places[f"{path}/palette"] = [int.from_bytes(data[at + 3 * it : at + 3 + 3 * it], "big") for it in range(count)], (at, at + 3 * count)
        at += 3 * count
    values[f"{path}/colors"] = f"[{len(rgb)}]"
    values[f"{path}/code_bits"] = data[at] if 2 <= data[at] <= 8 else f"fault invalid at {path}/code_bits"
    places[f"{path}/code_bits"] = (at, at + 1)
    values[f"{path}/transparent"] = rgb[control[1]] if control and control[0] & 1 else f"fault absent at {path}/transparent"
    return pieces(data, at + 1)[1]


if __name__ == "__main__":
    reader.main(read)
