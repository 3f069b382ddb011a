#!/usr/bin/env python3
"""A reader of FLAC: the text of its bits. See reader.py."""
import struct
import sys

sys.dont_write_bytecode = True

import reader  # noqa: E402

# How many bits each field has.
BLOCK = (("last", 1), ("kind", 7), ("len", 24))
STREAM = (("block_least", 16), ("block_most", 16), ("frame_least", 24), ("frame_most", 24), ("rate", 20), ("channels_less_1", 3), ("bits_less_1", 5), ("samples", 36))
FRAME = (("sync", 14), ("reserved", 1), ("is_variable", 1), ("block_code", 4), ("rate_code", 4), ("channels_code", 4), ("bits_code", 3), ("reserved_2", 1), ("number", 8), ("crc", 8))
KINDS = {0: "stream", 1: "padding", 2: "application", 3: "seek", 4: "comments", 5: "cue", 6: "picture", 127: "never"}
SIZES = {0: "as_stream", 1: "bits8", 2: "bits12", 4: "bits16", 5: "bits20", 6: "bits24", 7: "bits32"}


def read(data):
    """What a person would ask: values and places by their paths."""
    values, places, at, count, is_last = {}, {}, 4, 0, False
    while not is_last:
        path = f"/blocks/{count}"
        own, where = reader.bit_fields(path, data, at, BLOCK)
        kind, size, is_last = own[f"{path}/kind"], own[f"{path}/len"], bool(own[f"{path}/last"])
        places.update({**where, path: (at, at + 4 + size)})
        values.update({f"{path}/len": size, f"{path}/last": is_last, f"{path}/kind": f"block::{KINDS.get(kind, '?')} ({kind})"})
        if kind == 0:
            add_stream(f"{path}/body", data, at + 4, values, places)
        elif kind == 4:
            add_comments(f"{path}/body", data, at + 4, values)
        at, count = at + 4 + size, count + 1
    values["/blocks"] = f"[{count}]"
    own, where = reader.bit_fields("/frame", data, at, FRAME)
    code, sync = own["/frame/bits_code"], own["/frame/sync"]
    places.update({**where, "/frame": (at, at + 6)})
    values.update({**own, "/frame/bits_code": f"bits::{SIZES.get(code, '?')} ({code})", "/frame/sync": sync if sync == 0x3FFE else "fault invalid at /frame/sync", "/coded": data[at + 6 :]})
    return values, places


def add_stream(path, data, start, values, places):
    """What is said of the whole stream."""
    own, where = reader.bit_fields(path, data, start, STREAM)
    places.update({**where, f"{path}/md5": (start + 18, start + 34)})
    rate, depth = own[f"{path}/rate"], own[f"{path}/bits_less_1"]
    bad = "" if depth > 2 else f"fault invalid at {path}/bits_less_1"
    values.update({**own, f"{path}/bits_less_1": bad or depth, f"{path}/bits": bad or depth + 1, f"{path}/channels": own[f"{path}/channels_less_1"] + 1,
                   f"{path}/milliseconds": own[f"{path}/samples"] * 1000 // rate if rate else f"fault zero-divisor at {path}/milliseconds"})


def add_comments(path, data, start, values):
    """The comments, whose lengths are little endian."""
    at = start + 4 + struct.unpack_from("<I", data, start)[0]
    for count in range(struct.unpack_from("<I", data, at)[0]):
        size = struct.unpack_from("<I", data, at + 4)[0]
        values[f"{path}/texts/{count}/text"] = reader.quoted(data[at + 8 : at + 8 + size].decode())
        at += 4 + size


if __name__ == "__main__":
    reader.main(read, "big")
