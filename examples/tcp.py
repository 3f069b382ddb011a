#!/usr/bin/env python3
"""A reader of packets of TCP over IPv4: the text of their bits. See reader.py."""
import struct
import sys

sys.dont_write_bytecode = True

import reader  # noqa: E402

# How many bits each field of a header has, and which fields are yes or no.
IP = (("version", 4), ("header_words", 4), ("service", 6), ("congestion", 2), ("len", 16), ("number", 16), ("reserved", 1), ("dont_fragment", 1),
      ("more_fragments", 1), ("ofs_fragment", 13), ("hops", 8), ("protocol", 8), ("checksum", 16))
FLAGS = ("cwr", "ece", "urg", "ack", "psh", "rst", "syn", "fin")
TCP = (("source", 16), ("target", 16), ("sequence", 32), ("acknowledged", 32), ("header_words", 4), ("reserved", 4), *((it, 1) for it in FLAGS),
       ("window", 16), ("checksum", 16), ("urgent_to", 16))
CONGESTION = ("not_capable", "capable_1", "capable_0", "experienced")


def read(data):
    """What a person would ask: values and places by their paths."""
    values, places, at, count = {}, {}, 24, 0
    link = struct.unpack_from("<I", data, 20)[0]
    values["/link"] = f"link::{'raw' if link == 101 else '?'} ({link})"
    while at < len(data):
        size, path = struct.unpack_from("<I", data, at + 8)[0], f"/packets/{count}/ip"
        places[path] = (at + 16, at + 16 + size)
        for there, more in zip((values, places), packet(path, data, at + 16)):
            there.update(more)
        at, count = at + 16 + size, count + 1
    values["/packets"] = f"[{count}]"
    return values, places


def packet(path, data, start):
    """The header of IPv4, and the segment behind it."""
    values, places = reader.bit_fields(path, data, start, IP)
    words, end = values[f"{path}/header_words"], start + values[f"{path}/len"]
    body = start + 4 * words
    places.update({f"{path}/source": (start + 12, start + 16), f"{path}/target": (start + 16, start + 20), f"{path}/body": (body, end)})
    values.update(segment(f"{path}/body", data[:end], body, places))
    for it in ("dont_fragment", "more_fragments", "reserved"):
        values[f"{path}/{it}"] = bool(values[f"{path}/{it}"])
    code, protocol = values[f"{path}/congestion"], values[f"{path}/protocol"]
    values.update({f"{path}/is_fragment": values[f"{path}/more_fragments"] or values[f"{path}/ofs_fragment"] > 0, f"{path}/options": data[start + 20 : body],
                   f"{path}/congestion": f"congestion::{CONGESTION[code]} ({code})", f"{path}/body": "object segment",
                   f"{path}/protocol": f"protocol::{ {1: 'icmp', 6: 'tcp', 17: 'udp'}.get(protocol, '?')} ({protocol})"})
    if words < 5:
        values.update(dict.fromkeys((f"{path}/header_words", f"{path}/body", f"{path}/options"), f"fault invalid at {path}/header_words"))
    if values[f"{path}/version"] != 4:
        values[f"{path}/version"] = f"fault invalid at {path}/version"
    return values, places


def segment(path, data, start, places):
    """What the header of TCP has, and the data behind it; its places are added to those of the packet."""
    values, own = reader.bit_fields(path, data, start, TCP)
    places.update(own)
    words = values[f"{path}/header_words"]
    values.update({f"{path}/options": data[start + 20 : start + 4 * words], f"{path}/data": data[start + 4 * words :],
                   f"{path}/opens": bool(values[f"{path}/syn"]) and not values[f"{path}/ack"]})
    for it in FLAGS:
        values[f"{path}/{it}"] = f"flag::{('clear', 'set')[values[f'{path}/{it}']]} ({values[f'{path}/{it}']})"
    return values


if __name__ == "__main__":
    reader.main(read, "big")
