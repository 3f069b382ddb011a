#!/usr/bin/env python3
"""A reader of WAV files: Python's `wave`, and `struct` for the chunks. See reader.py."""
import io
import struct
import sys
import wave

sys.dont_write_bytecode = True

import reader  # noqa: E402

FORMAT = (("tag", "<H"), ("channels", "<H"), ("rate", "<I"), ("bytes_per_second", "<I"), ("len_frame", "<H"), ("bits", "<H"))


def chunks(data):
    """The name, place and length of each chunk."""
    at = 12
    while at < len(data):
        name, size = struct.unpack_from("<4sI", data, at)
        yield name, at, size
        at += 8 + size + size % 2


def read(data):
    """What a person would ask: values and places by their paths."""
    there = list(chunks(data))
    values, places = {"/riff/chunks": f"[{len(there)}]"}, {}
    for number, (name, at, size) in enumerate(there):
        path = f"/riff/chunks/{number}"
        places[path] = (at, at + 8 + size + size % 2)
        if name == b"fmt ":
            own, where = reader.fields(f"{path}/body", at + 8, [(it, form, data) for it, form in FORMAT])
            values.update({**own, f"{path}/body/tag": f"tag::pcm ({own[f'{path}/body/tag']})"})
            places.update(where)
        elif name == b"LIST":
            item, length = struct.unpack_from("<4sI", data, at + 12)
            kind = data[at + 8 : at + 12].decode()
            values.update({f"{path}/body/kind": reader.quoted(kind) if kind in ("INFO", "adtl") else f"fault invalid at {path}/body/kind",
                           f"{path}/body/items/0/text": reader.quoted(data[at + 20 : at + 20 + length].split(b"\0")[0].decode())})
    add_sound(data, there, values, places)
    return values, places


def add_sound(data, there, values, places):
    """What `wave` tells of the sound. It trusts no frame that isn't channels times bits."""
    with wave.open(io.BytesIO(data)) as sound:
        width, channels, count, rate = sound.getsampwidth(), sound.getnchannels(), sound.getnframes(), sound.getframerate()
        frames = sound.readframes(count)
    if values["/riff/chunks/0/body/bits"] not in (8, 16, 32):
        for it in ("0/body/bits", "0/body/len_frame", "1/body/frames/13/samples/0"):
            values[f"/riff/chunks/{it}"] = "fault invalid at /riff/chunks/0/body/bits"
        return
    if values["/riff/chunks/0/body/len_frame"] != width * channels:
        values["/riff/chunks/0/body/len_frame"] = values["/riff/chunks/1/body/frames"] = "fault invalid at /riff/chunks/0/body/len_frame"
        return
    if values["/riff/chunks/0/body/bytes_per_second"] != width * channels * rate:
        values["/riff/chunks/0/body/bytes_per_second"] = "fault invalid at /riff/chunks/0/body/bytes_per_second"
    path, start = "/riff/chunks/1/body/frames", there[1][1] + 8
    values.update({path: f"[{count}]", "/riff/milliseconds": count * 1000 // rate})
    for it in range(count):
        at = it * width * channels
        places[f"{path}/{it}"] = (start + at, start + at + width * channels)
        values[f"{path}/{it}/samples"] = f"[{channels}]"
        for channel in range(channels):
            some = frames[at + channel * width : at + (channel + 1) * width]
            values[f"{path}/{it}/samples/{channel}"] = int.from_bytes(some, "little", signed=width > 1)
            places[f"{path}/{it}/samples/{channel}"] = (start + at + channel * width, start + at + (channel + 1) * width, *(["signed"] if width > 1 else []))


if __name__ == "__main__":
    reader.main(read)
