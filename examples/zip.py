#!/usr/bin/env python3
"""A reader of ZIP files: Python's `zipfile` for the directory, `struct` for the files' own sections. See reader.py."""
import io
import struct
import sys
import zipfile

sys.dont_write_bytecode = True

import reader  # noqa: E402

FILE = (("version", "<H"), ("flags", "<H"), ("method", "<H"), ("time", "<H"), ("date", "<H"), ("crc32", "<I"), ("len_body", "<I"), ("len_open", "<I"), ("len_name", "<H"), ("len_extra", "<H"))
METHODS = {0: "stored", 8: "deflated"}


def add_file(data, number, at, values, places):
    """What is told of a file's own section; the place behind it."""
    path = f"/sections/{number}/body"
    own, where = reader.fields(path, at + 4, [(it, form, data) for it, form in FILE])
    method, size = own[f"{path}/method"], own[f"{path}/len_body"]
    start = at + 30 + own[f"{path}/len_name"] + own[f"{path}/len_extra"]
    values.update(own)
    places.update({**where, f"{path}/body": (start, start + size), f"/sections/{number}": (at, start + size)})
    values[f"{path}/name"] = reader.quoted(data[at + 30 : at + 30 + own[f"{path}/len_name"]].decode())
    values[f"{path}/body"] = data[start : start + size]
    values[f"{path}/method"] = f"method::{METHODS[method]} ({method})" if method in METHODS else f"fault invalid at {path}/method"
    values[f"{path}/clock"] = reader.quoted(f"{own[f'{path}/time'] >> 11}:{own[f'{path}/time'] >> 5 & 63}")
    month = own[f"{path}/date"] >> 5 & 15
    values[f"{path}/month"] = month if 0 < month < 13 else f"fault invalid at {path}/month"
    if own[f"{path}/flags"] & 8:
        values[f"{path}/flags"] = f"fault invalid at {path}/flags"
    if method == 0 and size != own[f"{path}/len_open"]:
        values[f"{path}/len_open"] = f"fault invalid at {path}/len_open"
    if method == 0:
        values[f"{path}/text"] = reader.quoted(data[start : start + size].decode())
    else:
        values[f"{path}/text"] = f"fault absent at {path}/text" if method in METHODS else values[f"{path}/method"]
        places[f"{path}/text"] = "absent"
    return start + size


def read(data):
    """What a person would ask: values and places by their paths."""
    values, places, at, files = {}, {}, 0, []
    while data[at : at + 4] == b"PK\3\4":
        files.append(at)
        at = add_file(data, len(files) - 1, at, values, places)
    end = data.rindex(b"PK\5\6")
    count, size, start = struct.unpack_from("<HII", data, end + 10)
    last = 2 * len(files)
    values.update({"/sections": f"[{last + 1}]", "/num_entries": count, "/end": "object end"})
    places.update({f"/sections/{last}": (end, len(data)), f"/sections/{last}/body/num_entries": (end + 10, end + 12), f"/sections/{last}/body/directory": (start, start + size)})
    path = f"/sections/{last}/body/directory"
    values.update({path: "object directory" if count == len(files) else f"fault invalid at {path}", f"{path}/sections": f"[{len(files)}]"})
    for number, it in enumerate(range(len(files), last)):
        places[f"/sections/{it}/body/ofs_file"] = (start + 42, start + 46)
        start += 46 + sum(struct.unpack_from("<HHH", data, start + 28))
    with zipfile.ZipFile(io.BytesIO(data)) as archive:
        values[f"/sections/{last}/body/comment"] = reader.quoted(archive.comment.decode())
        for number, info in enumerate(archive.infolist()):
            add_entry(number, len(files), info, files, values, places)
    return values, places


def add_entry(number, count, info, files, values, places):
    """What `zipfile` tells of an entry of the directory."""
    path = f"/sections/{count + number}/body"
    values.update({f"{path}/name": reader.quoted(info.filename), f"{path}/comment": reader.quoted(info.comment.decode()),
                   f"{path}/method": f"method::{METHODS[info.compress_type]} ({info.compress_type})"})
    if info.file_size:
        values[f"{path}/percent"] = info.compress_size * 100 // info.file_size
    if info.header_offset in files:
        own = f"/sections/{files.index(info.header_offset)}"
        places[f"{path}/section"] = places[own]
        values.update({f"{path}/section": "object section", f"{path}/section/body/crc32": values[f"{own}/body/crc32"],
                       f"{path}/agrees": values[f"{own}/body/name"] == reader.quoted(info.filename) and values[f"{own}/body/crc32"] == info.CRC})
    else:
        values[f"{path}/section"] = values[f"{path}/agrees"] = f"fault invalid at {path}/section"


if __name__ == "__main__":
    reader.main(read)
