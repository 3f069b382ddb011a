#!/usr/bin/env python3
"""A reader of tar files: Python's `tarfile`. See reader.py."""
import sys
import tarfile

sys.dont_write_bytecode = True

import reader  # noqa: E402

KINDS = {b"0": "file (48)", b"1": "hard_link (49)", b"2": "symbolic_link (50)", b"5": "directory (53)", b"\0": "old_file (0)"}


def read(data):
    """What a person would ask: values and places by their paths."""
    values, places, at, count = {}, {}, 0, 0
    while any(data[at : at + 512]):
        path, header, block = f"/members/{count}", f"/members/{count}/header", data[at : at + 512]
        stored, total = tarfile.nti(block[148:156]), tarfile.calc_chksums(block)[0]
        values.update({f"{header}/sum": total, f"{header}/checksum": stored, f"{header}/is_sound": total == stored})
        # `frombuf` wants a right checksum.
        info = tarfile.TarInfo.frombuf(block[:148] + b"%06o\0 " % total + block[156:], "utf-8", "strict")
        values.update({f"{header}/name": reader.quoted(info.name + "/" * info.isdir()), f"{header}/link": reader.quoted(info.linkname), f"{header}/mode": info.mode,
                       f"{header}/time": info.mtime, f"{header}/user": reader.quoted(info.uname), f"{header}/kind": f"kind::{KINDS[info.type]}", f"{path}/len": info.size})
        end = at + 512 + info.size
        values[f"{path}/text"] = reader.quoted(data[at + 512 : end].decode())
        values[f"{path}/is_end"] = False
        after = at + 512 + -(-info.size // 512) * 512
        places.update({path: (at, after), f"{path}/body": (at + 512, end), f"{header}/kind": (at + 156, at + 157)})
        at, count = after, count + 1
    values.update({f"/members/{count}/is_end": True, "/members": f"[{count + 1}]"})
    places[f"/members/{count}"] = (at, at + 512)
    return values, places


if __name__ == "__main__":
    reader.main(read)
