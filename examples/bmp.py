#!/usr/bin/env python3
"""A reader of bitmaps of 24 bits a pixel, by `struct`. See reader.py."""
import struct
import sys

sys.dont_write_bytecode = True

import reader  # noqa: E402

HEADER = (("width", "<i"), ("height", "<i"), ("planes", "<H"), ("bits", "<H"), ("compression", "<I"))


def read(data):
    """What a person would ask: values and places by their paths."""
    values, places = reader.fields("/header", 18, [(it, form, data) for it, form in HEADER])
    start, (width, height) = struct.unpack_from("<I", data, 10)[0], struct.unpack_from("<ii", data, 18)
    size = (3 * width + 3) // 4 * 4
    values.update({"/header/compression": "compression::none (0)", "/height": abs(height), "/rows": f"[{abs(height)}]", "/len_row": size})
    places.update({"/header": (18, 14 + struct.unpack_from("<I", data, 14)[0]), "/rows": (start, start + abs(height) * size), "/top": "calculated"})
    for row in range(abs(height)):
        at = start + row * size
        if at + size > len(data):
            values[f"/rows/{row}"] = f"fault end-of-bytes at /rows/{row}"
            break
        values[f"/rows/{row}/pixels"], places[f"/rows/{row}/pixels"] = f"[{width}]", (at, at + 3 * width)
        for column in range(width):
            path, place = f"/rows/{row}/pixels/{column}", at + 3 * column
            values[f"{path}/rgb"] = int.from_bytes(data[place : place + 3], "little")
            places.update({f"{path}/{name}": (place + it, place + it + 1) for it, name in enumerate(("blue", "green", "red"))})
    # Rows are from the bottom up; a height below 0 turns that.
    values["/top_left"] = values.get("/rows/0/pixels/0/rgb" if height < 0 else f"/rows/{height - 1}/pixels/0/rgb")
    return values, places


if __name__ == "__main__":
    reader.main(read)
