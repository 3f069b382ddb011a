#!/usr/bin/env python3
"""A reader of icons of its own, with Python's `zlib`, and the maker of ico.bin. See reader.py; `ico.py png` writes the image that the dialogue inserts."""
import struct
import sys
import zlib

sys.dont_write_bytecode = True

import reader  # noqa: E402

FIELDS = (("width", 0, 1), ("height", 1, 1), ("num_colors", 2, 1), ("reserved", 3, 1), ("num_planes", 4, 2), ("num_bits", 6, 2), ("len_image", 8, 4), ("ofs_image", 12, 4))
BITMAP = "<IiiHHIIiiII"


def bitmap(width, height):
    """An image as icons of old have it: a header, rows of pixels from the bottom up, and a mask of one bit a pixel, in rows of 32 bits."""
    pixels = b"".join(bytes([16 * column, 16 * row, 255 - 16 * row, 255]) for row in range(height) for column in range(width))
    return struct.pack(BITMAP, 40, width, 2 * height, 1, 32, 0, len(pixels), 0, 0, 0, 0) + pixels + bytes(4 * height)


def png(width, height):
    """An image in PNG: 8 bits of red, green, blue and alpha."""
    def chunk(name, body):
        return struct.pack(">I", len(body)) + name + body + struct.pack(">I", zlib.crc32(name + body))

    rows = b"".join(b"\0" + bytes([0, 64 * row, 128, 255]) * width for row in range(height))
    return b"\x89PNG\r\n\x1a\n" + chunk(b"IHDR", struct.pack(">IIBBBBB", width, height, 8, 6, 0, 0, 0)) + chunk(b"IDAT", zlib.compress(rows, 9)) + chunk(b"IEND", b"")


def make():
    """An icon of one image, 8 by 8, whose place is told four bytes too far."""
    image = bitmap(8, 8)
    return struct.pack("<HHH", 0, 1, 1) + struct.pack("<BBBBHHII", 8, 8, 0, 0, 1, 32, len(image), 22 + 4) + image


def entries(data):
    """Of each image the place of its entry, and its fields."""
    for count in range(struct.unpack_from("<H", data, 4)[0]):
        at = 6 + 16 * count
        yield at, {name: int.from_bytes(data[at + start : at + start + width], "little") for name, start, width in FIELDS}


def read(data):
    """What a person would ask: values and places by their paths."""
    count = struct.unpack_from("<H", data, 4)[0]
    kind = {1: "kind::icon (1)", 2: "kind::cursor (2)"}.get(data[2])
    values, places = {"/kind": kind, "/len_header": 6 + 16 * count, "/num_images": count, "/entries": f"[{count}]"}, {"/num_images": (4, 6), "/entries": (6, 6 + 16 * count)}
    for number, (at, fields) in enumerate(entries(data)):
        path, start, size = f"/entries/{number}", fields["ofs_image"], fields["len_image"]
        is_there = 6 + 16 * count <= start <= len(data) - size
        values.update({f"{path}/{name}": value for name, value in fields.items()})
        places.update({path: (at, at + 16), **{f"{path}/{name}": (at + first, at + first + width) for name, first, width in FIELDS}})
        if not is_there:
            for name in ("ofs_image", "image", "is_right", "mark", "image/width"):
                values[f"{path}/{name}"] = f"fault invalid at {path}/ofs_image"
            places[f"{path}/image"] = f"fault invalid at {path}/ofs_image"
            continue
        mark = values[f"{path}/mark"] = struct.unpack_from("<I", data, start)[0]
        places[f"{path}/image"] = (start, start + size)
        if mark == 40:
            width, height = struct.unpack_from("<ii", data, start + 4)
            values.update({f"{path}/image": "object bitmap", f"{path}/image/width": width, f"{path}/image/height": height // 2, f"{path}/image/rows": f"[{height // 2}]"})
            for row in range(height // 2):
                for column in range(width):
                    place = start + 40 + 4 * (row * width + column)
                    places[f"{path}/image/rows/{row}/pixels/{column}"] = (place, place + 4)
                    values.update({f"{path}/image/rows/{row}/pixels/{column}/{name}": data[place + it] for it, name in enumerate(("blue", "green", "red", "alpha"))})
        elif mark == 0x474E5089:
            width, height = struct.unpack_from(">II", data, start + 16)
            values.update({f"{path}/image": "object png", f"{path}/image/width": width, f"{path}/image/height": height})
        else:
            continue
        values[f"{path}/is_right"] = str((values[f"{path}/image/width"], values[f"{path}/image/height"]) == (fields["width"], fields["height"])).lower()
    return values, places


def png_wrong(image):
    """What is wrong with an image in PNG: its chunks, their sums, and how many bytes its rows have."""
    at, packed, names = 8, b"", []
    while at < len(image):
        size, name = struct.unpack_from(">I4s", image, at)
        body, (total,) = image[at + 8 : at + 8 + size], struct.unpack_from(">I", image, at + 8 + size)
        if zlib.crc32(name + body) != total:
            return [f"the sum of {name.decode()} is wrong"]
        packed, at, names = packed + (body if name == b"IDAT" else b""), at + 12 + size, [*names, name]
    width, height = struct.unpack_from(">II", image, 16)
    return [] if names[-1] == b"IEND" and len(zlib.decompress(packed)) == height * (1 + 4 * width) else ["its rows have another size"]


def check(data):
    """What is wrong with the icon: an image that isn't behind the one before, or isn't as its entry says, or is no whole PNG."""
    if data[:4] not in (b"\0\0\1\0", b"\0\0\2\0"):
        return ["it doesn't begin as an icon"]
    if len(data) < 6 + 16 * int.from_bytes(data[4:6], "little"):
        return ["the file ends in its entries"]
    found, wrong, end = list(entries(data)), [], 0
    for number, (_, fields) in enumerate(found):
        start, size = fields["ofs_image"], fields["len_image"]
        if start != (end or 6 + 16 * len(found)):
            wrong.append(f"image {number} begins at {start}, and should at {end or 6 + 16 * len(found)}")
        else:
            wrong += image_wrong(data, number, data[start : start + size])
        end = start + size
    return wrong if end == len(data) else [*wrong, f"the last image ends at {end}, and the file at {len(data)}"]


def image_wrong(data, number, image):
    """What is wrong with an image that is where it should be."""
    try:
        values = read(data)[0]
        if values.get(f"/entries/{number}/is_right") != "true":
            return [f"image {number} isn't as its entry says"]
        return png_wrong(image) if values[f"/entries/{number}/mark"] != 40 else []
    except (IndexError, struct.error, zlib.error):
        return [f"image {number} can't be read: a size in it isn't right"]


def done(data):
    """What is other than the dialogue leaves it: the first image, and a second one in PNG."""
    found = [data[it["ofs_image"] :][: it["len_image"]] for _, it in entries(data)]
    return [] if len(found) == 2 and found[0] == bitmap(8, 8) and found[1].startswith(b"\x89PNG") else [f"there are {len(found)} images, or others than the dialogue leaves"]


if __name__ == "__main__":
    if sys.argv[1:] == ["png"]:
        sys.stdout.buffer.write(png(4, 4))
    else:
        reader.main(read, make=make, check=check, done=done)
