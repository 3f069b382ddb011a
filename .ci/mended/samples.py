"""A file of each format of the gallery, made by Python's own writers or by `struct`, and what is in it, as `struct`, `codecs` and `zipfile` read it."""
from __future__ import annotations

import io
import json
import struct
import zipfile
from typing import Callable, Dict, List, Tuple

# A file, and questions with their replies.
Sample = Tuple[bytes, List[Tuple[str, str]]]


def text(words: str) -> str:
    """A text as it is replied."""
    return json.dumps(words, ensure_ascii=False)


def raw(content: bytes) -> str:
    """Bytes as they are replied."""
    return f"hex {content.hex()}"


def truth(value: int) -> str:
    """A truth value as it is replied."""
    return "true" if value else "false"


def ogg() -> Sample:
    """Two pages of one stream."""
    pages = [(2, 0, [30]), (5, 1, [255, 4])]
    content = b"".join(struct.pack("<4sBBQIIIB", b"OggS", 0, flags, number * 960, 77, number, 0xDEADBEEF, len(sizes)) + bytes(sizes) + bytes(sum(sizes)) for flags, number, sizes in pages)
    asked = []
    for count, (flags, number, sizes) in enumerate(pages):
        at = f"/pages/{count}"
        asked += [(f"{at}/flags/is_continued", truth(flags & 1)), (f"{at}/flags/is_beginning_of_stream", truth(flags & 2)), (f"{at}/flags/is_end_of_stream", truth(flags & 4))]
        asked += [(f"{at}/flags/reserved", str(flags >> 3)), (f"{at}/granule_pos", str(number * 960)), (f"{at}/segments/0", raw(bytes(sizes[0]))), (f"{at}/is_packet_open", "false")]
    return content, asked


def quantity(number: int) -> bytes:
    """A number in groups of seven bits."""
    found = [number & 0x7F]
    while number > 0x7F:
        number >>= 7
        found.insert(0, number & 0x7F | 0x80)
    return bytes(found)


def standard_midi_file() -> Sample:
    """A track with a long delay, a note, and its end."""
    name = b"Lead" * 40
    events = quantity(0) + b"\xff\x03" + quantity(len(name)) + name + quantity(100_000) + b"\x93\x3c\x40" + quantity(300) + b"\xe3\x11\x22" + quantity(0) + b"\xff\x2f\x00"
    content = struct.pack(">4sIHHh", b"MThd", 6, 1, 1, 96) + struct.pack(">4sI", b"MTrk", len(events)) + events
    at = "/tracks/0/events/event"
    asked = [("/hdr/division", "96"), (f"{at}/0/meta_event_body/body", raw(name)), (f"{at}/0/meta_event_body/meta_type", "meta_type_enum::sequence_track_name (3)")]
    asked += [(f"{at}/1/v_time/value", "100000"), (f"{at}/1/event_body/note", str(0x3C)), (f"{at}/1/channel", "3"), (f"{at}/2/v_time/value", "300")]
    return content, [*asked, (f"{at}/2/event_body/bend_value", str((0x22 << 7) + 0x11 - 0x4000)), (f"{at}/3/meta_event_body/len/value", "0")]


def icc() -> Sample:
    """A profile with a text in UTF-16."""
    words = "Grüße".encode("utf-16-be")
    element = struct.pack(">4sIII2s2sII", b"mluc", 0, 1, 12, b"de", b"DE", len(words), 28) + words
    header = struct.pack(">I4sBBH4s4s4s6H4s4sI4s4sQIiii4s16s28x", 144 + len(element), b"test", 4, 0x23, 0, b"mntr", b"RGB ", b"XYZ ", 2024, 5, 6, 7, 8, 9, b"acsp", b"APPL", 1,
                         b"none", b"mdl1", 0, 1, 0xF6D6, 0x10000, 0xD32D, b"me  ", bytes(range(16)))
    content = header + struct.pack(">I4sII", 1, b"desc", 144, len(element)) + element
    at = "/tag_table/tags/0/data_element"
    asked = [("/header/version/minor", "2"), ("/header/version/bug_fix_level", "3"), ("/header/device_class", f"profile_classes::display_device ({0x6D6E7472})")]
    asked += [("/header/illuminant/x/raw", str(0xF6D6)), ("/header/flags/is_embedded", "true"), ("/header/flags/is_bound", "false"), (f"{at}/type_signature", text("mluc"))]
    return content, [*asked, (f"{at}/body/records/0/text", raw(words)), (f"{at}/body/records/0/language_code", text("de"))]


def qoi() -> Sample:
    """An image of a few chunks."""
    content = struct.pack(">4sIIBB", b"qoif", 7, 5, 4, 0) + b"\xfe\x01\x02\x03" + b"\xa5\x7c" + b"\xc3" + b"\x6b" + bytes(7) + b"\x01"
    asked = [("/header/width", "7"), ("/header/channels", "channels::rgba (4)"), ("/chunks", "[5]"), ("/chunks/0/body/b", "3"), ("/chunks/1/body/dr_dg", "7"), ("/chunks/1/body/db_dg", "12")]
    return content, [*asked, ("/chunks/2/run", "4"), ("/chunks/3/op", "op::diff (1)"), ("/chunks/3/dr", "0"), ("/chunks/3/is_end", "false"), ("/chunks/4/is_end", "true")]


def dns_packet() -> Sample:
    """An answer whose name is a pointer."""
    name = b"\x03www\x07example\x03com\x00"
    content = struct.pack(">6H", 0x1234, 0x8580, 1, 1, 0, 0) + name + struct.pack(">HH", 1, 1) + b"\xc0\x0c" + struct.pack(">HHiH4B", 1, 1, 300, 4, 192, 0, 2, 1)
    asked = [("/transaction_id", str(0x1234)), ("/flags/qr", "1"), ("/flags/aa", "1"), ("/flags/rcode", "0"), ("/queries/0/name/name/1/name", text("example")), ("/answers/0/ttl", "300")]
    return content, [*asked, ("/answers/0/name/name/0/pointer/contents/name/2/name", text("com")), ("/answers/0/payload/ip", raw(bytes([192, 0, 2, 1]))), ("/queries/0/type", "type_type::a (1)")]


def gpt_partition_table() -> Sample:
    """A table of two entries, one of them unused."""
    name, kind, flags = "Daten ü".encode("utf-16-le").ljust(72, b"\0"), bytes(range(16)), 1 | 4 | 5 << 3 | 0xBEEF << 48
    entry = struct.pack("<16s16sQQQ72s", kind, kind[::-1], 34, 99, flags, name)
    header = struct.pack("<8sIIIIQQQQ16sQIII", b"EFI PART", 0x10000, 92, 1, 0, 1, 3, 34, 99, kind, 2, 2, 128, 5).ljust(512, b"\0")
    content = bytes(512) + header + entry + bytes(128) + bytes(256) + header
    at = "/primary/entries"
    asked = [(f"{at}/0/name", raw(name)), (f"{at}/0/is_unused", "false"), (f"{at}/1/is_unused", "true"), (f"{at}/0/attributes/is_required", "true"), (f"{at}/0/num_sectors", "66")]
    asked += [(f"{at}/0/attributes/is_ignored_by_firmware", "false"), (f"{at}/0/attributes/is_legacy_bootable", "true"), (f"{at}/0/attributes/reserved", "5")]
    return content, [*asked, (f"{at}/0/attributes/of_type", str(0xBEEF)), ("/backup/entries_size", "128")]


def ext2() -> Sample:
    """A file system with the root's directory alone."""
    volume, mounted = "Größe".encode("latin-1"), "/mnt/é".encode("latin-1")
    block = struct.pack("<13I", 16, 64, 0, 9, 8, 1, 0, 0, 8192, 8192, 16, 0, 0) + struct.pack("<HHHHHH", 1, 20, 0xEF53, 1, 2, 0)
    block += struct.pack("<4IHHIHHIII16s16s64s", 0, 0, 0, 1, 0, 0, 11, 128, 0, 0b101100, 2, 1, bytes(range(16)), volume, mounted)
    inodes = bytes(128) + struct.pack("<HHIIIIIHHIII15I", 0o40755, 0, 1024, 1, 2, 3, 0, 0, 2, 2, 0, 0, 20, *[0] * 14).ljust(128, b"\0") + bytes(128 * 14)
    entries = struct.pack("<IHBB4s", 2, 12, 1, 2, b".") + struct.pack("<IHBB", 11, 1012, 5, 1) + b"a.txt"
    content = bytes(1024) + block.ljust(1024, b"\0") + struct.pack("<IIIHHH14x", 3, 4, 5, 9, 8, 1)
    content = (content.ljust(5 * 1024, b"\0") + inodes).ljust(20 * 1024, b"\0") + entries.ljust(1024, b"\0")
    at, root = "/bg1/super_block", "/bg1/block_groups/0/inodes/1/as_dir/entries"
    asked = [(f"{at}/volume_name", raw(volume)), (f"{at}/last_mounted", raw(mounted)), (f"{at}/feature_compat/has_journal", "true"), (f"{at}/feature_compat/dir_prealloc", "false")]
    asked += [(f"{at}/feature_compat/dir_index", "true"), (f"{at}/feature_compat/reserved", "0"), (f"{at}/state", "state_enum::valid_fs (1)"), (f"{root}/0/name", text("."))]
    return content, [*asked, (f"{root}/1/name", text("a.txt")), (f"{root}/1/file_type", "file_type_enum::reg_file (1)"), ("/bg1/block_groups/0/inodes/1/mode", str(0o40755))]


def zip_file() -> Sample:
    """An archive with a date and a comment in another encoding."""
    room, comment = io.BytesIO(), "Grüße".encode("cp437")
    with zipfile.ZipFile(room, "w", zipfile.ZIP_DEFLATED) as archive:
        one = zipfile.ZipInfo("a.txt", (2021, 11, 28, 13, 37, 42))
        one.compress_type = zipfile.ZIP_DEFLATED
        archive.writestr(one, b"abc" * 100)
        archive.comment = comment
    found = zipfile.ZipFile(room).infolist()[0]
    at = "/sections/0/body/header"
    names = ("year", "month", "day"), ("hour", "minute", "second")
    asked = [(f"{at}/file_mod_time/{part}/{name}", str(value)) for part, of, values in zip(("date", "time"), names, (found.date_time[:3], found.date_time[3:])) for name, value in zip(of, values)]
    asked += [(f"{at}/crc32", str(found.CRC)), (f"{at}/len_body_compressed", str(found.compress_size)), (f"{at}/flags/file_encrypted", truth(found.flag_bits & 1)), ("/sections/2/body/comment", raw(comment))]
    asked += [(f"{at}/flags/comp_options_raw", str(found.flag_bits >> 1 & 3)), (f"{at}/flags/lang_encoding", truth(found.flag_bits & 0x800)), ("/sections/1/body/file_mod_time/date/year", "2021")]
    return room.getvalue(), [*asked, (f"{at}/flags/deflated_mode", "deflate_mode::normal (0)"), ("/sections/1/body/local_header/body/header/file_name", text("a.txt"))]


def webp() -> Sample:
    """An image of three kinds of chunks."""
    extended = struct.pack("<B3x", 0b0101_1010) + (1023).to_bytes(3, "little") + (70_000).to_bytes(3, "little")
    lossy = (0x1234_57).to_bytes(3, "little") + b"\x9d\x01\x2a" + struct.pack("<HH", 640 | 2 << 14, 481 | 1 << 14) + b"\x01"
    lossless = b"\x2f" + struct.pack("<I", 99 | 16_000 << 14 | 1 << 28 | 5 << 29) + b"\x02"
    chunks = b"".join(name + struct.pack("<I", len(it)) + it + bytes(len(it) % 2) for name, it in ((b"VP8X", extended), (b"VP8 ", lossy), (b"VP8L", lossless)))
    content = b"RIFF" + struct.pack("<I", 4 + len(chunks)) + b"WEBP" + chunks
    one, two, three = (f"/chunks/{it}/body" for it in range(3))
    asked = [(f"{one}/{name}", truth(0b0101_1010 >> count & 1)) for count, name in enumerate(("reserved1", "has_animation", "has_xmp", "has_exif", "has_alpha", "has_icc"))]
    asked += [(f"{one}/reserved2", "1"), (f"{one}/width", "1024"), (f"{one}/height", "70001"), (f"{two}/frame_tag", str(0x123457)), (f"{two}/width", "640"), (f"{two}/horizontal_scale", "2")]
    asked += [(f"{two}/height", "481"), (f"{two}/vertical_scale", "1"), (f"{two}/data", raw(b"\x01")), (f"{three}/width_minus_1", "99"), (f"{three}/height_minus_1", "16000")]
    return content, [*asked, (f"{three}/is_alpha_used", "true"), (f"{three}/version", "5"), (f"{three}/data", raw(b"\x02"))]


def pcap() -> Sample:
    """A packet of each layer down to UDP."""
    datagram = struct.pack(">HHHH", 53, 1234, 13, 0) + b"hello"
    packet = struct.pack(">BBHHHBBH4s4s", 0x45, 0, 20 + len(datagram), 1, 0, 64, 17, 0, bytes([10, 0, 0, 1]), bytes([10, 0, 0, 2])) + datagram
    frame = bytes(range(12)) + struct.pack(">H", 0x0800) + packet
    content = struct.pack("<IHHiIII", 0xA1B2C3D4, 2, 4, 0, 0, 65535, 1) + struct.pack("<IIII", 1000, 5, len(frame), len(frame)) + frame
    at = "/packets/0/body"
    asked = [("/hdr/snaplen", "65535"), ("/hdr/network", "linktype::ethernet (1)"), (f"{at}/src_mac", raw(bytes(range(6, 12)))), (f"{at}/ether_type", "ether_type_enum::ipv4 (2048)")]
    return content, [*asked, (f"{at}/body/ihl_bytes", "20"), (f"{at}/body/dst_ip_addr", raw(bytes([10, 0, 0, 2]))), (f"{at}/body/body/dst_port", "1234"), (f"{at}/body/body/body", raw(b"hello"))]


def stl_binary() -> Sample:
    """A solid of one triangle."""
    corners, color, comment = (0.5, -1.25, 3e8, 1, 2, 3, 0, 0, 0.1), 3 | 17 << 5 | 30 << 10 | 1 << 15, "Würfel".encode("cp1252")
    content = comment.ljust(80, b"\0") + struct.pack("<I3f9fH", 1, 0, 0, 1, *corners, color)
    bits = [str(struct.unpack("<I", struct.pack("<f", it))[0]) for it in corners]
    at = "/facets/0"
    asked = [(f"{at}/corners/{count // 3}/{'xyz'[count % 3]}", it) for count, it in enumerate(bits)] + [("/comment", raw(comment)), (f"{at}/normal/z", str(0x3F800000))]
    return content, [*asked, (f"{at}/color/blue", "3"), (f"{at}/color/green", "17"), (f"{at}/color/red", "30"), (f"{at}/color/is_valid", "true")]


SAMPLES: Dict[str, Callable[[], Sample]] = {
    "ogg": ogg, "standard_midi_file": standard_midi_file, "icc": icc, "qoi": qoi, "dns_packet": dns_packet, "gpt_partition_table": gpt_partition_table, "ext2": ext2, "zip": zip_file,
    "webp": webp, "pcap": pcap, "stl_binary": stl_binary,
}
