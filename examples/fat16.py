#!/usr/bin/env python3
"""A reader of FAT16 disks of its own, by the specification, and the maker of fat16.bin. See reader.py."""
import struct
import sys
from typing import NamedTuple

sys.dont_write_bytecode = True

import reader  # noqa: E402

SECTOR, SECTORS, FAT_SECTORS, ROOT_ENTRIES, USED = 512, 4124, 16, 16, 10
POEM = "".join(f"{count:3} bottles on the wall\n" for count in range(60, 0, -1))[:1200]
NOTE = "Undelete me: the first letter and the chain are gone.\n" * 12
SEA = "The sea, the sea.\n"
BOOT = "<3s8sHBHBHHBHHHIIBBBI11s8s448s2s"
NAMES = "jump maker len_sector num_sectors_per_cluster num_reserved_sectors num_fats num_root_entries num_sectors media num_sectors_per_fat".split()
# What a text file may have beside the letters from a space to `~`: tab, line feed and carriage return.
BREAKS = b"\t\n\r"


class Disk(NamedTuple):
    """What the boot sector says: where the tables are and how long each is, where the root is and how many entries it has, where the clusters are and how
    long each is."""

    fats: int
    len_fat: int
    root: int
    num_entries: int
    clusters: int
    len_cluster: int


def disk(data):
    """The places that the boot sector gives."""
    found = dict(zip(NAMES, struct.unpack_from(BOOT, data)))
    sector = found["len_sector"]
    fats, len_fat, entries_ = found["num_reserved_sectors"] * sector, found["num_sectors_per_fat"] * sector, found["num_root_entries"]
    root = fats + found["num_fats"] * len_fat
    return Disk(fats, len_fat, root, entries_, root + 32 * entries_, found["num_sectors_per_cluster"] * sector)


def place(data, cluster):
    """Where a cluster begins."""
    return disk(data).clusters + (cluster - 2) * disk(data).len_cluster


def count(data, size):
    """How many clusters so many bytes need."""
    return -(-size // disk(data).len_cluster)


def entry(name, attributes, cluster, size):
    """An entry of a directory, of 2024-05-17, 12:30."""
    stem, _, extension = name.partition(".") if name.strip(".") else (name, "", "")
    head = stem.ljust(8).encode("latin-1") + extension.ljust(3).encode()
    return head + struct.pack("<B10sHHHI", attributes, bytes(10), 12 << 11 | 30 << 5, 44 << 9 | 5 << 5 | 17, cluster, size)


def make():
    """The disk, without the sectors behind the last cluster in use: README.TXT is in clusters 2, 5 and 3, PHOTOS in 4, NOTE.TXT (deleted) in 6 and 7,
    and SEA.TXT of PHOTOS in 8. The first table has another cluster after 2 than its copy."""
    boot = struct.pack(BOOT, b"\xeb\x3c\x90", b"MSDOS5.0", SECTOR, 1, 1, 2, ROOT_ENTRIES, SECTORS, 0xF8, FAT_SECTORS, 32, 2, 0, 0, 0x80, 0, 0x29, 0x1234ABCD,
                       b"HOLIDAY    ", b"FAT16   ", bytes(448), b"\x55\xaa")
    chain = {0: 0xFFF8, 1: 0xFFFF, 2: 5, 5: 3, 3: 0xFFFF, 4: 0xFFFF, 8: 0xFFFF}
    tables = [[table.get(it, 0) for it in range(FAT_SECTORS * SECTOR // 2)] for table in ({**chain, 2: 0}, chain)]
    fats = b"".join(struct.pack(f"<{len(it)}H", *it) for it in tables)
    root = entry("HOLIDAY", 8, 0, 0) + entry("README.TXT", 0x20, 2, len(POEM)) + entry("\xe5OTE.TXT", 0x20, 6, len(NOTE)) + entry("PHOTOS", 0x10, 4, 0)
    photos = entry(".", 0x10, 4, 0) + entry("..", 0x10, 0, 0) + entry("SEA.TXT", 0x20, 8, len(SEA))
    clusters = {4: photos, 8: SEA.encode()}
    for text, some in ((POEM, (2, 5, 3)), (NOTE, (6, 7))):
        clusters.update({it: text.encode()[at * SECTOR : (at + 1) * SECTOR] for at, it in enumerate(some)})
    data = b"".join(clusters.get(it, b"").ljust(SECTOR, b"\0") for it in range(2, 2 + USED - 3))
    return boot + fats + root.ljust(SECTOR, b"\0") + data


def table(data, which):
    """A table of clusters."""
    return struct.unpack_from(f"<{disk(data).len_fat // 2}H", data, disk(data).fats + which * disk(data).len_fat)


def entries(data, start, number, path):
    """The entries of a directory: of each its path, place, name, attributes, cluster and size."""
    for at in range(number):
        name, attributes, _, time, date, cluster, size = struct.unpack_from("<11sB10sHHHI", data, start + at * 32)
        yield f"{path}/entries/{at}", start + at * 32, name, attributes, date, cluster, size


def clusters(data, cluster, size):
    """The clusters that the first table gives a file; it ends where the table gives none."""
    found, fat = [], table(data, 0)
    while len(found) < count(data, size) and 2 <= cluster < min(0xFFF0, len(fat)):
        found.append(cluster)
        cluster = fat[cluster]
    return found, cluster


def add_file(data, found, values, places):
    """What is told of an entry and the file that it names."""
    path, at, name, attributes, date, cluster, size = found
    values[f"{path}/full_name"] = '"' + (name[:8] + b"." + name[8:]).decode("latin-1") + '"' if name[0] < 128 else None
    values.update({f"{path}/is_deleted": str(name[0] == 0xE5).lower(), f"{path}/year": 1980 + (date >> 9), f"{path}/len_file": size,
                   f"{path}/first_cluster": cluster, f"{path}/attributes": attributes, f"{path}/is_directory": str(attributes & 16 != 0).lower()})
    places.update({path: (at, at + 32), f"{path}/name": (at, at + 8), f"{path}/attributes": (at + 11, at + 12), f"{path}/first_cluster": (at + 26, at + 28), f"{path}/len_file": (at + 28, at + 32)})
    some, after = clusters(data, cluster, size)
    values[f"{path}/chain"] = f"[{count(data, size)}]"
    if not size:
        values[f"{path}/has_end"] = f"fault absent at {path}/has_end"
    elif len(some) < count(data, size):
        for what in ("cluster", "text", "body"):
            values[f"{path}/chain/{len(some)}/{what}"] = f"fault invalid at {path}/chain/{len(some)}/cluster"
        values[f"{path}/has_end"] = f"fault invalid at {path}/chain/{len(some)}/cluster"
    else:
        values[f"{path}/has_end"] = str(after >= 0xFFF8).lower()
    for number, it in enumerate(some):
        start, rest = place(data, it), min(disk(data).len_cluster, size - number * disk(data).len_cluster)
        values[f"{path}/chain/{number}/cluster"] = it
        values[f"{path}/chain/{number}/text"] = '"' + data[start : start + rest].decode("latin-1").replace("\n", "\\n") + '"'
        places[f"{path}/chain/{number}/body"] = (start, start + rest)


def read(data):
    """What a person would ask: values and places by their paths."""
    fields = dict(zip(NAMES, struct.unpack_from(BOOT, data)))
    values = {f"/boot/{name}": value for name, value in fields.items() if isinstance(value, int)}
    values.update({"/boot/label": f'"{data[43:54].decode()}"', "/fats": f"[{data[16]}]", "/fats_agree": str(table(data, 0) == table(data, 1)).lower()})
    layout = disk(data)
    places = {"/boot": (0, SECTOR), "/root": (layout.root, layout.clusters), "/fats": (layout.fats, layout.root), "/boot/label": (43, 54)}
    for which in (0, 1):
        for cluster, after in enumerate(table(data, which)):
            start = layout.fats + which * layout.len_fat + 2 * cluster
            values[f"/fats/{which}/next/{cluster}"], places[f"/fats/{which}/next/{cluster}"] = after, (start, start + 2)
    for found in entries(data, layout.root, layout.num_entries, "/root"):
        add_file(data, found, values, places)
        if found[3] & 16:
            for inner in entries(data, place(data, found[5]), layout.len_cluster // 32, f"{found[0]}/directory"):
                add_file(data, inner, values, places)
    return values, places


def text_of(data, cluster, size):
    """The text of a file; None where its chain is too short or goes on."""
    some, after = clusters(data, cluster, size)
    if len(some) < count(data, size) or after < 0xFFF8:
        return None
    return b"".join(content(data, it) for it in some)[:size].decode("latin-1")


def content(data, cluster):
    """The bytes of a cluster."""
    return data[place(data, cluster) :][: disk(data).len_cluster]


def files(data):
    """The files of the root by their names: cluster and size. A deleted one isn't there."""
    found = entries(data, disk(data).root, disk(data).num_entries, "")
    return {name.decode("latin-1"): (cluster, size) for _, _, name, kind, _, cluster, size in found if name[0] not in (0, 0xE5) and not kind & 24}


def boot_faults(data):
    """What is wrong with the boot sector, so that nothing else can be looked at."""
    if len(data) < SECTOR:
        return [f"the disk has {len(data)} bytes"]
    found, wrong = dict(zip(NAMES, struct.unpack_from(BOOT, data))), []
    for name, allowed in (("len_sector", (512, 1024, 2048, 4096)), ("num_sectors_per_cluster", (1, 2, 4, 8, 16, 32, 64, 128)), ("num_reserved_sectors", range(1, 1 << 16)),
                          ("num_fats", range(2, 256)), ("num_root_entries", range(0, 1 << 16, 16)), ("num_sectors_per_fat", range(1, 1 << 16))):
        if found[name] not in allowed:
            wrong.append(f"{name} is {found[name]}")
    if not wrong and len(data) < disk(data).clusters:
        wrong.append(f"the disk has {len(data)} bytes, and its clusters begin at {disk(data).clusters}")
    return wrong + [f"{what} isn't right" for what, start, wanted in (("kind", 54, b"FAT16   "), ("signature", 510, b"\x55\xaa")) if data[start : start + len(wanted)] != wanted]


class Check:
    """What is wrong with a disk whose boot sector can be read, and whose clusters are which file's."""

    def __init__(self, data):
        self.data, self.table, self.wrong, self.used = data, table(data, 0), [], {}

    def chain(self, name, cluster):
        """The clusters of a file by the table; what is wrong with them is noted."""
        found = []
        while 2 <= cluster < min(0xFFF0, len(self.table)) and len(self.data) >= place(self.data, cluster + 1):
            if cluster in self.used:
                self.wrong.append(f"{name}: its cluster {cluster} is one of {self.used[cluster]} too")
                return found
            self.used[cluster] = name
            found.append(cluster)
            cluster = self.table[cluster]
        if cluster < 0xFFF8:
            self.wrong.append(f"{name}: behind {len(found)} clusters comes {cluster}, which is none of the disk")
        return found

    def file(self, name, cluster, size):
        """Looks at a file: it has as many clusters as its length needs, and a text is text."""
        found = self.chain(name, cluster) if size or cluster else []
        if len(found) != count(self.data, size):
            self.wrong.append(f"{name}: it has {len(found)} clusters, and its length {size} needs {count(self.data, size)}")
        text = b"".join(content(self.data, it) for it in found)[:size]
        odd = next((at for at, byte in enumerate(text) if not 32 <= byte < 127 and byte not in BREAKS), None)
        if name.endswith(".TXT") and odd is not None:
            self.wrong.append(f"{name}: its byte {odd} is {text[odd]}, which isn't text")

    def directory(self, name, cluster, parent):
        """Looks at a directory, whose first entries are itself and the one around it, and at all that is in it."""
        found = self.chain(name, cluster)
        rows = [row for it in found for row in entries(self.data, place(self.data, it), disk(self.data).len_cluster // 32, "")]
        for at, (wanted, which, where) in enumerate(((b".", "itself", cluster), (b"..", "the one around it", parent))):
            if len(rows) <= at or rows[at][2].strip() != wanted or rows[at][5] != where or not rows[at][3] & 16:
                self.wrong.append(f"{name}: its entry {at} isn't `{wanted.decode()}`, {which}, with the cluster {where}")
                return
        self.entries(rows[2:], f"{name}/", cluster)

    def entries(self, rows, front, cluster):
        """Looks at what the entries of a directory name, up to the first that was never used; deleted ones and the disk's label are passed over."""
        for _, _, name, kind, _, first, size in rows:
            if not name[0]:
                return
            if name[0] != 0xE5 and not kind & 8:
                stem, extension = name[:8].decode("latin-1").strip(), name[8:].decode("latin-1").strip()
                whole = f"{front}{stem}" + (f".{extension}" if extension else "")
                self.directory(whole, first, cluster) if kind & 16 else self.file(whole, first, size)


def check(data):
    """What is wrong with the disk: its boot sector, tables that differ, a chain that doesn't fit its file, clusters of two files or of none, a directory
    that isn't one, or a text that is none."""
    wrong = boot_faults(data)
    if wrong:
        return wrong
    found = Check(data)
    found.entries(entries(data, disk(data).root, disk(data).num_entries, ""), "", 0)
    lost = [it for it, after in enumerate(found.table) if after not in (0, 0xFFF7) and it > 1 and it not in found.used]
    tables = [] if all(found.table == table(data, it) for it in range(1, data[16])) else ["the tables differ"]
    return tables + found.wrong + ([f"the table has clusters that are of no file: {', '.join(map(str, lost))}"] if lost else [])


def done(data):
    """What is other than the dialogue leaves it: both files of the root have their texts."""
    there = files(data)
    return [f"{name} isn't what it was" for name, text in (("README  TXT", POEM), ("NOTE    TXT", NOTE)) if name not in there or text_of(data, *there[name]) != text]


if __name__ == "__main__":
    reader.main(read, make=make, check=check, done=done)
