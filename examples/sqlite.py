#!/usr/bin/env python3
"""A reader of SQLite databases: Python's `sqlite3` for what is in them, `struct` for where it is. See reader.py."""
import sqlite3
import struct
import sys
import tempfile

sys.dont_write_bytecode = True

import reader  # noqa: E402

KINDS = {5: "kind::inner_table (5)", 13: "kind::table (13)"}


def varint(data, at):
    """A number of one to nine bytes, and the place behind it."""
    number = 0
    for count in range(9):
        number, at = (number << 8 | data[at], at + 1) if count == 8 else (number << 7 | data[at] & 127, at + 1)
        if data[at - 1] < 128:
            break
    return number, at


def add_page(data, page, size, rows, told):
    """What is told of the tree of a page: its kind, its cells, and of each row its place and what SQL says of it."""
    (values, places), start = told, page * size
    path, at = f"/pages/{page}/tree", start + (100 if page == 0 else 0)
    kind, _, count = struct.unpack_from(">BHH", data, at)
    values.update({f"{path}/kind": KINDS[kind], f"{path}/cells": f"[{count}]"})
    if kind == 13:
        places[f"{path}/right"] = "absent"
    for number in range(count):
        cell = start + struct.unpack_from(">H", data, at + (8 if kind == 13 else 12) + 2 * number)[0]
        own = f"{path}/cells/{number}"
        if kind == 5:
            values.update({f"{own}/branch/page": struct.unpack_from(">I", data, cell)[0], f"{own}/branch/tree": "object tree"})
            places[f"{own}/branch"] = (cell, varint(data, cell + 4)[1])
            continue
        length, after = varint(data, cell)
        key, head = varint(data, after)
        places[f"{own}/row"], values[f"{own}/row/id/value"] = (cell, head + length), key
        add_row(f"{own}/row/record/columns", rows[key], values)


def add_row(path, row, values):
    """What SQL says of the columns of a row."""
    for column, it in enumerate(row):
        own = f"{path}/{column}/value"
        if it is None:
            values[own] = "object missing"
        elif isinstance(it, str):
            values[f"{own}/text"] = reader.quoted(it)
        elif isinstance(it, bytes):
            values[f"{own}/bytes"] = it
        elif isinstance(it, float):
            values[f"{own}/bits"] = struct.unpack(">Q", struct.pack(">d", it))[0]
        else:
            # In one, two, four or eight bytes it is an integer of the file, else it is put together.
            values[own] = values[f"{own}/number"] = it


def read(data):
    """What a person would ask: values and places by their paths."""
    with tempfile.NamedTemporaryFile(suffix=".db") as file:
        file.write(data)
        file.flush()
        base = sqlite3.connect(f"file:{file.name}?mode=ro", uri=True)
        try:
            return told(data, base)
        finally:
            base.close()


def told(data, base):
    """What SQL says, with the places that the pages say."""
    size, count, version = (base.execute(f"pragma {it}").fetchone()[0] for it in ("page_size", "page_count", "user_version"))
    found = {"/len_page": size, "/num_pages": count, "/user_version": version, "/schema": "object tree"}, {"/user_version": (60, 64, "unsigned")}
    add_page(data, 0, size, {it[0]: it[1:] for it in base.execute("select rowid, type, name, tbl_name, rootpage, sql from sqlite_master")}, found)
    for root, name in base.execute("select rootpage, name from sqlite_master where type = 'table'").fetchall():
        # The column that is the row's number is stored as nothing.
        wanted = ", ".join("null" if it[5] else it[1] for it in base.execute(f"pragma table_info({name})"))
        rows = {it[0]: it[1:] for it in base.execute(f"select rowid, {wanted} from {name}")}
        for page in range(root - 1, count):
            if data[page * size] in KINDS:
                add_page(data, page, size, rows, found)
    found[1].update({f"/pages/{page}": (page * size, page * size + size) for page in range(count)})
    return found


if __name__ == "__main__":
    reader.main(read, order="big")
