"""The table of expressions that a session is asked for: each row of `expressions_values.txt`, as a value instance.

The replies are those of that table, which says where they are from, in the words of a session: a fault is at the instance, a text is in double
quotes, and a member has its name. What the loader refuses isn't there."""

import os
import re

TOP = os.path.dirname(os.path.dirname(os.path.dirname(os.path.realpath(__file__))))
VALUES = f"{TOP}/crates/ksv_rows/data/expressions_values.txt"
# The enums of the descriptions; that table knows members by numbers, and two that the description hasn't.
ENUMS = {"animal": {4: "cat", 7: "dog"}, "plant": {1: "oak"}}
LOST = ("animal::bee", "animal::far", "lost", "_root.lost")
# What the loader refuses: a call of another form, names of the language in a wrong place or without what must follow, and a cast to what is no type here.
REFUSED = re.compile(r"_root == _root|_io == _io|.*\.(?:reverse|length)\(.*\)|'a'\.to_i\(1, 2\)|'a'\.substring\((?:0|0, 1, 1)\)|_io\..*|_root\.(?:to_s|substring|as<u>).*"
                     r"|_root\[0\]|.*\.as<t>|.*\._index|.*\._|\(1\)\._root|'a'\._parent|\(true \? _io : _io\)\..*|_index|_")


def groups():
    """The groups of rows of that table, each by its heading: pairs of an expression and its end."""
    found = []
    with open(VALUES, encoding="utf-8") as file:
        for line in file.read().split("\n"):
            if line.startswith("# "):
                heading = line[2:].rstrip(".")
            elif line.startswith("== "):
                found.append((heading, []))
            elif line:
                expression, _, end = line.rpartition(" => ")
                found[-1][1].append((expression, end))
    return found


def reply(end, path):
    """What a session replies for an end."""
    member = re.fullmatch(r"member (\d) (\d+)", end)
    if member:
        name, ids = list(ENUMS.items())[int(member[1])]
        return f"{name}::{ids[int(member[2])]} ({member[2]})"
    if end.endswith(" at /o/v"):
        return f"fault {end[: -len('/o/v')]}{path}"
    return f'"{end[1:-1]}"' if end.startswith("'") else end


def table():
    """The table."""
    yield "# Expressions as value instances: the rows of expressions_values.txt, each asked through a session."
    yield "# Values: those of that table, which says where they are from; written by tools/rows/values.py."
    yield "# Values: answered alike by tools/second, an interpreter of its own that was written from the rules alone."
    for heading, rows in groups():
        asked = [(expression, end) for expression, end in rows if expression not in LOST and not REFUSED.fullmatch(expression)]
        yield f"== {heading}"
        yield "meta: {id: t, encoding: UTF-8}"
        yield "enums:"
        for name, ids in ENUMS.items():
            yield f"  {name}: {{{', '.join(f'{number}: {own}' for number, own in ids.items())}}}"
        yield "instances:"
        for number, (expression, _) in enumerate(asked):
            quoted = expression.replace("'", "''")
            yield f"  v{number}: {{value: '{quoted}'}}"
        yield "-- file "
        for number, (_, end) in enumerate(asked):
            yield f"get /v{number}"
            yield f"> {reply(end, f'/v{number}')}"


# The tables, by the names of their files.
TABLES = {"dialogues_values.txt": table}
