"""The work of `bench/peers` by a parser of Python: run by the system's Python, as `parsers.py FORM NAME`, on what standard input has: the file, and steps, each
some edits of a byte and what is asked after them. All is parsed anew at each step. The form is `items`, of which the number of an element is asked; `table`, of
which all values are, so that what is asked there is 0 and the answer is their sum; or a list after bytes whose number byte 0 has, `bytes`, `u4` or `objects`, of
which the number of an element is asked.

It prints the version and then, for each step, the seconds of a processor that it took and the answer, all as JSON."""
import io
import json
import platform
import sys
import time


def construct_parser(form, is_compiled):
    """A parser of construct, and its version. Only the element can be compiled: of the list a compiled form calls the plain one, and takes longer."""
    import construct

    element = {
        "items": construct.Struct("len" / construct.Int8ub, "body" / construct.Bytes(construct.this.len)),
        "table": construct.Struct("a" / construct.Int32ub, "b" / construct.Int16ub, "c" / construct.Int8ub),
        "bytes": construct.Int8ub,
        "u4": construct.Int32ub,
        "objects": construct.Struct("a" / construct.Int8ub, "b" / construct.Int16ub),
    }[form]
    elements = construct.GreedyRange(element.compile() if is_compiled else element)
    if form in LISTS:
        return construct.Struct("k" / construct.Int8ub, "pad" / construct.Bytes(construct.this.k), "xs" / elements).parse, construct.__version__
    return elements.parse, construct.__version__


def kaitai_parser(form):
    """A parser of Kaitai Struct's runtime, and its version."""
    import kaitaistruct
    from kaitai_items import A, Bytes, Objects, Table, Words

    whole = {"items": lambda io: A(io).items, "table": lambda io: Table(io).rows, "bytes": Bytes, "u4": Words, "objects": Objects}[form]
    return lambda data: whole(kaitaistruct.KaitaiStream(io.BytesIO(data))), kaitaistruct.__version__


# The forms that are lists after bytes whose number byte 0 has.
LISTS = "bytes", "u4", "objects"
PARSERS = {
    "construct": lambda form: construct_parser(form, False),
    "construct, compiled": lambda form: construct_parser(form, True),
    "Kaitai Struct": kaitai_parser,
}
ANSWERS = {
    "items": lambda items, number: items[number].len,
    "table": lambda rows, _: sum(row.a + row.b + row.c for row in rows),
    "bytes": lambda whole, number: whole.xs[number],
    "u4": lambda whole, number: whole.xs[number],
    "objects": lambda whole, number: whole.xs[number].b,
}


def main(form, name):
    """Does the work."""
    sys.dont_write_bytecode = True
    try:
        parse, version = PARSERS[name](form)
    except ImportError:
        print(json.dumps(None))
        return
    work = json.load(sys.stdin)
    data, told = bytearray.fromhex(work["data"]), []
    for edits, asked in work["steps"]:
        begun = time.process_time()
        for place, byte in edits:
            data[place] = byte
        answer = ANSWERS[form](parse(bytes(data)), asked)
        told.append((time.process_time() - begun, answer))
    print(json.dumps({"version": f"{version}, Python {platform.python_version()}", "told": told}))


if __name__ == "__main__":
    main(*sys.argv[1:])
