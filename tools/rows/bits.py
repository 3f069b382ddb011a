"""The two tables of bits whose replies are computed, by plain arithmetic and by a text of the digits 0 and 1. It has nothing of tools/second.

`dialogues_bits_widths.txt` has each width from 1 to 64 at each bit of a byte: the file is one integer, a field is a part of it, found by a
division and a remainder. `dialogues_bits_layouts.txt` has random types of bits, bytes, lists, windows and objects: the file is a text of
digits, which is read from the left."""

import json
import random

SEED = 48
LAYOUTS = 48


class Dice:
    """Random choices: those of `random()` alone, which every Python makes alike from one seed."""

    def __init__(self, seed):
        self.source = random.Random(seed)

    def below(self, count):
        """A number from 0 on and below another."""
        return int(self.source.random() * count)

    def of(self, choices):
        """One of some."""
        return choices[self.below(len(choices))]

    def bits(self, width):
        """A number of some bits, each by itself."""
        return int("".join(str(self.below(2)) for _ in range(width)), 2)

    def field(self, width):
        """A number for a field: at one of its ends, or any."""
        return self.of([0, 1, 2**width - 1, 2**(width - 1), self.bits(width), self.bits(width), self.bits(width)])

    def bytes(self, count):
        """Some bytes."""
        return bytes(self.below(256) for _ in range(count))


def place(bits):
    """A place of bits as replies write it."""
    return f"{bits // 8}.{bits % 8}" if bits % 8 else f"{bits // 8}"


# Each width at each bit.

SIZE = 10


def part(number, size, bit, width):
    """The field of a width that begins some bits behind the first of an integer of bytes: what it is worth."""
    behind = 8 * size - bit - width
    return number // 2**behind % 2**width


def replaced(number, size, bit, width, value):
    """The integer with another number in that field."""
    behind = 8 * size - bit - width
    return number + (value - part(number, size, bit, width)) * 2**behind


def shown(width, value, plain):
    """A field's text: one bit is a truth value, or the member of an enum; all others are numbers."""
    if width > 1:
        return str(value)
    return ("true" if value else "false") if plain else ("flag::on (1)" if value else "flag::off (0)")


def width_row(dice, bit):
    """The row of all widths at a bit."""
    fields = [("q1", 1, True), ("p1", 1, False)] + [(f"p{width}", width, False) for width in range(2, 65)]
    yield f"== each width from bit {bit} of a byte on"
    yield "meta: {id: t}"
    yield "instances:"
    for name, _, _ in fields:
        yield f"  {name}: {{pos: 0, type: t{name}}}"
    yield "types:"
    for name, width, plain in fields:
        before = f"{{id: a, type: b{bit}}}, " if bit else ""
        enum = ", enum: flag" if width == 1 and not plain else ""
        yield f"  t{name}: {{seq: [{before}{{id: f, type: b{width}{enum}}}]}}"
    yield "enums: {flag: {0: off, 1: on}}"
    number = int.from_bytes(dice.bytes(SIZE), "big")
    yield f"-- file {number:020x}"
    for name, width, plain in fields:
        gap, byte, value = dice.below((bit + width + 7) // 8 + 1), dice.below(256), dice.field(width)
        behind = 8 * (SIZE - gap)
        longer = number // 2**behind * 2**(behind + 8) + byte * 2**behind + number % 2**behind
        yield f"ins {gap} {byte:02x}"
        yield f"> ok {SIZE + 1}"
        yield f"get /{name}/f"
        yield f"> {shown(width, part(longer, SIZE + 1, bit, width), plain)}"
        yield f"del {gap} 1"
        yield f"> ok {SIZE}"
        yield f"get /{name}/f"
        yield f"> {shown(width, part(number, SIZE, bit, width), plain)}"
        yield f"at /{name}/f"
        yield f"> at {place(bit)} {place(bit + width)}"
        yield f"put /{name}/f {value}"
        if plain:
            yield "> error: not an integer"
        else:
            yield f"> ok {SIZE}"
            number = replaced(number, SIZE, bit, width, value)
        yield f"get /{name}/f"
        yield f"> {shown(width, part(number, SIZE, bit, width), plain)}"
        yield f"bytes 0 {SIZE}"
        yield f"> hex {number:020x}"
        if not plain and width < 64 and (width + bit) % 5 == 0:
            yield f"put /{name}/f {2**width}"
            yield "> error: out of range"


def widths():
    """The table of widths."""
    dice = Dice(SEED)
    yield "# Each width from b1 to b64 at each bit of a byte: read and written, and read with a byte more at a place in it, at which the"
    yield "# buffer's gap then is; b1 as a truth value and as a member of an enum."
    yield "# Values: computed by tools/rows/bits.py, which takes the file for one integer and divides it."
    yield "# Values: answered alike by tools/second, an interpreter of its own to which types of bits were added later (its README)."
    for bit in range(8):
        yield from width_row(dice, bit)


# Random layouts.

class Fault(Exception):
    """A fault, with its text."""


class Found:
    """What stands at a path: its text in `get`, its value in a dump, where it begins and ends, and what is below it by name or number.
    An end is a number of bits or a Fault."""

    def __init__(self, text=None, value=None, start=None, end=None, inner=()):
        self.text, self.value, self.start, self.end, self.inner = text, value, start, end, dict(inner)
        self.width = None  # of a field of bits that `put` may write


def is_bits(form):
    """Whether a form is a field of bits or a list of such fields."""
    return form["kind"] in ("bits", "truth", "member") or form["kind"] == "list" and is_bits(form["of"])


class Reader:
    """Reads a text of digits by a layout."""

    def __init__(self, data):
        self.size = len(data)
        self.digits = "".join(f"{byte:08b}" for byte in data)
        self.data = data

    def object(self, fields, start, limit, path):
        """The fields of an object that begins at a byte of a stream that ends at a byte: the object with all that is in it."""
        found, at = Found(start=start), start
        for name, form in fields:
            inner = f"{'' if path == '/' else path}/{name}"
            try:
                if isinstance(at, Fault):
                    raise at
                begin = at if is_bits(form) else (at + 7) // 8 * 8
                one = self.attribute(form, begin, limit, inner, found)
            except Fault as fault:
                one = Found(text=fault, value=fault, start=fault, end=fault)
            found.inner[name], at = one, one.end
        found.end = at if isinstance(at, Fault) else (at + 7) // 8 * 8
        return found

    def attribute(self, form, at, limit, path, home):
        """An attribute, which may be absent."""
        wanted = form.get("if", True)
        if isinstance(wanted, str):
            wanted = self.sibling(home, wanted)
        if not wanted:
            return Found(text=Fault(f"absent at {path}"), value=None, end=at)
        return self.shape(form, at, limit, path, home)

    @staticmethod
    def sibling(home, name):
        """The value of a field before."""
        value = home.inner[name].value
        if isinstance(value, Fault):
            raise value
        return value

    def reach(self, end, limit, path):
        """A place must not be behind the stream's end."""
        if end > 8 * limit:
            raise Fault(f"end-of-bytes at {path}")

    def shape(self, form, at, limit, path, home):
        """What a form reads at a place."""
        kind = form["kind"]
        if kind == "list":
            return self.list(form, at, limit, path, home)
        if kind == "object" and "size" not in form:
            found = self.object(form["fields"], at, limit, path)
            found.text = f"object {form['type']}"
            return found
        if kind in ("object", "bytes"):
            size = form["size"] if isinstance(form["size"], int) else self.sibling(home, form["size"])
            end = at + 8 * size
            self.reach(end, limit, path)
            if kind == "object":
                found = self.object(form["fields"], at, end // 8, path)
                found.text, found.end = f"object {form['type']}", end
                return found
            taken = self.data[at // 8:end // 8].hex()
            return Found(f"hex {taken}", {"hex": taken}, at, end)
        end = at + form["width"]
        self.reach(end, limit, path)
        digits = self.digits[at:end]
        number = int(digits, 2)
        if kind == "integer":
            if form["order"] == "le":
                digits = "".join(reversed([digits[byte:byte + 8] for byte in range(0, len(digits), 8)]))
            number = int(digits, 2)
            if form["signed"] and digits[0] == "1":
                number -= 2**len(digits)
            return Found(str(number), number, at, end)
        if kind == "truth":
            return Found("true" if number else "false", number == 1, at, end)
        found = Found(str(number), number, at, end)
        if kind == "member":
            name = f"e::{ {0: 'zero', 2: 'two', 3: 'three'}.get(number, '?') }"
            found = Found(f"{name} ({number})", {"enum": name, "value": number}, at, end)
        found.width = form["width"]
        return found

    def list(self, form, at, limit, path, home):
        """Elements: as many as a count, or up to the stream's end."""
        found, count = Found(start=at), 0
        wanted = form["count"]
        if isinstance(wanted, str) and wanted != "eos":
            wanted = self.sibling(home, wanted)
        end = at
        while (end < 8 * limit) if wanted == "eos" else count < wanted:
            inner = f"{path}/{count}"
            try:
                one = self.shape(form["of"], end, limit, inner, home)
            except Fault as fault:
                one = Found(text=fault, value=fault, start=fault, end=fault)
            found.inner[count], end, count = one, one.end, count + 1
            if isinstance(end, Fault):
                break
        found.end = end
        found.text = end if isinstance(end, Fault) else f"[{count}]"
        return found


def dumped(found):
    """What stands at a path as JSON's values."""
    if isinstance(found.text, Fault):
        text = str(found.text)
        return None if text.startswith("absent") else {"fault": text}
    if found.text.startswith("object"):
        return {name: dumped(inner) for name, inner in found.inner.items()}
    if found.text.startswith("["):
        return [dumped(inner) for inner in found.inner.values()]
    return found.value


def dump_text(found):
    """The dump of a root."""
    return json.dumps(dumped(found), separators=(",", ":"), sort_keys=True)


def get_text(found):
    """The reply to `get`."""
    return f"fault {found.text}" if isinstance(found.text, Fault) else found.text


def at_text(found):
    """The reply to `at`."""
    if found.start is None:
        return "absent"
    for one in (found.start, found.end):
        if isinstance(one, Fault):
            return f"fault {one}"
    return f"at {place(found.start)} {place(found.end)}"


class Layout:
    """A random description: its types with their lines, and the form of its root."""

    def __init__(self, dice):
        self.dice, self.types = dice, {}
        self.root = self.fields("r", 0, True)

    def fields(self, name, depth, has_end):
        """The fields of a type, whose objects may have a stream of their own. There the last may go on to its end."""
        out, truths, counts = [], [], []
        self.types[name] = lines = []
        for number in range(3 + self.dice.below(5)):
            form = self.form(depth, truths, counts)
            if self.dice.below(8) == 0:
                form["if"] = False
            elif truths and self.dice.below(5) == 0:
                form["if"] = self.dice.of(truths)
            own = f"{name}_{number}"
            if "if" not in form:
                if form["kind"] == "truth":
                    truths.append(own)
                if form["kind"] == "bits" and form["width"] <= 2:
                    counts.append(own)
            out.append((own, form))
            lines.append(f"{{id: {own}, {self.keys(form)}}}")
        if self.dice.below(2 if has_end else 12) == 0:
            width = self.dice.of([1, 2, 4, 4, 8, 3, 12])
            form = {"kind": "list", "count": "eos", "of": {"kind": "truth" if width == 1 else "bits", "width": width}}
            out.append((f"{name}_rest", form))
            lines.append(f"{{id: {name}_rest, {self.keys(form)}}}")
        return out

    def bits(self):
        """A field of bits."""
        width = self.dice.of([1, 2, 3, 4, 5, 6, 7, 8, 9, 11, 13, 16, 17, 24, 31, 33, 2, 3, 5, 64])
        if width == 1:
            return {"kind": "truth", "width": 1}
        if width == 2 and self.dice.below(2):
            return {"kind": "member", "width": 2}
        return {"kind": "bits", "width": width}

    def form(self, depth, truths, counts):
        """A field of some kind."""
        kind = self.dice.below(12)
        if kind < 5:
            return self.bits()
        if kind < 6:
            return {"kind": "truth", "width": 1}
        if kind < 7:
            size = self.dice.of([1, 2, 4, 8])
            return {"kind": "integer", "width": 8 * size, "signed": self.dice.below(2) == 1, "order": self.dice.of(["le", "be"])}
        size = self.dice.of(counts) if counts and self.dice.below(2) else self.dice.below(4)
        if kind < 8:
            return {"kind": "bytes", "size": size}
        if kind < 10 or depth == 2:
            of = self.bits() if self.dice.below(4) else {"kind": "integer", "width": 8, "signed": False, "order": None}
            return {"kind": "list", "count": size, "of": of}
        name, is_window = f"t{len(self.types)}", self.dice.below(2) == 1
        form = {"kind": "object", "type": name, "fields": self.fields(name, depth + 1, is_window)}
        if is_window:
            form["size"] = 2 + self.dice.below(9)
        elif self.dice.below(3) == 0:
            return {"kind": "list", "count": size, "of": form}
        return form

    def keys(self, form):
        """The keys of a field."""
        condition = f", if: {str(form['if']).lower()}" if "if" in form else ""
        kind = form["kind"]
        if kind == "list":
            repeat = "repeat: eos" if form["count"] == "eos" else f"repeat: expr, repeat-expr: {form['count']}"
            return f"{self.keys(form['of'])}, {repeat}{condition}"
        if kind == "bytes":
            return f"size: {form['size']}{condition}"
        if kind == "object":
            size = f", size: {form['size']}" if "size" in form else ""
            return f"type: {form['type']}{size}{condition}"
        if kind == "integer":
            order = form["order"] if form["width"] > 8 else ""
            return f"type: {'s' if form['signed'] else 'u'}{form['width'] // 8}{order}{condition}"
        suffix = "be" if form["width"] % 3 == 0 else ""
        return f"type: b{form['width']}{suffix}{', enum: e' if kind == 'member' else ''}{condition}"

    def lines(self):
        """The description."""
        yield "meta: {id: r}"
        yield "seq:"
        for line in self.types["r"]:
            yield f"- {line}"
        if len(self.types) > 1:
            yield "types:"
        for name, lines in self.types.items():
            if name != "r":
                yield f"  {name}:"
                yield "    seq:"
                for line in lines:
                    yield f"    - {line}"
        yield "enums: {e: {0: zero, 2: two, 3: three}}"

    def read(self, data):
        """The root on some bytes."""
        found = Reader(data).object(self.root, 0, len(data), "/")
        found.text = "object r"
        return found


def all_found(found, path):
    """All that stands below a path, with their paths."""
    for step, inner in found.inner.items():
        here = f"{'' if path == '/' else path}/{step}"
        yield here, inner
        yield from all_found(inner, here)


def layout_row(dice, number):
    """The row of a layout: all its places and values, and then edits."""
    layout = Layout(dice)
    data = dice.bytes(2 + dice.below(30))
    yield f"== layout {number}"
    yield from layout.lines()
    yield f"-- file {data.hex()}"
    found = layout.read(data)
    yield "at /"
    yield f"> {at_text(found)}"
    some = list(all_found(found, "/"))
    for path, one in some[:14]:
        yield f"at {path}"
        yield f"> {at_text(one)}"
        yield f"get {path}"
        yield f"> {get_text(one)}"
    yield "dump /"
    yield f"> {dump_text(found)}"
    for _ in range(5):
        fields = [(path, one) for path, one in all_found(layout.read(data), "/") if one.width is not None]
        choice = dice.below(8)
        if fields and choice < 5:
            path, one = dice.of(fields)
            value = dice.field(one.width)
            digits = "".join(f"{byte:08b}" for byte in data)
            digits = digits[:one.start] + f"{value:0{one.width}b}" + digits[one.start + one.width:]
            data = bytes(int(digits[at:at + 8], 2) for at in range(0, len(digits), 8))
            yield f"put {path} {value}"
        elif choice < 6 and data:
            at = dice.below(len(data))
            data = data[:at] + data[at + 1:]
            yield f"del {at} 1"
        elif choice < 7:
            at, more = dice.below(len(data) + 1), dice.bytes(1)
            data = data[:at] + more + data[at:]
            yield f"ins {at} {more.hex()}"
        else:
            more = dice.bytes(2)
            data += more
            yield f"app {more.hex()}"
        yield f"> ok {len(data)}"
        yield "dump /"
        yield f"> {dump_text(layout.read(data))}"
    yield f"bytes 0 {len(data)}"
    yield f"> hex {data.hex()}"


def layouts():
    """The table of layouts."""
    dice = Dice(SEED + 1)
    yield "# Random layouts of bits, bytes, lists, windows and objects, on random bytes: where each thing is and what it is, and again after edits."
    yield "# Values: computed by tools/rows/bits.py, which takes the file for a text of the digits 0 and 1 and reads it from the left."
    yield "# Values: answered alike by tools/second, an interpreter of its own to which types of bits were added later (its README)."
    for number in range(1, LAYOUTS + 1):
        yield from layout_row(dice, number)


# The tables, by the names of their files.
TABLES = {"dialogues_bits_widths.txt": widths, "dialogues_bits_layouts.txt": layouts}
