"""The rows: what is measured, of which files, descriptions and lines, and the goal of each. All wanted replies are made here, by arithmetic and by reading the
bytes, and never by the program."""
from dataclasses import dataclass

from sessions import Session, text

MIB = 1 << 20
# The example of docs/PERFORMANCE.md.
ITEMS = text("meta: {id: a}", "seq:", "  - {id: items, type: item, repeat: eos}", "types:", "  item:", "    seq:", "      - {id: len, type: u1}",
             "      - {id: body, size: len}")
# A description and a file of one byte.
BYTE, SEVEN = text("meta: {id: r}", "seq: [{id: a, type: u1}]"), b"\x07"


@dataclass
class Goal:
    """What a figure may be at most, or its growth."""

    limit: float
    is_growth: bool = False


@dataclass
class Figure:
    """What was done, the three sizes, the value at each, and what the values count. Values may be of the whole, or for each of the size."""

    what: str
    sizes: tuple
    values: list
    unit: str
    goal: Goal = None
    is_each: bool = False

    def growth(self):
        """How many times what one of the size costs grows from the first size to the last: 1 in proportion, more where the cost grows faster than its size."""
        first, last = [value if self.is_each else value / size for size, value in zip(self.sizes, self.values)][:: len(self.sizes) - 1]
        return last / first if first > 0 else float("inf") if last > 0 else 1.0

    def reached(self):
        """The value that the goal is about."""
        return self.growth() if self.goal.is_growth else max(self.values)

    def is_met(self):
        """Whether the goal is met; where there is none, it is."""
        return self.goal is None or self.reached() <= self.goal.limit


def letters(number, count):
    """A name of so many letters for a number."""
    name = ""
    for _ in range(count):
        name, number = chr(ord("a") + number % 26) + name, number // 26
    return name


def items(count):
    """The file of the example: element i is the byte `i mod 2` and then as many bytes 0."""
    return (b"\x00\x01\x00" * (count // 2 + 1))[: count + count // 2]


def places(data, start=0):
    """Where each element of the example begins, by reading the bytes."""
    found = []
    while start < len(data):
        found.append(start)
        start += 1 + data[start]
    return found


def question(count):
    """The example's question on a file of so many elements, and what comes."""
    return f"get /items/{count - 1}/len", str((count - 1) % 2)


def asked(count):
    """A session in which the example's question was asked."""
    return Session(ITEMS, items(count), (question(count),))


def nodes(count):
    """How many nodes the example's question opens: seven for each element but the last, of which three are asked, and those of the list and of the root."""
    return 7 * (count - 1) + 3 + 2


def divided(values, counts):
    """Each value for one of its count."""
    return [value / count for value, count in zip(values, counts)]


def line(program):
    """A line that asks nothing of the description: what each line costs, whatever it says. A session of n lines less one of none."""
    sizes, plain = (1000, 2000, 4000), Session(BYTE, SEVEN)
    for command, reply in (("size", "size 1"), ("bytes 0 1", "hex 07"), ("sizes", "error: unknown command"), ("set 0 07", "ok 1")):
        more = program.more([(plain, plain.then(*[(command, reply)] * size)) for size in sizes])
        goal = Goal(4000) if command == "size" else None
        yield Figure(f"a line `{command}`, n times", sizes, divided(more, sizes), "instructions a line", goal, True)


def rounds(program):
    """A round of an edit that touches nothing on which the answer depends and the question again, by how much is kept: it should cost the same whatever is kept.
    Instructions of 1,000 rounds, less a session with the question alone; seconds of 20,000 rounds in a session, after the question, the least of three."""
    sizes, seconds, pairs = (25_000, 50_000, 100_000), [], []
    for size in sizes:
        base = asked(size)
        step = (f"set {len(base.data) - 1} 00", f"ok {len(base.data)}"), question(size)
        pairs.append((base, base.then(*step * 1000)))
        with program.talk(base) as talk:
            seconds.append(min(talk.ask(*step * 20_000) for _ in range(3)))
    what = "a round `set`, `get` that touches nothing, after the question on n elements"
    yield Figure(what, sizes, [it / 1000 for it in program.more(pairs)], "instructions a round")
    yield Figure(what, sizes, [it / 20_000 * 1e6 for it in seconds], "µs of a processor a round", Goal(2))


def names(program):
    """A value instance of n names, once where all names have values already, and once where nothing is kept. A rule begins anew at each reply, so the cost may
    grow as the square of the names. An expression has at most 256 parts, so 127 names and 126 operators."""
    sizes, known, new = (31, 63, 127), [], []
    for size in sizes:
        data = bytes(7 * it % 256 for it in range(size))
        ids = [f"n{it}" for it in range(size)]
        ksy = text("meta: {id: r}", "seq:", *(f"  - {{id: {it}, type: u1}}" for it in ids), f"instances: {{v: {{value: {' + '.join(ids)}}}}}")
        ask, fields = ("get /v", str(sum(data))), [(f"get /n{it}", str(byte)) for it, byte in enumerate(data)]
        plain, full = Session(ksy, data), Session(ksy, data, tuple(fields))
        known.append((full, full.then(ask)))
        new.append((plain, plain.then(ask)))
    yield Figure("a value instance, the sum of n names whose values are kept", sizes, program.more(known), "instructions", Goal(15e6))
    yield Figure("the same, and nothing is kept", sizes, program.more(new), "instructions")


def texts(program):
    """The length of the sum of n texts of 16,000 bytes that have been asked: if each reply begins the rule anew, all texts before it are joined again, and the cost
    may grow as the cube."""
    sizes, seconds = (31, 63, 127), []
    for size in sizes:
        parts = [letters(it, 4) * 4000 for it in range(size)]
        ksy = text("meta: {id: r, encoding: ASCII}", "seq:", *(f"  - {{id: n{it}, type: str, size: 16000}}" for it in range(size)), "instances:",
                   f"  v: {{value: ({' + '.join(f'n{it}' for it in range(size))}).length}}")
        base = Session(ksy, "".join(parts).encode(), tuple((f"get /n{it}", f'"{part}"') for it, part in enumerate(parts)))
        with program.talk(base) as talk:
            seconds.append(talk.ask(("get /v", str(16_000 * size))))
    yield Figure("the length of the sum of n texts of 16,000 bytes that are kept", sizes, seconds, "seconds of a processor", Goal(2))


def one_of(ids, names, last):
    """A session in which all of some fields were asked, and one more field behind them is one of these names, with so much in it; and its question."""
    fields = [f"  - {{id: {it}, type: u1}}" for it in ids]
    ksy = text("meta: {id: r}", "seq:", *fields, f"  - {{id: x, type: u1, valid: {{any-of: [{', '.join(names)}]}}}}")
    base = Session(ksy, bytes([*range(len(ids)), last]), tuple((f"get /{name}", str(it)) for it, name in enumerate(ids)))
    return base, base.then(("get /x", str(last)))


def choices(program):
    """A value with `valid: {any-of: [..]}` of n entries that name something, of which the last is equal: they are evaluated one after the other, and each reply may
    begin the check anew. Once n names of their own, and once one name again and again: nothing limits how many entries there are."""
    sizes, many = (31, 63, 127), (250, 500, 1000)
    pairs = [one_of(ids, ids, size - 1) for size in sizes for ids in [[f"n{it}" for it in range(size)]]]
    yield Figure("a value that is `any-of` n names whose values are kept, the last of them", sizes, program.more(pairs), "instructions")
    pairs = [one_of(["n"], ["n"] * (size - 1) + ["5"], 5) for size in many]
    yield Figure("the same, one name n - 1 times and then a number", many, program.more(pairs), "instructions")


def enum(count):
    """A session over an enum of so many entries, of which the file has the last one, and its question."""
    ids = ",".join(f"{it}: {letters(it, 4)}" for it in range(count))
    ksy = text("meta: {id: r, endian: le}", "seq: [{id: a, type: u4, enum: e}]", f"enums: {{e: {{{ids}}}}}")
    ask = "get /a", f"e::{letters(count - 1, 4)} ({count - 1})"
    return Session(ksy, (count - 1).to_bytes(4, "little"), (ask,)), ask


def member(program):
    """The last member of an enum of n entries, found already and printed once more, beyond one of an enum of 4: its name is looked for at each reply. 100 times,
    less a session with one."""
    sizes, sessions = (4096, 16_384, 65_536), []
    for base, ask in map(enum, (4, *sizes)):
        sessions.append((base, base.then(*[ask] * 100)))
    small, *large = (it / 100 for it in program.more(sessions))
    yield Figure("a printed member, the last of n, beyond one of 4", sizes, [it - small for it in large], "instructions a reply", Goal(2500))


def tree():
    """A description of objects in objects, `/d` and below each ten of them, each with a list of 16 elements; all of them begin where byte 0 says."""
    tens = [f"      d{it}: {{pos: _root.start, type: t}}" for it in range(10)]
    return text("meta: {id: r}", "seq: [{id: start, type: u1}]", "instances: {d: {pos: start, type: t}}", "types:", "  t:", "    instances:", *tens,
                "      xs: {pos: _root.start, type: item, repeat: expr, repeat-expr: 16}", "  item:", "    seq: [{id: len, type: u1}, {id: body, size: len}]")


# The file of the tree: byte 0, and elements from byte 1 and from byte 2 on.
TREE_DATA = bytes([1]) + items(40)


def fresh(number):
    """A path of the tree for each number below 10,000, with the digits of that number as its steps: to the last element of a list."""
    return "/d" + "".join(f"/d{digit}" for digit in f"{number:04}") + "/xs/15/len"


def fresh_round(number):
    """A round on the tree: the question at a path of its own, and the edit of byte 0, which is 1 and 2 in turn."""
    start, data = 1 + number % 2, TREE_DATA
    return (f"get {fresh(number)}", str(data[places(data, start)[15]])), (f"set 0 {3 - start:02x}", f"ok {len(data)}")


def memory(program):
    """Memory where ever new paths are asked, and each edit takes all their answers: what is kept stays small, and memory should too. Round k asks a path of its own
    in a tree of ten objects each, four deep, to the last of a list's 16 elements (110 new nodes: seven for each of 15 elements, three for the last, the list's, the
    object's; and those of the objects above, where they are new). Then it writes byte 0, on which all depend but what is at the root and at `/start`: 115 nodes go.
    Seconds are those of the edits alone, and of the questions alone; instructions those of one edit more, behind fewer rounds."""
    counts, fewer = (2500, 5000, 10_000), (100, 200, 400)
    peaks, edits, asks = [], [], []
    with program.talk(Session(tree(), TREE_DATA)) as talk:
        spent, first = [0, 0], 0
        for number in range(counts[-1]):
            for at, step in enumerate(fresh_round(number)):
                spent[at] += talk.ask(step)
            first = first or talk.peak()
            if number + 1 in counts:
                peaks.append((talk.peak() - first) / MIB)
                asks.append(spent[0] / (number + 1) * 1000)
                edits.append(spent[1] / (number + 1) * 1000)
        talk.ask(("stats", "kept 2 turns 311"))
    yield Figure("n rounds, each with a new path and an edit that takes all: peak", counts, peaks, "MiB more than after one round", Goal(10))
    yield Figure("the edits of these rounds", counts, edits, "ms of a processor an edit", Goal(0.05), True)
    yield Figure("the questions of these rounds", counts, asks, "ms of a processor a question", None, True)
    steps = [step for number in range(fewer[-1]) for step in fresh_round(number)]
    bases = [Session(tree(), TREE_DATA, tuple(steps[: 2 * count - 1])) for count in fewer]
    yield Figure("the edit of round n", fewer, program.more([(it, it.then(steps[2 * count - 1])) for it, count in zip(bases, fewer)]), "instructions")


def edited(count):
    """A session in which the example's question was asked, and before it room was made for an edit at the file's end: the first edit costs what the file is long."""
    data = items(count)
    return Session(ITEMS, data, (("app 00", f"ok {len(data) + 1}"), (f"del {len(data)} 1", f"ok {len(data)}"), question(count)))


def append(program):
    """An append of a byte after the example's question, by how much is kept: it looks at what uses the file's size, and at nothing else. One append, which isn't the
    session's first edit; seconds of 1,000. Then the first edit of a session, by the size of a file of which nothing is asked: it makes room."""
    counts, pairs, seconds = (4286, 8572, 17_142), [], []
    for count in counts:
        base = edited(count)
        steps = [("app 00", f"ok {len(base.data) + it}") for it in range(1, 1001)]
        pairs.append((base, base.then(steps[0])))
        with program.talk(base) as talk:
            seconds.append(talk.ask(*steps))
    sizes = tuple(map(nodes, counts))
    yield Figure("`app` of a byte, n nodes kept", sizes, program.more(pairs), "instructions", Goal(0.3, True))
    yield Figure("the same, each of 1,000", sizes, seconds, "ms of a processor", Goal(0.02))
    files = [Session(BYTE, bytes(it * MIB)) for it in (1, 2, 4)]
    more = program.more([(it, it.then(("app 00", f"ok {len(it.data) + 1}"))) for it in files])
    yield Figure("a session's first edit, an `app`, of a file of n bytes", tuple(len(it.data) for it in files), more, "instructions")


def change(data, command, place):
    """An insert of an element without bytes before a place, or a delete of such an element there, and the file after it."""
    if command == "ins":
        return (f"ins {place} 00", f"ok {len(data) + 1}"), data[:place] + b"\x00" + data[place:]
    return (f"del {place} 1", f"ok {len(data) - 1}"), data[:place] + data[place + 1 :]


def near(program, count, command, behind):
    """A session with the example's question, and the same with an edit before an element without bytes, so many elements from the end. A question behind the edit
    is tried beside."""
    base = edited(count)
    edit, data = change(base.data, command, places(base.data)[-behind])
    found = places(data)
    with program.talk(base) as talk:
        talk.ask(edit, (f"get /items/{len(found) - 1}/len", str(data[found[-1]])))
    return base, base.then(edit)


def insert(program):
    """An insert or a delete after the example's question: it looks at what lies behind its place, and takes all of it. Near the end (8 elements behind it) by how
    much is kept, where it should cost the same; then by how many elements lie behind it, where it should grow as they do. A question shows that both moved all."""
    counts, behind = (4286, 8572, 17_142), (2000, 4000, 8000)
    sizes = tuple(map(nodes, counts))
    for command in ("ins", "del"):
        pairs = [near(program, count, command, 8) for count in counts]
        yield Figure(f"`{command}` of a byte 8 elements before the end, n nodes kept", sizes, program.more(pairs), "instructions", Goal(0.3, True))
        pairs = [near(program, 17_142, command, it) for it in behind]
        yield Figure(f"`{command}` of a byte, n elements behind it, {nodes(17_142):,} nodes kept", behind, program.more(pairs), "instructions", Goal(1.2, True))


def types_around(count):
    """So many types with the root that lead to each other, and the one at the end of a path of 63 steps."""
    types = [f"  t{it}: {{seq: [{{id: x, type: t{(it + 1) % (count - 1)}}}, {{id: y, type: u1}}]}}" for it in range(count - 1)]
    return text("meta: {id: r}", "seq: [{id: x, type: t0}, {id: y, type: u1}]", "types:", *types), SEVEN, ("get /x" + "/x" * 62, f"object t{62 % (count - 1)}")


def entries(count):
    """An enum of so many entries, and its last member."""
    session, ask = enum(count)
    return session.ksy, session.data, ask


def over_types(field, count):
    """So many fields, 250 of a type, what each is by its number: the types, and the fields of the root that have them."""
    kinds = range(count // 250)
    lists = [",".join(f"{{id: {letters(it, 2)},{field(250 * kind + it)}}}" for it in range(250)) for kind in kinds]
    return [f"  t{kind}: {{seq: [{row}]}}" for kind, row in enumerate(lists)], [f"  - {{id: {letters(kind, 2)}, type: t{kind}}}" for kind in kinds]


def last_field(count):
    """The path of the last of so many fields."""
    return f"/{letters(count // 250 - 1, 2)}/{letters(249, 2)}"


def named_enums(count):
    """So many enums of one entry, each named by a field; and the last field."""
    types, parts = over_types(lambda number: f"type: u1,enum: e{number}", count)
    ksy = text("meta: {id: r}", "seq:", *parts, "enums:", *(f"  e{it}: {{7: a}}" for it in range(count)), "types:", *types)
    return ksy, bytes(count - 1) + b"\x07", (f"get {last_field(count)}", f"e{count - 1}::a (7)")


def fields(count):
    """So many fields of one byte, and the last one."""
    types, parts = over_types(lambda number: "size: 1", count)
    return text("meta: {id: r}", "seq:", *parts, "types:", *types), bytes(count - 1) + b"\x07", (f"get {last_field(count)}", "hex 07")


KINDS = (
    ("types that lead to each other", types_around, (256, 512, 1024)),
    ("entries of an enum", entries, (16_384, 32_768, 65_536)),
    ("enums, each of one entry and named by one field", named_enums, (500, 1000, 2000)),
    ("fields", fields, (14_500, 29_000, 58_000)),
)


def loading(program):
    """What it takes to load a description of n types that name each other, of an enum of n entries, of n enums, of n fields: a name that is looked for among all
    others makes it grow as their square. A session that asks for the size, less one of a description of one byte over the same file. A question shows that all of it
    was read."""
    for what, made, sizes in KINDS:
        pairs = []
        for ksy, data, ask in map(made, sizes):
            size = "size", f"size {len(data)}"
            pairs.append((Session(BYTE, data, (size,)), Session(ksy, data, (size,))))
            with program.talk(Session(ksy, data)) as talk:
                talk.ask(ask)
        yield Figure(f"loading n {what}", sizes, divided(program.more(pairs), sizes), "instructions for each", None, True)


def first(program):
    """The first question of docs/PERFORMANCE.md on n elements: instructions and bytes of peak memory for each node that it opens, where `stats` says how many are
    kept. Both beyond those of the program when it has loaded."""
    sizes, pairs, peaks = (10_000, 20_000, 40_000), [], []
    for size in sizes:
        plain = Session(ITEMS, items(size), (("stats", "kept 0 turns 0"),))
        pairs.append((plain, plain.then(question(size), ("stats", f"kept {nodes(size)} turns {19 * size - 10}"))))
        with program.talk(plain) as talk:
            before = talk.peak()
            talk.ask(question(size))
            peaks.append(talk.peak() - before)
    count = [nodes(size) for size in sizes]
    yield Figure("the first question on n elements", sizes, divided(program.more(pairs), count), "instructions a node", Goal(1600), True)
    yield Figure("the same", sizes, divided(peaks, count), "bytes of peak memory a node", Goal(160), True)


# A list of bytes to the file's end.
LIST = text("meta: {id: r}", "seq: [{id: xs, type: u1, repeat: eos}]")


def one_byte(program):
    """A question on a list of n elements of one byte: a first one for its last element, the same after one for element 5, a first one for the list, and
    the same once more after an append. Instructions and bytes of peak memory for each node, where `stats` says how many are kept: two for each element (its head
    and end), one more where the list is asked (what it is from there on), and some at both ends."""
    sizes = (65_536, 131_072, 262_144)
    rows = (
        ("a first question on a list of n bytes, for its last element", nothing_asked, last_byte),
        ("the same, after a first one for element 5", fifth_asked, later_byte),
        ("a first question on a list of n bytes, for the list", nothing_asked, whole_list),
        ("the same once more, after an append", list_appended, longer_list),
    )
    for what, before_it, asks in rows:
        count, peaks, pairs = [], [], []
        for size in sizes:
            ask, kept, turns = asks(size)
            plain = Session(LIST, bytes(it % 251 for it in range(size)), before_it(size))
            pairs.append((plain, plain.then(ask, ("stats", f"kept {kept} turns {turns}"))))
            count.append(kept)
            with program.talk(plain) as talk:
                before = talk.peak()
                talk.ask(ask)
                peaks.append(talk.peak() - before)
        yield Figure(what, sizes, divided(program.more(pairs), count), "instructions a node", None, True)
        yield Figure("the same", sizes, divided(peaks, count), "bytes of peak memory a node", None, True)


def nothing_asked(_):
    """The lines before a first question."""
    return (("stats", "kept 0 turns 0"),)


def fifth_asked(_):
    """A question for element 5."""
    return ("get /xs/5", "5"), ("stats", "kept 14 turns 37")


def list_appended(count):
    """A question for the list, and an append."""
    return ("get /xs", f"[{count}]"), ("app 07", f"ok {count + 1}"), ("stats", f"kept {2 * count + 2} turns {9 * count + 4}")


def later_byte(count):
    """The question for the last element after one for element 5, the nodes that are kept then, and its turns."""
    return (f"get /xs/{count - 1}", str((count - 1) % 251)), 2 * count + 3, 6 * count - 34


def last_byte(count):
    """The question for the last element, the nodes that it opens, and their turns."""
    return (f"get /xs/{count - 1}", str((count - 1) % 251)), 2 * count + 2, 6 * count + 1


def whole_list(count):
    """The question for the list, the nodes that it opens, and their turns."""
    return ("get /xs", f"[{count}]"), 3 * count + 3, 9 * count + 4


def longer_list(count):
    """The question for the list that an append made longer, the nodes that are kept then, and its turns."""
    return ("get /xs", f"[{count + 1}]"), 3 * count + 6, 3 * count + 12


@dataclass(frozen=True)
class Plain:
    """A list whose elements are laid out by a rule, after bytes whose number byte 0 has: what its elements are, their type and the types that it needs; the bytes of n
    elements; how many elements the move by byte 0 takes out, and how many bytes these have; what is asked of an element, and what comes. A first question for the
    last of n elements opens a * n + b nodes, and takes c * n + d turns: (a, b) and (c, d)."""

    what: str
    element: str
    types: str
    data: object
    moved: tuple
    tail: str
    value: object
    nodes: tuple
    turns: tuple

    def ksy(self):
        """The description."""
        field = f"  - {{id: xs, type: {self.element}, repeat: eos}}"
        return text("meta: {id: r, endian: be}", "seq:", "  - {id: k, type: u1}", "  - {id: pad, size: k}", field, *([f"types: {self.types}"] if self.types else []))

    def file(self, count):
        """The file, none of whose list's bytes are taken out."""
        return b"\x00" + self.data(count)

    def question(self, count, number):
        """The question for the last element of a file of n elements, which has this number in the list now, and what comes."""
        return f"get /xs/{number}{self.tail}", str(self.value(count - 1))

    def kept(self, count):
        """How many nodes are kept when n elements are known."""
        return self.nodes[0] * count + self.nodes[1]

    def stats(self, count, fewer=0):
        """The line `stats` after the question for the last of n elements, which has some turns fewer than the first one, and what comes."""
        return "stats", f"kept {self.kept(count)} turns {self.turns[0] * count + self.turns[1] - fewer}"

    def first(self, count):
        """A session with the question for the last element."""
        return Session(self.ksy(), self.file(count), (self.question(count, count - 1), self.stats(count)))

    def moves(self, count):
        """Lines by which all places move twice, each with a question for the last element. Three nodes stay kept (byte 0 and its place), for five turns less."""
        elements, size = self.moved
        ok, left = f"ok {len(self.file(count))}", count - elements
        there = (f"set 0 {size:02x}", ok), self.question(count, left - 1), self.stats(left, 5)
        return *there, ("set 0 00", ok), self.question(count, count - 1), self.stats(count, 5)


PLAIN = (
    Plain("bytes", "u1", "", lambda count: bytes(it % 251 for it in range(count)), (1, 1), "", lambda it: it % 251, (2, 7), (6, 14)),
    Plain("u4", "u4", "", lambda count: b"".join((it * 7919).to_bytes(4, "big") for it in range(count)), (1, 4), "", lambda it: it * 7919, (2, 7), (6, 14)),
    Plain("objects of u1 and u2", "t", "{t: {seq: [{id: a, type: u1}, {id: b, type: u2}]}}",
          lambda count: b"".join(bytes([it % 251]) + (it % 65_521).to_bytes(2, "big") for it in range(count)), (1, 3), "/b", lambda it: it % 65_521, (6, 6), (16, 11)),
    Plain("items", "t", "{t: {seq: [{id: len, type: u1}, {id: body, size: len}]}}", items, (2, 3), "/len", lambda it: it % 2, (7, 3), (19, 3)),
)


def lists(program):
    """A list of n elements that are laid out by a rule, of four kinds: a first question for its last element, and two moves of all places, each with that question.
    Instructions for each node that is opened, and bytes of peak memory; `stats` says how many are kept."""
    sizes = (10_000, 20_000, 40_000)
    for kind in PLAIN:
        firsts, moves, peaks = [], [], []
        for size in sizes:
            asked_once, plain = kind.first(size), Session(kind.ksy(), kind.file(size), (("stats", "kept 0 turns 0"),))
            firsts.append((plain, asked_once))
            moves.append((asked_once, asked_once.then(*kind.moves(size))))
            with program.talk(plain) as talk:
                before = talk.peak()
                talk.ask(*asked_once.dialogue)
                peaks.append(talk.peak() - before)
        count = [kind.kept(size) for size in sizes]
        twice = [kind.kept(size) + kind.kept(size - kind.moved[0]) - 6 for size in sizes]
        yield Figure(f"a first question on n {kind.what}", sizes, divided(program.more(firsts), count), "instructions a node", None, True)
        yield Figure("the same", sizes, divided(peaks, count), "bytes of peak memory a node", None, True)
        yield Figure(f"two moves of n {kind.what}", sizes, divided(program.more(moves), twice), "instructions a node", None, True)


def far(program):
    """An element that a list could have, on three bytes: the fault of the first that isn't there goes from element to element, by two nodes for each, which have
    numbers. Peak memory beyond that of the program when it has loaded."""
    sizes, peaks = (262_143, 524_287, 1_048_575), []
    for size in sizes:
        with program.talk(Session(LIST, bytes(3))) as talk:
            before = talk.peak()
            talk.ask((f"get /xs/{size}", "fault bad-index at /xs/3"))
            peaks.append((talk.peak() - before) / MIB)
    yield Figure("`get /xs/n` on three bytes", sizes, peaks, "MiB of peak memory", Goal(270))


ROWS = {row.__name__: row for row in (line, rounds, names, texts, choices, member, memory, append, insert, loading, first, one_byte, lists, far)}
