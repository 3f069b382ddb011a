"""The tables of tests: their rows are read, and each wanted reply is compared with the own one."""

import gc
import glob
import os
import pickle
import re

import expression_tables
import name_tables
import yaml_reader
from session import Session, describe, message, run

ESCAPED = re.compile(rb"\\(x[0-9a-fA-F]{2}|.)", re.S)
MUCH = 20_000  # bytes of a file or description whose row is judged apart
LETTERS = {b"n": b"\n", b"r": b"\r", b"t": b"\t", b"\\": b"\\"}


class Result:
    """What was found of one table."""

    def __init__(self, name):
        self.name, self.kind = name, None  # the kind is that of the present row
        self.rows = self.replies = self.alike = 0
        self.judged, self.unjudged = {}, {}
        self.differences = []

    def compare(self, line, wanted, own):
        """One wanted reply and the own one."""
        self.replies += 1
        self.judged[self.kind] = self.judged.get(self.kind, 0) + 1
        if wanted == own:
            self.alike += 1
        else:
            self.differences.append((line, wanted, own))

    def add(self, other):
        """What was found of one row apart."""
        self.replies += other.replies
        self.alike += other.alike
        self.differences += other.differences
        for mine, others in ((self.judged, other.judged), (self.unjudged, other.unjudged)):
            for what, count in others.items():
                mine[what] = mine.get(what, 0) + count

    def cannot(self, what, replies=1):
        """Replies of a kind that isn't judged."""
        self.replies += replies
        self.unjudged[what] = self.unjudged.get(what, 0) + replies


class Row:
    """A row: its title, a description, a kind with its words, and questions with wanted replies: (line, question, replies),
    a reply being (line, text). What stands before the first question has None as its question."""

    def __init__(self, title):
        self.title, self.description, self.kind, self.words, self.questions = title, [], None, "", []

    def take(self, number, line):
        """One line more: of the description before the kind is known, then a question or a reply."""
        if self.kind is None:
            self.description.append(line)
        elif line.startswith("> ") or line == ">":
            if not self.questions:
                self.questions.append((number, None, []))
            self.questions[-1][2].append((number, line[2:]))
        else:
            self.questions.append((number, line, []))


def rows_of(lines):
    """The rows of a table with kind lines."""
    rows = []
    for number, line in enumerate(lines, 1):
        if line.startswith("== "):
            rows.append(Row(line[3:]))
        elif rows and rows[-1].kind is None and line.startswith("-- "):
            rows[-1].kind, _, rows[-1].words = line[3:].partition(" ")
        elif rows:
            rows[-1].take(number, line)
    return rows


def expanded(lines):
    """The lines of a shortened description: `*N LINE` is N lines, and those between `**N` and `**` stand there N times."""
    out, block = [], None
    for line in lines:
        many = re.match(r"\*\*(\d+)$", line)
        one = re.match(r"\*(\d+) (.*)", line)
        if many:
            block = int(many[1]), []
        elif line == "**" and block:
            count, inner = block
            out += [each.replace("#", str(copy)) for copy in range(count) for each in inner]
            block = None
        else:
            taken = [one[2].replace("#", str(copy)) for copy in range(int(one[1]))] if one else [line]
            (block[1] if block else out).extend(taken)
    return out


def text_of(row):
    """The text of a row's description. Where it is only loaded, the line end before the kind line isn't a part of it."""
    lines = expanded(row.description)
    return ("\n".join(lines) if row.kind == "load" else "".join(line + "\n" for line in lines)).encode("utf-8")


def bytes_of(words):
    """Bytes written in hex, `N*HEX` being N times the same."""
    out = bytearray()
    for word in words.split():
        count, star, digits = word.rpartition("*")
        out += bytes.fromhex(digits) * (int(count) if star else 1)
    return bytes(out)


def unescaped(text):
    """The bytes of a text with escapes."""
    def letter(found):
        """What one escape stands for; one that isn't known stands for itself."""
        sign = found[1]
        return bytes([int(sign[1:], 16)]) if sign[:1] == b"x" and len(sign) == 3 else LETTERS.get(sign, found[0])

    return ESCAPED.sub(letter, text.encode("utf-8"))


def quoted(text):
    """A text in double quotes, with escapes for what can't be printed."""
    short = {"\0": "\\0", "\t": "\\t", "\n": "\\n", "\r": "\\r", '"': '\\"', "'": "\\'", "\\": "\\\\"}
    out = []
    for letter in text:
        if letter in short:
            out.append(short[letter])
        elif letter.isprintable() or letter == " ":
            out.append(letter)
        elif ord(letter) < 128:
            out.append(f"\\x{ord(letter):02x}")
        else:
            out.append(f"\\u{{{ord(letter):x}}}")
    return '"' + "".join(out) + '"'


def tree_text(node):
    """A tree of YAML, each node and key behind its line."""
    if isinstance(node, yaml_reader.Text):
        return f"{node.line} {'quoted ' if node.quoted else ''}{quoted(node.text)}"
    if isinstance(node, yaml_reader.List):
        return f"{node.line} [{''.join(tree_text(item) + ', ' for item in node.items)}]"
    entries = "".join(f"{line} {key}: {tree_text(inner)}, " for line, key, inner in node.entries)
    return f"{node.line} {{{entries}}}"


def tree_reply(data, shape=tree_text):
    """The tree that a text spells, or its refusal."""
    try:
        return shape(yaml_reader.read(data))
    except yaml_reader.YamlFault as fault:
        return f"{fault.kind} line {fault.line}: {yaml_reader.MESSAGES[fault.kind]}"


def compare_lines(result, questions, replies):
    """The wanted replies of all questions in order, and the own ones."""
    wanted = [reply for _, _, some in questions for reply in some]
    for number in range(max(len(wanted), len(replies))):
        line, text = wanted[number] if number < len(wanted) else (wanted[-1][0] if wanted else 0, None)
        result.compare(line, text, replies[number] if number < len(replies) else None)


def judge_file(result, row):
    """A dialogue."""
    found, refusal = describe(text_of(row))
    if refusal is not None:
        compare_lines(result, row.questions, [message(refusal)])
        return
    session = Session(found, bytes_of(row.words))
    for line, question, wanted in row.questions:
        own = None if session.ended or question is None else session.line(unescaped(question))
        if len(wanted) == 1:
            result.compare(wanted[0][0], wanted[0][1], own)
        elif wanted or own is not None:
            result.compare(line, [text for _, text in wanted] or None, own)
    complaints(result, row, session)


def complaints(result, row, session):
    """What came out otherwise from nothing although it was kept."""
    for complaint in session.complaints:
        result.differences.append((row.title, "kept", complaint))


def judge_cut(result, row):
    """A dialogue, and how it ends."""
    found, refusal = describe(text_of(row))
    if refusal is not None:
        compare_lines(result, row.questions, [message(refusal)])
        return
    session = Session(found, bytes_of(row.words))
    lines = b"".join(unescaped(question) + b"\n" for _, question, _ in row.questions if question is not None)
    replies, end = run(session, lines)
    compare_lines(result, row.questions, [*replies, f"ends by {end}"])
    complaints(result, row, session)


def judge_inputs(result, row):
    """Each line is a whole input."""
    for _, question, wanted in row.questions:
        session = Session(describe(text_of(row))[0], bytes_of(row.words))
        compare_lines(result, [(0, question, wanted)], run(session, unescaped(question))[0])


def spans(told):
    """A line for all numbers, from 0 on, that follow each other and are told the same."""
    firsts = [number for number, line in enumerate(told) if not number or told[number - 1] != line]
    lasts = [number - 1 for number in firsts[1:]] + [len(told) - 1]
    return [f"{first}{f' to {last}' if first < last else ''}: {told[first]}" for first, last in zip(firsts, lasts)]


def state(lines, session, end):
    """What is told of a session over a device that fails: its whole lines of output, its file, and how it ends."""
    return f"{lines} lines, file {session.data.hex()}, {end}"


def judge_devices(result, row):
    """Sessions over a device that fails after each number of calls. A reader that gives a byte at once: the whole lines before the failure are
    answered. A writer that takes a byte at once, a flush being a call too, or one of std, whose replies are one write each and aren't seen: the
    line whose reply it was has changed the file. The output is flushed after each line, also one that has no reply, such as the empty one behind
    the last line end."""
    lines = b"".join(unescaped(question) + b"\n" for _, question, _ in row.questions if question is not None)
    session = Session(describe(text_of(row))[0], bytes_of(row.words))
    told, replies, rest = [], 0, lines
    while rest and not session.ended:
        line, _, rest = rest.partition(b"\n")
        if row.kind == "readers":
            told += [state(replies, session, "ReadFailed")] * (len(line) + 1)
        reply = session.line(line)
        if row.kind == "writers":
            told += [state(replies, session, "WriteFailed")] * (0 if reply is None else len(reply.encode("utf-8")) + 1)
        replies += row.kind != "std" and reply is not None
        if row.kind == "writers" or row.kind == "std" and reply is not None:
            told.append(state(replies, session, "WriteFailed"))
    if row.kind != "std" and not session.ended:
        told.append(state(replies, session, "ReadFailed" if row.kind == "readers" else "WriteFailed"))
    told.append(state(replies, session, "Quit" if session.ended else "Input"))
    compare_lines(result, row.questions, spans(told))


def judge_cuts(result, row):
    """A session over each front part of a file."""
    found, own = describe(text_of(row))[0], []
    lines = b"".join(unescaped(question) + b"\n" for _, question, _ in row.questions if question is not None)
    data = bytes_of(row.words)
    for place in range(len(data) + 1):
        own += [f"{place}: {reply}" for reply in run(Session(found, data[:place]), lines)[0]]
    compare_lines(result, row.questions, own)


def judge_prefixes(result, row):
    """Whether each front part of a description is accepted, or why not."""
    text, verdicts = text_of(row), []
    for place in range(len(text) + 1):
        refusal = describe(text[:place])[1]
        verdicts.append("accepted" if refusal is None else message(refusal))
    compare_lines(result, row.questions, spans(verdicts))


def judge_names(result, row):
    """Names and declarations; of a description that is loaded also whether it is accepted. A reply begins with its question's
    first word, save that to the load itself."""
    declared = None
    for _, question, wanted in row.questions:
        if question is None:
            _, refusal = describe(text_of(row))
            own = "ok" if refusal is None else "{1} line {0}: {2}".format(*refusal)
        else:
            first, _, rest = question.partition(" ")
            word, _, number = first.partition(":")
            own = None
            if word in name_tables.KNOWN[row.kind]:
                declared = declared or name_tables.Declared(text_of(row))
                own = name_tables.answer(declared, row.kind, word, int(number) if number else None, rest)
                own = own and f"{word} {own}"
        for line, reply in wanted:
            if own is None:
                result.cannot(f"kind {row.kind}, question {word}")
            else:
                result.compare(line, reply, own)


def judge_lines(result, row):
    """Lines of YAML."""
    for _, question, wanted in row.questions:
        first, _, text = question.partition(" ")
        word, _, argument = first.partition(":")
        own = name_tables.line_answer(word, argument, unescaped(text), quoted)
        for line, reply in wanted:
            if own is None:
                result.cannot(f"kind lines, question {word}")
            else:
                result.compare(line, reply, f"{word} {own}")


def judge_trees(result, row):
    """Texts with their trees."""
    for line, question, wanted in row.questions:
        word, _, text = question.partition(" ")
        for number, reply in wanted:
            if word == "read":
                result.compare(number, reply, tree_reply(unescaped(text)))
            elif word in ("once", "once:hex"):
                data = bytes_of(text) if word == "once:hex" else unescaped(text)
                result.compare(number, reply, tree_reply(data, lambda tree: "a tree"))
            else:
                result.cannot(f"trees: {word}")


def judge_tree(result, row):
    """A description as a tree."""
    compare_lines(result, row.questions, [tree_reply(text_of(row))])


JUDGES = {
    "file": judge_file, "reference": judge_file, "cut": judge_cut, "inputs": judge_inputs, "readers": judge_devices, "writers": judge_devices, "std": judge_devices,
    "cuts": judge_cuts, "prefixes": judge_prefixes,
    "load": judge_names, "names": judge_names, "scopes": judge_names, "lines": judge_lines, "trees": judge_trees,
    "tree": judge_tree,
}


def is_large(row):
    """Whether a row makes many objects."""
    return max(len(bytes_of(row.words)) if row.kind == "file" else 0, sum(map(len, expanded(row.description)))) > MUCH


def judge_apart(result, row):
    """Judges a large row in a process of its own, which ends without taking its objects apart."""
    reader, writer = os.pipe()
    child = os.fork()
    if child == 0:
        try:
            own = Result(result.name)
            own.kind = row.kind
            JUDGES[row.kind](own, row)
            with os.fdopen(writer, "wb") as out:
                pickle.dump(own, out)
            os._exit(0)
        finally:
            os._exit(1)
    os.close(writer)
    with os.fdopen(reader, "rb") as found:
        data = found.read()
    if os.waitpid(child, 0)[1] != 0:
        raise RuntimeError(f"the row {row.title} of {result.name} can't be judged")
    result.add(pickle.loads(data))


def judge_rows(result, rows):
    """All rows of a table."""
    for row in rows:
        result.rows += 1
        result.kind = row.kind
        judge = JUDGES.get(row.kind)
        if judge is None:
            result.cannot(f"kind {row.kind}", sum(len(wanted) for _, _, wanted in row.questions))
        elif is_large(row):
            judge_apart(result, row)
        else:
            judge(result, row)
    gc.collect()
    return result


def lines_of(path):
    """The lines of a file."""
    with open(path, encoding="utf-8", newline="\n") as table:
        return table.read().removesuffix("\n").split("\n")


def judge_table(path):
    """A table of rows: one of expressions has no line that tells a row's kind."""
    result, lines = Result(path), lines_of(path)
    if any(line.startswith("-- ") for line in lines):
        return judge_rows(result, rows_of(lines))
    result.kind = "expressions"
    expression_tables.judge(result, lines)
    return result


def judge_example(path):
    """An example: a description, a file, commands and replies."""
    result = Result(path)
    result.rows, result.kind = 1, "example"
    data = {}
    for ending in ("ksy", "bin", "cmd", "out"):
        with open(f"{path.removesuffix('ksy')}{ending}", "rb") as part:
            data[ending] = part.read()
    found, refusal = describe(data["ksy"])
    replies = [message(refusal)] if refusal else run(Session(found, data["bin"]), data["cmd"])[0]
    wanted = data["out"].decode("utf-8").removesuffix("\n").split("\n")
    compare_lines(result, [(0, None, list(enumerate(wanted, 1)))], replies)
    return result


def judge_reference(path):
    """The blocks of a page: each is a dialogue."""
    lines, rows, inside = lines_of(path), [], False
    for number, line in enumerate(lines, 1):
        if line == "```ksv":
            inside = True
            row = Row(f"block at line {number}")
            rows.append(row)
        elif line == "```":
            inside = False
        elif inside and row.kind is None and (line == "--" or line.startswith("-- ")):
            row.kind, row.words = "reference", line[3:]
        elif inside:
            row.take(number, line)
    return judge_rows(Result(path), rows)


def all_tables(root):
    """The tables, examples and pages of a repository, each with who judges it."""
    for path in sorted(glob.glob(f"{root}/crates/*/data/*.txt")):
        yield judge_table, path
    for path in sorted(glob.glob(f"{root}/examples/*.ksy")):
        yield judge_example, path
    for name in ("REFERENCE", "EXAMPLES", "MENDING"):
        yield judge_reference, f"{root}/docs/{name}.md"
