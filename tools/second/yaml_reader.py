"""The YAML subset: a text is read to a tree, or refused with a line and a kind."""

import re

LONGEST_TEXT = 1_048_576
DEEPEST = 64

MESSAGES = {
    "Y1": "not UTF-8",
    "Y2": "too long",
    "Y3": "tab in the indentation",
    "Y4": "indentation fits no level",
    "Y5": "key twice",
    "Y6": "left-out form",
    "Y7": "not closed",
    "Y8": "value in a key's place",
    "Y9": "nested too deeply",
}

ESCAPES = {'"': '"', "\\": "\\", "/": "/", "0": "\0", "a": "\a", "b": "\b", "t": "\t", "n": "\n", "v": "\v", "f": "\f",
           "r": "\r", "e": "\x1b"}
NO_PLAIN_START = set(",[]{}#&*!|>'\"%@`")
CONTROL = re.compile("[\x00-\x08\x0a-\x1f\x7f-\x9f]")
COLON = re.compile(r":(?=[ \t]|$)")
COMMENT = re.compile(r"[ \t]#")
BLOCK_SIGN = re.compile(r"([|>])(-?)[ \t]*(?:[ \t]#.*)?$")


class YamlFault(Exception):
    """Why a text is no tree."""

    def __init__(self, line, kind):
        super().__init__(f"line {line}: {kind}")
        self.line = line
        self.kind = kind


class Text:
    """A scalar. `quoted` is false for plain and block scalars."""

    def __init__(self, line, quoted, text):
        self.line, self.quoted, self.text = line, quoted, text


class List:
    """A sequence."""

    def __init__(self, line, items):
        self.line, self.items = line, items


class Map:
    """A mapping: its entries (line of the key, key, node) in written order."""

    def __init__(self, line, entries):
        self.line, self.entries = line, entries

    def get(self, key):
        """The node of a key, or None."""
        for _, name, node in self.entries:
            if name == key:
                return node
        return None

    def line_of(self, key):
        """The line of a key."""
        return next(line for line, name, _ in self.entries if name == key)


def read(data):
    """The tree that the bytes spell; else a YamlFault."""
    if len(data) > LONGEST_TEXT:
        raise YamlFault(1, "Y2")
    try:
        text = data.decode("utf-8")
    except UnicodeDecodeError as error:
        raise YamlFault(data.count(b"\n", 0, error.start) + 1, "Y1") from None
    reader = Reader(text)
    control = next((i + 1 for i, line in enumerate(reader.written) if CONTROL.search(line)), None)
    try:
        tree = reader.document()
    except YamlFault as fault:
        if control is not None and control < fault.line:
            raise YamlFault(control, "Y6") from None
        raise
    if control is not None:
        raise YamlFault(control, "Y6")
    return tree


def cut_lines(text):
    """The lines without their ends, and whether the last one has an end. A CR before an LF belongs to the end."""
    if text.startswith("\ufeff"):
        text = text[1:]
    lines = text.split("\n")
    ended = lines[-1] == ""
    if ended:
        lines.pop()
    last = len(lines) - 1
    cut = [line[:-1] if line.endswith("\r") and (i < last or ended) else line for i, line in enumerate(lines)]
    return cut, ended


def indentation(line):
    """The number of leading spaces."""
    return len(line) - len(line.lstrip(" "))


def is_quiet(line):
    """White space alone, or a comment."""
    rest = line.lstrip(" \t")
    return rest == "" or rest[0] == "#"


def is_dash(content):
    """Whether an item of a sequence begins here."""
    return content == "-" or content.startswith(("- ", "-\t"))


def begins_plain(content):
    """Whether a plain scalar may begin with the first character."""
    if content[0] in NO_PLAIN_START:
        return False
    return not (content[0] in "-?:" and (len(content) == 1 or content[1] in " \t"))


def cut_comment(content):
    """The content before a comment, and whether there was one."""
    found = COMMENT.search(content)
    return (content, False) if found is None else (content[:found.start()], True)


class Reader:
    """Reads from front to back. A line whose dashes were read has spaces in their place."""

    def __init__(self, text):
        self.written, self.ended = cut_lines(text)
        self.lines = list(self.written)
        self.at = 0
        self.depth = 0
        self.open = []  # the open blocks: (indentation, "map" or "list")

    def fault(self, at, kind):
        """The refusal of a line: a tab in its leading white space goes before all else."""
        line = self.written[at] if at < len(self.written) else ""
        leading = line[:len(line) - len(line.lstrip(" \t"))]
        return YamlFault(at + 1, "Y3" if "\t" in leading else kind)

    def last_line(self):
        """The last line's place."""
        return max(len(self.lines) - 1, 0)

    def skip_quiet(self):
        """Goes to the next line of content, or behind the last line."""
        while self.at < len(self.lines) and is_quiet(self.lines[self.at]):
            self.at += 1

    def deeper(self, at):
        """One level more is open; at most 64 are allowed."""
        self.depth += 1
        if self.depth > DEEPEST:
            raise self.fault(at, "Y9")

    def document(self):
        """The whole text: one node, and nothing behind it."""
        self.skip_quiet()
        if self.at < len(self.lines) and self.lines[self.at] == "---":
            self.at += 1
            self.skip_quiet()
        if self.at >= len(self.lines):
            raise self.fault(self.last_line(), "Y6")
        tree = self.block_node(-1)
        self.skip_quiet()
        if self.at < len(self.lines):
            raise self.misplaced()
        return tree

    def misplaced(self):
        """The refusal of a line at an indentation where nothing can stand."""
        content = self.lines[self.at].lstrip(" \t")
        return self.fault(self.at, "Y7" if begins_open_quote(content) else "Y4")

    def block_node(self, outer):
        """The node that begins at the present line, inside a block of indentation `outer`."""
        at = self.at
        column = indentation(self.lines[at])
        content = self.lines[at][column:]
        if content[0] == "\t":
            raise self.fault(at, "Y3")
        if is_dash(content):
            return self.sequence(column)
        if self.key(content, at) is not None:
            return self.mapping(column)
        return self.value(content, outer)

    def key(self, content, at, kind="Y6"):
        """The key at the front of a content and what stands behind its colon; None where no key stands. The kind is the refusal of a quote with a bad escape:
        Y8 in an open mapping, where such a line is no entry."""
        if content[0] in "'\"":
            text, rest = self.quoted(content, at, kind)
            behind = rest.lstrip(" \t")
            if COLON.match(behind):
                return text, behind[1:]
            return None
        if not begins_plain(content):
            return None
        run, _ = cut_comment(content)
        found = COLON.search(run + (" " if len(run) < len(content) else ""))
        if found is None:
            return None
        return run[:found.start()].rstrip(" \t"), content[found.end():]

    def block_goes_on(self, column, is_entry):
        """Whether an open block has another entry at the next line of content."""
        self.skip_quiet()
        if self.at >= len(self.lines):
            return False
        here = indentation(self.lines[self.at])
        if here > column:
            raise self.misplaced()
        if here < column:
            if all(here != other for other, _ in self.open):
                raise self.misplaced()
            return False
        return is_entry(self.lines[self.at][column:])

    def mapping(self, column):
        """A mapping at a column."""
        start = self.at
        self.deeper(start)
        self.open.append((column, "map"))
        entries, keys = [], set()
        while self.block_goes_on(column, lambda content: True):
            at = self.at
            content = self.lines[at][column:]
            found = None if content[0] == "\t" or is_dash(content) else self.key(content, at, "Y8")
            if found is None:
                raise self.fault(at, "Y8")
            name, rest = found
            if name in keys:
                raise self.fault(at, "Y5")
            keys.add(name)
            entries.append((at + 1, name, self.behind_key(rest, column)))
        self.open.pop()
        self.depth -= 1
        return Map(start + 1, entries)

    def behind_key(self, rest, column):
        """The node behind a key."""
        at = self.at
        rest = rest.lstrip(" \t") if not is_quiet(rest) else ""
        if rest:
            return self.value(rest, column)
        self.at += 1
        self.skip_quiet()
        if self.at < len(self.lines):
            here = indentation(self.lines[self.at])
            if here > column:
                return self.block_node(column)
            if here == column and is_dash(self.lines[self.at][column:]):
                return self.sequence(column, True)
        return Text(at + 1, False, "")

    def sequence(self, column, under_key=False):
        """A sequence at a column; under a key of the same column another key ends it."""
        start = self.at
        self.deeper(start)
        self.open.append((column, "list"))
        items = []

        def is_item(content):
            """Whether an item stands here; under a key another key may."""
            if is_dash(content):
                return True
            if under_key:
                return False
            raise self.fault(self.at, "Y7" if begins_open_quote(content) else "Y8")

        while self.block_goes_on(column, is_item):
            items.append(self.item(column))
        self.open.pop()
        self.depth -= 1
        return List(start + 1, items)

    def item(self, column):
        """The node behind a dash: what follows is read as if the dash were a space."""
        at = self.at
        line = self.lines[at]
        rest = line[column + 1:]
        if is_quiet(rest):
            self.at += 1
            self.skip_quiet()
            if self.at < len(self.lines) and indentation(self.lines[self.at]) > column:
                return self.block_node(column)
            return Text(at + 1, False, "")
        self.lines[at] = line[:column] + " " + rest
        content = rest.lstrip(" \t")
        nested = is_dash(content) or self.key(content, at) is not None
        if nested and "\t" in rest[:len(rest) - len(content)]:
            raise YamlFault(at + 1, "Y3")
        return self.block_node(column) if nested else self.value(content, column)

    def value(self, content, outer):
        """A scalar or flow node that begins with `content` on the present line."""
        if content[0] in "[{":
            return Flow(self, content, outer).whole()
        if content[0] in "'\"":
            text, rest = self.quoted(content, self.at)
            self.nothing_behind(rest)
            self.at += 1
            return Text(self.at, True, text)
        if content[0] in "|>":
            return self.block_scalar(content, outer)
        return self.plain(content, outer)

    def nothing_behind(self, rest):
        """Behind a value only white space and a comment may stand."""
        if rest.strip(" \t") != "" and not (rest[0] in " \t" and is_quiet(rest)):
            raise self.fault(self.at, "Y6")

    def quoted(self, content, at, kind="Y6"):
        """The text of a quoted scalar and what stands behind it. One that isn't closed on its line is refused, and one with a bad escape by this kind."""
        end = quote_end(content)
        if end is None:
            raise self.fault(at, "Y7")
        text = content[1:end].replace("''", "'") if content[0] == "'" else unescape(content[1:end])
        if text is None:
            raise self.fault(at, kind)
        return text, content[end + 1:]

    def plain(self, content, outer):
        """A plain scalar, which goes on over deeper lines until a comment or a quiet line."""
        start = self.at
        if not begins_plain(content):
            raise self.fault(start, "Y6")
        runs = []
        while True:
            run, commented = cut_comment(content)
            if COLON.search(run + (" " if commented else "")):
                raise self.fault(self.at, "Y8")
            runs.append(run.strip(" \t"))
            self.at += 1
            if commented or self.at >= len(self.lines):
                break
            line = self.lines[self.at]
            if is_quiet(line) or indentation(line) <= outer:
                break
            content = line.strip(" \t")
        return Text(start + 1, False, " ".join(runs))

    def block_scalar(self, content, outer):
        """A literal (`|`) or folded (`>`) scalar with its lines."""
        start = self.at
        sign = BLOCK_SIGN.match(content)
        if sign is None:
            raise self.fault(start, "Y6")
        self.at += 1
        first = self.at
        margin, longest_blank = None, 0
        while self.at < len(self.lines):
            line = self.lines[self.at]
            here = indentation(line)
            if here == len(line):
                longest_blank = max(longest_blank, here)
            elif here <= outer:
                break
            elif margin is None:
                if longest_blank > here:
                    raise self.fault(self.at, "Y4")
                margin = here
            elif here < margin:
                raise self.fault(self.at, "Y4")
            self.at += 1
        if margin is None:
            return Text(start + 1, False, "")
        taken = [line[margin:] for line in self.lines[first:self.at]]
        while taken[-1] == "":
            taken.pop()
        has_end = first + len(taken) < len(self.lines) or self.ended
        text = "\n".join(taken) if sign[1] == "|" else folded(taken)
        return Text(start + 1, False, text + ("\n" if has_end and sign[2] == "" else ""))


def folded(lines):
    """Neighbouring lines joined by a space; k empty lines between two are k LFs, or one more at white space."""
    text, empty, before = "", 0, None
    for line in lines:
        if line == "":
            empty += 1
            continue
        if before is None:
            text += "\n" * empty
        elif before[0] in " \t" or line[0] in " \t":
            text += "\n" * (empty + 1)
        else:
            text += "\n" * empty if empty else " "
        text, empty, before = text + line, 0, line
    return text


def quote_end(content):
    """The place of the quote that closes the one at the front, or None."""
    at = 1
    while at < len(content):
        if content[0] == '"' and content[at] == "\\":
            at += 2
        elif content[at] != content[0]:
            at += 1
        elif content[0] == "'" and content[at + 1:at + 2] == "'":
            at += 2
        else:
            return at
    return None


def begins_open_quote(content):
    """Whether a quote at the front isn't closed on its line."""
    return content[0] in "'\"" and quote_end(content) is None


def unescape(text):
    """The text inside double quotes with its escapes replaced; None where one is no escape of the subset."""
    out, at = [], 0
    while at < len(text):
        if text[at] != "\\":
            out.append(text[at])
            at += 1
            continue
        letter = text[at + 1]
        if letter in ESCAPES:
            out.append(ESCAPES[letter])
            at += 2
            continue
        count = {"x": 2, "u": 4}.get(letter)
        if count is None:
            return None
        digits = text[at + 2:at + 2 + count]
        if not re.fullmatch(f"[0-9a-fA-F]{{{count}}}", digits) or 0xD800 <= int(digits, 16) <= 0xDFFF:
            return None
        out.append(chr(int(digits, 16)))
        at += 2 + count
    return "".join(out)


class Flow:
    """A flow sequence or mapping, which may go on over lines deeper than `outer`."""

    def __init__(self, reader, content, outer):
        self.reader, self.rest, self.outer = reader, content, outer
        self.before = ""  # the character before the rest on its line

    def fault(self, kind):
        """A refusal of the present line."""
        return self.reader.fault(self.reader.at, kind)

    def whole(self):
        """The outermost node, with nothing behind it on its line."""
        node = self.node()
        self.reader.nothing_behind(self.rest)
        self.reader.at += 1
        return node

    def take(self, count):
        """Goes on by some characters of the line."""
        self.before, self.rest = self.rest[count - 1], self.rest[count:]

    def skip(self):
        """Goes over white space, comments and line ends to the next part."""
        reader = self.reader
        while True:
            stripped = self.rest.lstrip(" \t")
            if len(stripped) < len(self.rest):
                self.before, self.rest = " ", stripped
            if self.rest and not (self.rest[0] == "#" and self.before in " \t"):
                return
            if reader.at + 1 >= len(reader.lines):
                raise self.fault("Y7")
            reader.at += 1
            line = reader.lines[reader.at]
            if is_quiet(line):
                self.before, self.rest = "", ""
                continue
            if indentation(line) <= self.outer:
                raise self.not_deeper(line)
            self.before, self.rest = "", line

    def not_deeper(self, line):
        """The refusal of a line inside an open bracket that isn't deeper than the block."""
        reader = self.reader
        column = indentation(line)
        content = line[column:]
        if begins_open_quote(content):
            return self.fault("Y7")
        kinds = [kind for other, kind in reader.open if other == column]
        if not kinds:
            return self.fault("Y4")
        if content[0] == "\t":
            return self.fault("Y3")
        entry = "list" if is_dash(content) else "map" if reader.key(content, reader.at) else None
        return self.fault("Y6" if entry in kinds else "Y8")

    def node(self):
        """A flow node, quoted or plain scalar at the present place."""
        line = self.reader.at + 1
        first = self.rest[0]
        if first in "[{":
            self.reader.deeper(self.reader.at)
            self.take(1)
            node = List(line, self.items()) if first == "[" else Map(line, self.entries())
            self.reader.depth -= 1
            return node
        if first in "'\"":
            return Text(line, True, self.quoted())
        text, is_key = self.plain()
        if is_key:
            raise self.fault("Y8")
        return Text(line, False, text)

    def quoted(self):
        """The text of a quoted scalar."""
        text, rest = self.reader.quoted(self.rest, self.reader.at)
        self.take(len(self.rest) - len(rest))
        if self.rest[:1] == "#":
            raise self.fault("Y6")
        return text

    def plain(self):
        """The text of a plain scalar, and whether a colon that ends a key stands behind it."""
        if not begins_plain(self.rest):
            raise self.fault("Y6")
        run, _ = cut_comment(self.rest)
        run = re.match(r"[^,\[\]{}]*", run)[0]
        colon = COLON.search(self.rest, 0, len(run) + 1)
        if colon is not None and colon.start() < len(run):
            text = run[:colon.start()].rstrip(" \t")
            self.take(colon.start())
            return text, True
        self.take(len(run))
        return run.rstrip(" \t"), False

    def items(self):
        """The items of a sequence, up to its bracket."""
        items = []
        while True:
            self.skip()
            if self.rest[0] == "]":
                self.take(1)
                return items
            items.append(self.node())
            if self.behind_part("]"):
                return items

    def behind_part(self, bracket):
        """A comma or the closing bracket must stand here; tells whether it was the bracket."""
        self.skip()
        if self.rest[0] == ",":
            self.take(1)
            return False
        if self.rest[0] == bracket:
            self.take(1)
            return True
        if begins_plain(self.rest) and self.plain()[1]:
            raise self.fault("Y8")
        if self.rest and self.rest[0] in "'\"":
            self.quoted()
        raise self.fault("Y6")

    def entries(self):
        """The entries of a mapping, up to its bracket."""
        entries, keys = [], set()
        while True:
            self.skip()
            if self.rest[0] == "}":
                self.take(1)
                return entries
            line = self.reader.at + 1
            key = self.key()
            if key in keys:
                raise self.fault("Y5")
            keys.add(key)
            self.skip()
            if self.rest[0] in ",]}":
                raise self.fault("Y6")
            entries.append((line, key, self.node()))
            if self.behind_part("}"):
                return entries

    def key(self):
        """A key and its colon, which stand on one line."""
        if self.rest[0] in "'\"":
            key = self.quoted()
            self.rest = self.rest.lstrip(" \t")
            if self.rest[:1] != ":":
                raise self.fault("Y6")
            self.take(1)
            return key
        key, is_key = self.plain()
        if not is_key:
            raise self.fault("Y6")
        self.rest = self.rest.lstrip(" \t")
        self.take(1)
        return key
