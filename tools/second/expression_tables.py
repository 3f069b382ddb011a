"""The tables of expressions: trees and refusals, evaluations with each question and reply, and paths.

A row is `LEFT => RIGHT`. A heading `== KIND WORDS` begins rows of a kind; a line that begins with `#` is a comment. `{N*TEXT}`
is N times a text, `{HH}` a byte."""

import re

import expressions
from meaning import Bytes, Context, Fault, ListValue, Member, ObjectValue, Path, Stream, evaluate, kind_of

SIGNS = {"+": "Add", "-": "Subtract", "*": "Multiply", "/": "Divide", "%": "Remainder", "<<": "ShiftLeft", ">>": "ShiftRight",
         "&": "BitAnd", "^": "BitXor", "|": "BitOr", "<": "Less", "<=": "LessOrEqual", ">": "Greater", ">=": "GreaterOrEqual",
         "==": "Equal", "!=": "NotEqual"}
UNARY_SIGNS = {"-": "Negate", "~": "Complement", "+": "Plus", "not": "Not"}
SPECIAL = {"_root": "Root", "_parent": "Parent", "_io": "Io", "_index": "Index", "_": "Element"}

# What the names of the tables stand for: names without a number, types and members by their numbers.
UNNUMBERED = {"lost", "to_s"}
TYPES = {"t": 7, "q::t": 7}
MEMBERS = {"animal::cat": (0, 4), "animal::dog": (0, 7), "plant::oak": (1, 1)}
UNKNOWN_MEMBERS = {"animal::far"}
RAW_BYTES = {"-": b"", "ff": b"\xff", "80": b"\x80", "c3": b"\xc3", "a9!": b"\xa9!", "c080": b"\xc0\x80"}
REPLY_OF = {"value": "value", "head": "opened", "rest": "count", "size": "count", "done": "truth", "bytes": "slices"}


class Opened:
    """An object's head as a reply gives it."""

    def __init__(self, type, stream):
        self.type, self.stream = type, stream


def widened(text):
    """The bytes of a text whose repetitions and bytes in braces are written out."""
    data = re.sub(rb"\{(\d+)\*([^{}]*)\}", lambda found: found[2] * int(found[1]), text.encode("utf-8"))
    return re.sub(rb"\{([0-9a-f]{2})\}", lambda found: bytes([int(found[1], 16)]), data)


def shown(text):
    """A text with its control characters as bytes in braces."""
    return re.sub("[\x00-\x1f]", lambda found: f"{{{ord(found[0]):02x}}}", text)


def tree_text(tree):
    """An expression as the tables write it."""
    kind = tree[0]
    if kind == "text":
        return f"'{shown(tree[1])}'"
    if kind == "bool":
        return str(tree[1]).lower()
    if kind in ("int", "name"):
        return str(tree[1])
    if kind == "special":
        return SPECIAL[tree[1]]
    if kind == "member":
        return "::".join(tree[1])
    if kind == "unary":
        return f"({UNARY_SIGNS[tree[1]]} {tree_text(tree[2])})"
    if kind == "binary":
        return f"({SIGNS[tree[1]]} {tree_text(tree[2])} {tree_text(tree[3])})"
    if kind in ("and", "or"):
        return f"({kind.title()} {tree_text(tree[1])} {tree_text(tree[2])})"
    if kind == "choice":
        return "(? " + " ".join(tree_text(one) for one in tree[1:]) + ")"
    before = tree_text(tree[1])
    if kind == "field":
        return f"{before}.{SPECIAL.get(tree[2], tree[2])}"
    if kind == "call":
        return f"{before}.{tree[2]}({''.join(tree_text(one) + ';' for one in tree[3])})"
    if kind == "cast":
        return f"{before}.as<{''.join(name + '::' for name in tree[2])}>"
    return f"{before}[{tree_text(tree[2])}]"


def spelled(text):
    """The tree of an expression, or its refusal."""
    try:
        return tree_text(expressions.parse(widened(text)))
    except expressions.ExpressionFault as fault:
        return str(fault)


def spelled_type(text):
    """The names and arguments of a type, or its refusal."""
    try:
        names, arguments = expressions.parse_type(widened(text))
    except expressions.ExpressionFault as fault:
        return str(fault)
    return "".join(name + "::" for name in names) + "".join(tree_text(one) + ";" for one in arguments or [])


def path_reply(text):
    """A path, the path above it, and the object that holds it."""
    path = path_of(Path(), text)
    above, holder = path.parent or path, path.holder()
    return f"{path.text()} {above.text()} {holder.text() if holder else 'none'}"


def path_of(root, text):
    """The path that a text names."""
    for step in text.split("/")[1:]:
        if step:
            root = root.child(int(step) if step.isdigit() else step)
    return root


def numbered(tree):
    """The tree with the numbers that the tables give to types and members."""
    if not isinstance(tree, tuple):
        return [numbered(one) for one in tree] if isinstance(tree, list) and tree and isinstance(tree[0], tuple) else tree
    if tree[0] == "member":
        return ("member", tree[1], MEMBERS.get("::".join(tree[1])))
    if tree[0] == "cast":
        return ("cast", numbered(tree[1]), tree[2], TYPES.get("::".join(tree[2])))
    if tree[0] == "name" and tree[1] in UNNUMBERED:
        return ("member", [], None)
    return tuple(numbered(one) for one in tree)


def value_of(root, text):
    """A reply or an end: (form, value). The form is that of the want which it answers; "fault" for a fault."""
    if re.match(r"-?\d+$", text):
        return "value", int(text)
    if text in ("true", "false"):
        return "value", text == "true"
    if text.startswith("'"):
        return "value", text[1:-1]
    words = text.split(" ")
    if " at " in text:
        return "fault", Fault(words[0], path_of(root, words[2]))
    if words[0] in ("object", "list"):
        return "value", (ObjectValue if words[0] == "object" else ListValue)(path_of(root, words[1]))
    if words[0] in ("bytes", "member"):
        return "value", (Bytes if words[0] == "bytes" else Member)(int(words[1]), int(words[2]))
    if words[0] == "stream":
        return "value", stream_of(words[1:])
    if words[0] == "opened":
        return "opened", Opened(int(words[1]), stream_of(words[2:]))
    if words[0] == "count":
        return "count", int(words[1])
    if words[0] == "truth":
        return "truth", words[1] == "true"
    return "slices", b"".join(RAW_BYTES.get(word, word.encode()) for word in words[1:])


def stream_of(words):
    """A stream by its two places."""
    return Stream(int(words[0]), None if words[1] == "open" else int(words[1]))


def want_text(want):
    """A want as the tables write it."""
    return " ".join([want[0]] + [one.text() if isinstance(one, Path) else str(one) for one in want[1:]])


def end_text(value):
    """The end of an expression as the tables write it."""
    kind = kind_of(value)
    if kind == "text":
        return f"'{value}'"
    if kind == "bool":
        return str(value).lower()
    if kind in ("object", "list"):
        return f"{kind} {value.path.text()}"
    if kind == "bytes":
        return f"bytes {value.start} {value.end}"
    if kind == "member":
        return f"member {value.enum} {value.number}"
    if kind == "stream":
        return f"stream {value.start} {'open' if value.end is None else value.end}"
    return str(value)


def evaluated(words, left):
    """What an expression gives with the wants and replies of a row, in this order."""
    root = Path()
    text, *steps = left.split("; ")
    home, start, end, place, at, index, element = words.split(" ")
    context = Context(path_of(root, home), stream_of([start, end]), path_of(root, at), 8 * int(place),
                      None if index == "-" else int(index), None if element == "-" else path_of(root, element))
    tree = numbered(expressions.parse(text))
    running, reply = evaluate(tree, context), None
    try:
        while True:
            want = running.send(reply)
            if want[0] == "value" and want[1].step in UNNUMBERED:
                raise context.fault("bad-type")
            wanted, _, given = steps.pop(0).partition(" -> ") if steps else ("no question", "", "")
            if wanted != want_text(want):
                return f"asks {want_text(want)} in the place of {wanted}"
            form, reply = value_of(root, given)
            if form == "fault":
                raise reply
            if form != REPLY_OF[want[0]]:
                raise context.fault("bad-type")
    except StopIteration as done:
        own = end_text(done.value)
    except Fault as fault:
        own = str(fault)
    return own if not steps else f"{own}, without asking {steps[0]}"


def judge(result, lines):
    """All rows of a table of expressions."""
    kind, words = None, ""
    for number, line in enumerate(lines, 1):
        if line.startswith("== "):
            kind, _, words = line[3:].partition(" ")
            words = widened(words).decode()
            continue
        if kind is None or line.startswith("#") or " => " not in line:
            continue
        result.rows += 1
        left, _, right = line.rpartition(" => ")
        if kind == "tree":
            result.compare(number, widened(right).decode(), widened(shown(spelled(left))).decode())
        elif kind == "type":
            result.compare(number, widened(right).decode(), spelled_type(left))
        elif kind == "path":
            result.compare(number, right, path_reply(left))
        elif kind == "ask" and any(one in left for one in UNKNOWN_MEMBERS):
            result.cannot("ask: a member with a number outside the range")
        elif kind == "ask":
            result.compare(number, widened(right).decode(), evaluated(words, widened(left).decode()))
        else:
            result.cannot(f"kind {kind}")
