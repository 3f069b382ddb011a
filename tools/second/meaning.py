"""What expressions mean: values, faults, and evaluation by questions that the one who evaluates answers.

Evaluation is a generator. It yields wants and is sent their replies: ("value", path), ("head", path) and ("rest", path) are
nodes that are asked; ("size",), ("done",) and ("bytes", from, to) are readings."""

SMALLEST, LARGEST = -2**63, 2**64 - 1
MOST_ELEMENTS = 1_048_576
LONGEST_TEXT = 16_777_216
LONGEST_PATH = 64
ENCODINGS = {"ascii": "ascii", "utf-8": "utf-8"}


class Fault(Exception):
    """A fault of an evaluation: its kind, and the path where it arose."""

    def __init__(self, kind, path):
        super().__init__(kind)
        self.kind, self.path = kind, path

    def __str__(self):
        """The fault as replies tell it."""
        return f"{self.kind} at {self.path.text()}"


class Path:
    """A path of names and indices. One path is one object, made by its parent. The nodes of a path are found in it: those of
    the evaluation that owns it now, and those that a session keeps."""

    __slots__ = ("parent", "step", "depth", "children", "owner", "nodes", "kept")

    def __init__(self, parent=None, step=None):
        self.parent, self.step = parent, step
        self.depth = 0 if parent is None else parent.depth + 1
        self.children = self.owner = self.nodes = self.kept = None

    def child(self, step):
        """The path one step longer; its length isn't looked at."""
        if self.children is None:
            self.children = {}
        found = self.children.get(step)
        if found is None:
            found = self.children[step] = Path(self, step)
        return found

    def steps(self):
        """The steps from the root on."""
        return [] if self.parent is None else self.parent.steps() + [self.step]

    def text(self):
        """The path as it is written."""
        return "/" + "/".join(str(step) for step in self.steps())

    def root(self):
        """The path without steps."""
        return self if self.parent is None else self.parent.root()

    def is_element(self):
        """Whether the last step is an index."""
        return isinstance(self.step, int)

    def holder(self):
        """The path without its last name and the index behind it; None where there is no such name."""
        path = self.parent if self.is_element() else self
        return None if path.is_element() else path.parent


class Bytes:
    """A range of the file."""

    def __init__(self, start, end):
        self.start, self.end = start, end


class Member:
    """A member of an enum, or a number of it that has none."""

    def __init__(self, enum, number):
        self.enum, self.number = enum, number


class ObjectValue:
    """An object, by its path."""

    def __init__(self, path):
        self.path = path


class ListValue:
    """A list, by its path."""

    def __init__(self, path):
        self.path = path


class Stream:
    """A stream: its end is a place, or None where it is open up to the file's end."""

    __slots__ = ("start", "end")

    def __init__(self, start, end):
        self.start, self.end = start, end


KINDS = {int: "int", bool: "bool", str: "text", Bytes: "bytes", Member: "member", ObjectValue: "object", ListValue: "list",
         Stream: "stream"}


def kind_of(value):
    """The kind of a value, in a word."""
    return KINDS.get(type(value))


def byte_from(place):
    """The first whole byte at a place or behind it. Places count bits, streams bytes."""
    return (place + 7) // 8


class Context:
    """Where an expression stands: its home with its stream, the present place in bits, the element's number and path, and the path
    at which its faults stand; in a check also the value that was made, alone in a tuple."""

    __slots__ = ("home", "stream", "at", "place", "index", "element", "made")

    def __init__(self, home, stream, at, place=None, index=None, element=None, made=()):
        self.home, self.stream, self.at = home, stream, at
        self.place, self.index, self.element, self.made = place, index, element, made

    def fault(self, kind):
        """A fault of this expression."""
        return Fault(kind, self.at)


def in_range(context, number):
    """An integer that is a value; else overflow."""
    if not SMALLEST <= number <= LARGEST:
        raise context.fault("overflow")
    return number


def ask(context, what, path):
    """Asks a node; a path that is too long is a fault here and no ask."""
    if path.depth > LONGEST_PATH:
        raise context.fault("path-too-long")
    return (yield (what, path))


def evaluate(tree, context):
    """The value of an expression, by its form."""
    return FORMS[tree[0]](tree, context)


def constant(tree, context):
    """A literal."""
    return tree[1]
    yield


def name(tree, context):
    """A bare name asks the value of the home's member."""
    return (yield from ask(context, "value", context.home.child(tree[1])))


def member(tree, context):
    """A member of an enum, which was found when the description was loaded."""
    found = tree[2] if len(tree) > 2 else None
    if found is None:
        raise context.fault("bad-type")
    return Member(*found)
    yield


def special(tree, context):
    """A name of the language."""
    word = tree[1]
    if word == "_root":
        return ObjectValue(context.home.root())
    if word == "_parent":
        return parent(ObjectValue(context.home), context)
    if word == "_io":
        return context.stream
    if word == "_index":
        if context.index is None:
            raise context.fault("bad-type")
        return context.index
    if context.made:
        return context.made[0]
    if context.element is None:
        raise context.fault("bad-type")
    return (yield from ask(context, "value", context.element))


def parent(value, context):
    """The object that holds the attribute of an object."""
    holder = value.path.holder()
    if holder is None:
        raise context.fault("no-parent")
    return ObjectValue(holder)


def unary(tree, context):
    """A sign before an operand."""
    value = yield from evaluate(tree[2], context)
    if tree[1] == "not":
        return not truth(value, context)
    if kind_of(value) != "int":
        raise context.fault("bad-type")
    return in_range(context, {"-": -value, "+": value, "~": ~value}[tree[1]])


def truth(value, context):
    """A value that must be a truth value."""
    if kind_of(value) != "bool":
        raise context.fault("bad-type")
    return value


def both(tree, context):
    """The right side of `and` is evaluated only where the left one is true."""
    left = truth((yield from evaluate(tree[1], context)), context)
    return left and truth((yield from evaluate(tree[2], context)), context)


def either(tree, context):
    """The right side of `or` is evaluated only where the left one is false."""
    left = truth((yield from evaluate(tree[1], context)), context)
    return left or truth((yield from evaluate(tree[2], context)), context)


def choice(tree, context):
    """One arm is evaluated, by the condition."""
    condition = truth((yield from evaluate(tree[1], context)), context)
    return (yield from evaluate(tree[2] if condition else tree[3], context))


def binary(tree, context):
    """Both operands are evaluated, and then their kinds are looked at."""
    sign = tree[1]
    left = yield from evaluate(tree[2], context)
    right = yield from evaluate(tree[3], context)
    if sign in ("==", "!="):
        same = yield from equal(left, right, context)
        return same == (sign == "==")
    kinds = (kind_of(left), kind_of(right))
    if kinds == ("text", "text"):
        if sign == "+":
            return joined(left, right, context)
        left, right = left.encode("utf-8"), right.encode("utf-8")
    elif kinds != ("int", "int"):
        raise context.fault("bad-type")
    if sign in COMPARE:
        return COMPARE[sign](left, right)
    if kinds != ("int", "int"):
        raise context.fault("bad-type")
    if sign in ("/", "%") and right == 0:
        raise context.fault("zero-divisor")
    if sign in ("<<", ">>") and not 0 <= right <= 63:
        raise context.fault("overflow")
    return in_range(context, ARITHMETIC[sign](left, right))


COMPARE = {"<": lambda x, y: x < y, "<=": lambda x, y: x <= y, ">": lambda x, y: x > y, ">=": lambda x, y: x >= y}
ARITHMETIC = {
    "+": lambda x, y: x + y, "-": lambda x, y: x - y, "*": lambda x, y: x * y, "/": lambda x, y: x // y,
    "%": lambda x, y: x % y, "<<": lambda x, y: x << y, ">>": lambda x, y: x >> y, "&": lambda x, y: x & y,
    "|": lambda x, y: x | y, "^": lambda x, y: x ^ y,
}


def joined(left, right, context):
    """Two texts, one behind the other, of at most 16,777,216 bytes."""
    if len(left.encode("utf-8")) + len(right.encode("utf-8")) > LONGEST_TEXT:
        raise context.fault("too-many")
    return left + right


def equal(left, right, context):
    """Whether two values of one kind are the same. Bytes of different lengths differ unread."""
    kind = kind_of(left)
    if kind != kind_of(right) or kind not in ("int", "bool", "text", "bytes", "member"):
        raise context.fault("bad-type")
    if kind == "member":
        if left.enum != right.enum:
            raise context.fault("bad-type")
        return left.number == right.number
    if kind != "bytes":
        return left == right
    if left.end - left.start != right.end - right.start:
        return False
    first = yield ("bytes", left.start, left.end)
    second = yield ("bytes", right.start, right.end)
    return first == second


def item(tree, context):
    """An element of a list, or a byte of bytes."""
    value = yield from evaluate(tree[1], context)
    index = yield from evaluate(tree[2], context)
    kind = kind_of(value)
    if kind_of(index) != "int" or kind not in ("list", "bytes"):
        raise context.fault("bad-type")
    if kind == "list":
        if not 0 <= index < MOST_ELEMENTS:
            raise context.fault("bad-index")
        return (yield from ask(context, "value", value.path.child(index)))
    if not 0 <= index < value.end - value.start:
        raise context.fault("bad-index")
    return (yield ("bytes", value.start + index, value.start + index + 1))[0]


def cast(tree, context):
    """An object whose type is the one that is named."""
    value = yield from evaluate(tree[1], context)
    wanted = tree[3] if len(tree) > 3 else None
    if kind_of(value) != "object" or wanted is None:
        raise context.fault("bad-type")
    head = yield from ask(context, "head", value.path)
    if head.type is not wanted:
        raise context.fault("bad-type")
    return value


def field(tree, context):
    """What stands behind a dot, by the kind of what stands before it."""
    _, before, word = tree
    if before == ("special", "_io") and word in ("pos", "eof"):
        if word == "eof":
            return (yield ("done",))
        return byte_from(context.place) - context.stream.start
    value = yield from evaluate(before, context)
    kind = kind_of(value)
    if kind == "object":
        return (yield from field_of_object(value, word, context))
    if kind == "list" and word in ("first", "last", "size"):
        return (yield from field_of_list(value, word, context))
    if kind == "stream" and word == "size":
        end = value.end
        if end is None:
            end = yield ("size",)
        return end - value.start
    found = FIELDS.get((kind, word))
    if found is None:
        raise context.fault("bad-type")
    return found(value, context)


def field_of_object(value, word, context):
    """A member of an object, or what every object has."""
    if word == "_root":
        return ObjectValue(value.path.root())
    if word == "_parent":
        return parent(value, context)
    if word == "_io":
        return (yield from ask(context, "head", value.path)).stream
    if word in ("_", "_index"):
        raise context.fault("bad-type")
    return (yield from ask(context, "value", value.path.child(word)))


def field_of_list(value, word, context):
    """The first or last element of a list, or how many it has."""
    first = value.path.child(0)
    if word == "first":
        return (yield from ask(context, "value", first))
    count = (yield from ask(context, "rest", first))
    if word == "size":
        return count
    if not 0 < count <= MOST_ELEMENTS:
        raise context.fault("bad-index")
    return (yield from ask(context, "value", value.path.child(count - 1)))


def to_integer(text, radix, context):
    """The integer that a text is: one optional minus, then digits."""
    if not 2 <= radix <= 36:
        raise context.fault("bad-number")
    digits = text[1:] if text.startswith("-") else text
    allowed = set("0123456789abcdefghijklmnopqrstuvwxyz"[:radix])
    if digits == "" or any(digit.lower() not in allowed or not digit.isascii() for digit in digits):
        raise context.fault("bad-number")
    number = 0
    for digit in digits:
        number = number * radix + int(digit, 36)
        if number > 2**65:
            break
    return in_range(context, -number if text.startswith("-") else number)


FIELDS = {
    ("int", "to_s"): lambda value, context: str(value),
    ("text", "length"): lambda value, context: len(value),
    ("text", "reverse"): lambda value, context: value[::-1],
    ("text", "to_i"): lambda value, context: to_integer(value, 10, context),
    ("member", "to_i"): lambda value, context: value.number,
    ("bool", "to_i"): lambda value, context: int(value),
    ("bytes", "length"): lambda value, context: value.end - value.start,
}


def call(tree, context):
    """A call in parentheses: its object and arguments are evaluated, and then their kinds are looked at."""
    _, before, word, arguments = tree
    value = yield from evaluate(before, context)
    given = []
    for argument in arguments:
        given.append((yield from evaluate(argument, context)))
    kinds = (word, kind_of(value), *(kind_of(one) for one in given))
    if kinds == ("substring", "text", "int", "int"):
        if not 0 <= given[0] <= given[1] <= len(value):
            raise context.fault("bad-index")
        return value[given[0]:given[1]]
    if kinds == ("to_i", "text", "int"):
        return to_integer(value, given[0], context)
    if kinds == ("to_s", "bytes", "text"):
        data = yield ("bytes", value.start, value.end)
        return decode(data, given[0], context.at)
    raise context.fault("bad-type")


def decode(data, encoding, at):
    """The text of bytes; other bytes and another encoding are bad-text."""
    codec = ENCODINGS.get(encoding.lower() if encoding.isascii() else encoding)
    if codec is None:
        raise Fault("bad-text", at)
    try:
        return bytes(data).decode(codec)
    except UnicodeDecodeError:
        raise Fault("bad-text", at) from None


FORMS = {
    "int": constant, "text": constant, "bool": constant, "name": name, "member": member, "special": special,
    "unary": unary, "binary": binary, "and": both, "or": either, "choice": choice, "field": field, "call": call,
    "cast": cast, "item": item,
}
