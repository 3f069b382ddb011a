"""The tables of names, declarations and YAML lines, as far as their words say what they ask."""

import description
import expressions
import yaml_reader
from description import Loader, Names, Place

YAML_KINDS = {"Y3": "Tab", "Y4": "Indentation", "Y5": "KeyTwice", "Y6": "LeftOut", "Y7": "NotClosed", "Y8": "ValueForKey",
              "Y9": "TooDeep"}


# The questions that are answered, by the kinds of their rows.
KNOWN = {"names": {"fault", "arguments", "member", "built_in"}, "load": {"enum", "number", "name"},
         "scopes": {"path", "inherited", "named", "id", "value", "plain", "signed"}}


def some(value):
    """A value that may be missing."""
    return "None" if value is None else f"Some({value})"


class Declared:
    """What a description declares, whether or not it would be accepted. Types are numbered in the order of the text; members
    and enums by their types, then in the order of the text."""

    def __init__(self, text):
        self.loader = Loader()
        self.loader.declare(yaml_reader.read(text), None, None, 1)
        self.types = self.loader.types
        self.members = [member for one in self.types for member in one.order]
        self.enums = [enum for one in self.types for enum in one.enums.values()]
        self.names = []
        for name in (member.name for member in self.members):
            if name is not None and name not in self.names:
                self.names.append(name)

    def number(self, among, wanted):
        """The number of one of the types, members or enums, or None."""
        return next((number for number, one in enumerate(among) if one is wanted), None)


def first_fault(declared, check):
    """The word of the least fault that a check finds."""
    loader = declared.loader
    loader.faults = []
    check(loader)
    codes = {code for _, _, code, _ in loader.faults}
    return "unknown" if "S4" in codes else "left out" if "S8" in codes else "fine"


def fault(declared, number, key, flags, text):
    """Whether the names of an expression are allowed where it stands: `s` is in `seq`, `r` is in something repeated."""
    place = Place(declared.types[number], "s" in flags, "r" in flags)
    role = "whole" if key == "io" else None
    return first_fault(declared, lambda loader: Names(loader, 1, key, place).resolve(expressions.parse(text), role))


def arguments(declared, number, text):
    """The same of a type's arguments, in a field that is repeated."""
    place = Place(declared.types[number], True, True)

    def check(loader):
        """Looks up the names of each argument."""
        for argument in expressions.parse_type(text)[1] or []:
            Names(loader, 1, "argument", place).resolve(argument, None)

    return first_fault(declared, check)


def built_in(text):
    """What a name is as a type of the language. An integer's order is that of its name."""
    if text in ("str", "strz"):
        return f"Some({text.capitalize()})"
    if description.LEFT_OUT_TYPE.match(text):
        return "Some(NotHere)"
    found = description.BIT_TYPE.match(text)
    if found is not None:
        return f"Some(Bits {{ width: {found[1]}, is_little: {'true' if found[2] == 'le' else 'false'} }})"
    found = description.INTEGER_TYPE.match(text)
    if found is None:
        return "None"
    order = {"le": "Some(Little)", "be": "Some(Big)", None: "None"}[found[4]]
    is_signed = str(found[1] == "s").lower()
    return f"Some(Integer {{ is_signed: {is_signed}, size: {found[2] or found[3]}, order: {order} }})"


def enum_member(declared, number, text):
    """The member that a path names."""
    found = declared.loader.find_member(text.split("::"), declared.types[number])
    if found is None:
        return "None"
    return f"Some(EnumMember {{ enum_number: {declared.number(declared.enums, found[0])}, number: {found[1]} }})"


def path(declared, number, text):
    """The type and the enum that a path names, looked for in a type. A type behind the last is none, but the root is found."""
    scope = declared.types[number] if number < len(declared.types) else None
    names = text.split("::")
    found = declared.number(declared.types, declared.loader.find_type(names, scope))
    return f"{some(found)} {some(declared.number(declared.enums, declared.loader.find_enum(names, scope)))}"


def plain(text, signed):
    """A plain number."""
    number = description.plain_number(text, signed)
    return "NoNumeral" if number is None else "LeadingZero" if number == "zero" else f"Whole({number})"


def inherited(declared, number):
    """The byte order and encoding of a type."""
    if number >= len(declared.types):
        return "None nothing"
    one = declared.types[number]
    order = {"le": "Little", "be": "Big", None: None}[one.endian]
    return f"{some(order)} {'nothing' if one.encoding is None else one.encoding}"


def answer(declared, kind, word, number, rest):
    """The own reply to a question, or None where it isn't known what is asked."""
    has_type = number is None or number < len(declared.types)
    if kind == "names":
        if word == "fault" and has_type:
            return fault(declared, number, *rest.split(" ", 2))
        if word == "arguments":
            return arguments(declared, number, rest)
        if word == "member":
            return enum_member(declared, number, rest)
        if word == "built_in":
            return built_in(rest)
    elif kind == "scopes":
        if word == "path":
            return path(declared, number, rest)
        if word == "inherited":
            return inherited(declared, number)
        if word == "named":
            return some(declared.number(declared.members, declared.types[number].members.get(rest)))
        if word == "id":
            enum = declared.enums[number] if number < len(declared.enums) else None
            return (enum and enum.ids.get(int(rest))) or "nothing"
        if word == "value":
            return some(declared.enums[number].numbers.get(rest))
        if word in ("plain", "signed"):
            return plain(rest, word == "signed")
    elif kind == "load":
        if word == "enum":
            found = declared.enums[number] if number < len(declared.enums) else None
            ids = found.ids.get(int(rest)) if found else None
            return f'{str(found is not None).lower()} "{found.name if found else ""}" {some(ids and chr(34) + ids + chr(34))}'
        if word == "number":
            return some(declared.names.index(rest) if rest in declared.names else None)
        if word == "name":
            return f'"{declared.names[number] if number < len(declared.names) else ""}"'
    return None


def line_fault(found, lines_before):
    """A refusal of a part of a text, its lines counted from the part's first."""
    return f"Fault(LineFault {{ line: {found.line - lines_before}, fault: {YAML_KINDS[found.kind]} }})"


def block(sign, text, quoted):
    """The text of a block scalar whose lines are all that follows its sign."""
    try:
        return quoted(yaml_reader.read(sign.encode() + b"\n" + text).text)
    except yaml_reader.YamlFault as found:
        return line_fault(found, 1)


def plain_scalar(column, text, quoted):
    """A plain scalar `a` that goes on in lines of at least a column, and how many lines are left behind quiet ones."""
    reader = yaml_reader.Reader("a\n" + text.decode("utf-8"))
    try:
        found = reader.plain("a", column - 1).text
    except yaml_reader.YamlFault as fault_found:
        return line_fault(fault_found, 1)
    reader.skip_quiet()
    return f"{quoted(found)} {len(reader.lines) - reader.at}"


def cut(text, quoted):
    """The lines of a text: number, indentation, the rest, and whether it has an end."""
    lines, ended = yaml_reader.cut_lines(text.decode("utf-8"))
    parts = []
    for number, line in enumerate(lines, 1):
        column = yaml_reader.indentation(line)
        has_end = str(number < len(lines) or ended).lower()
        parts.append(f"{number} {column} {quoted(line[column:])} {has_end}")
    return " ".join(parts)


def stray(text):
    """The line of the first control character, or of the first byte that is no UTF-8."""
    try:
        lines, _ = yaml_reader.cut_lines(text.decode("utf-8"))
    except UnicodeDecodeError as found:
        return f"NotUtf8 {{ line: {text.count(bytes([10]), 0, found.start) + 1} }}"
    return some(next((number for number, line in enumerate(lines, 1) if yaml_reader.CONTROL.search(line)), None))


def start(content, quoted):
    """What begins at the front of a line."""
    if yaml_reader.is_quiet(content):
        return "nothing"
    if content[0] == "\t":
        return "Fault(Tab)"
    if yaml_reader.is_dash(content):
        rest = content[1:].lstrip(" \t")
        space = content[1:len(content) - len(rest)]
        return f"dash {1 + len(space)} {str(chr(9) in space).lower()} {quoted('' if rest[:1] == '#' else rest)}"
    if content[0] in "[{":
        return "Flow"
    if content[0] in "|>":
        sign = yaml_reader.BLOCK_SIGN.match(content)
        if sign is None:
            return "Fault(LeftOut)"
        return f"Block {{ folded: {str(sign[1] == '>').lower()}, keep: {str(sign[2] == '').lower()} }}"
    reader = yaml_reader.Reader(content)
    try:
        key = reader.key(content, 0)
        if key is not None:
            rest = "" if yaml_reader.is_quiet(key[1]) else key[1].lstrip(" \t")
            return f"key {quoted(key[0])} {quoted(rest)}"
        found = reader.value(content, -1)
    except yaml_reader.YamlFault as refusal:
        return f"Fault({YAML_KINDS[refusal.kind]})"
    if found.quoted:
        return f"quoted {quoted(found.text)}"
    return f"plain {quoted(found.text)} {str(yaml_reader.cut_comment(content)[1]).lower()}"


def line_answer(word, argument, text, quoted):
    """The own reply to a question on YAML lines, or None where it isn't known what is asked."""
    if word == "cut":
        return cut(text, quoted)
    if word == "stray":
        return stray(text)
    if word == "start":
        return start(text.decode("utf-8"), quoted)
    if word == "dash":
        return str(yaml_reader.is_dash(text.decode("utf-8"))).lower()
    if word == "block":
        return block(argument, text, quoted)
    if word == "plain":
        return plain_scalar(int(argument), text, quoted)
    return None
