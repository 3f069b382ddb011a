"""Descriptions: a tree of YAML is loaded to types with their members, or refused with the least of all faults."""

import re

import expressions
from yaml_reader import List, Map, Text

MESSAGES = {
    "S1": "unknown key", "S2": "missing key", "S3": "keys against each other", "S4": "unknown name", "S5": "no byte order",
    "S6": "bad name or value", "S7": "wrong count of arguments", "S8": "left-out feature", "S9": "over a limit",
    "S10": "expression: ",
}
MOST_TYPES, MOST_MEMBERS, MOST_ENUM_MEMBERS = 1024, 256, 65_536

IDENTIFIER = re.compile(r"[a-z][a-z0-9_]*\Z")
INTEGER_TYPE = re.compile(r"([us])(?:(1)|([248])(le|be)?)\Z")
BIT_TYPE = re.compile(r"b([1-9]|[1-5][0-9]|6[0-4])(le|be)?\Z")
LEFT_OUT_TYPE = re.compile(r"f[48](?:le|be)?\Z")
INTEGERS = ("integer", "bits")

TYPE_KEYS = {"meta", "params", "seq", "types", "instances", "enums"}
META_KEYS = {"id", "endian", "encoding", "bit-endian"}
META_IGNORED = {"title", "application", "file-extension", "license", "xref", "ks-version", "tags"}
META_LEFT_OUT = {"imports", "ks-opaque-types"}
FIELD_KEYS = {"type", "size", "size-eos", "contents", "encoding", "terminator", "consume", "include", "eos-error", "repeat",
              "repeat-expr", "repeat-until", "if", "enum", "valid"}
FIELD_LEFT_OUT = {"process", "pad-right"}
AGAINST_VALUE = ("pos", "io", "type", "size", "repeat")
AGAINST_CONTENTS = ("type", "size", "size-eos", "terminator", "enum", "valid")
CHECK_KEYS = {"eq", "any-of", "expr", "min", "max"}
PLACE_KEYS = {"if", "size", "repeat-expr", "repeat-until", "switch-on"}
INDEX_KEYS = {"size", "switch-on", "argument", "repeat-until", "valid", "expr"}
ARGUMENT_COUNTS = {"substring": 2, "to_i": 1, "to_s": 1}


class DescriptionFault(Exception):
    """The least fault of a description."""

    def __init__(self, line, code, text):
        super().__init__(f"line {line}: {code} {text}")
        self.line, self.code, self.text = line, code, text


def as_map(tree, line):
    """A mapping, or an empty one for what is none: an entry of `types` or `enums` declares a name whatever its value is."""
    return tree if isinstance(tree, Map) else Map(line, [])


class Type:
    """A type with what it declares."""

    def __init__(self, name, outer, tree):
        self.name, self.outer, self.tree = name, outer, tree
        self.types, self.enums, self.members = {}, {}, {}
        self.parameters, self.fields = [], []
        self.order = []  # all members in the order of the text, those with bad or equal ids too
        self.endian, self.encoding = (outer.endian, outer.encoding) if outer else (None, None)


class Enum:
    """An enum: the ids of its numbers and the numbers of its ids."""

    def __init__(self, name):
        self.name, self.ids, self.numbers = name, {}, {}


class Attribute:
    """A member of a type: a parameter, a field of `seq`, a positioned or a value instance."""

    def __init__(self, name, kind, owner):
        self.name, self.kind, self.owner = name, kind, owner
        self.before = None  # the field before it
        self.number = None  # of a parameter: which argument it has
        self.condition = self.size = self.repeat = self.count = self.until = self.io = self.pos = self.value = None
        self.contents = self.terminator = self.encoding = self.enum = self.case = self.switch = None
        self.checks = ()  # what the value must meet, in the order in which it is looked at: (how, expressions)
        self.size_eos = self.include = False
        self.consume = self.eos_error = True
        self.case_lines = []  # of a switch: the line of each case, with what it chooses


class Case:
    """What a type's text names: an integer of whole bytes, one of bits, "str", "strz", or a type of the description with its arguments.
    The width is in bits."""

    def __init__(self, kind, width=0, signed=False, order=None, type=None, arguments=()):
        self.kind, self.width, self.signed, self.order = kind, width, signed, order
        self.type, self.arguments = type, arguments


class Description:
    """A loaded description: its types, the root first, and all names of members."""

    def __init__(self, types):
        self.types, self.root = types, types[0]
        self.names = {name for one in types for name in one.members}


def load(tree):
    """The description that a tree states; else the least fault as a DescriptionFault."""
    loader = Loader()
    if not isinstance(tree, Map):
        loader.fault(tree.line, "S6")
    else:
        loader.declare(tree, None, None, tree.line)
        for one in loader.types:
            loader.check_type(one)
    if loader.faults:
        line, _, code, text = min(loader.faults)
        raise DescriptionFault(line, code, text)
    return Description(loader.types)


def is_ignored(key):
    """Keys without a meaning in mappings of fixed keys."""
    return key.startswith("-") or key in ("doc", "doc-ref")


def identifier(node):
    """The id that a node is, or None."""
    return node.text if isinstance(node, Text) and IDENTIFIER.match(node.text) else None


def plain_number(text, signed=False):
    """A number written in decimal or with `0x`, or with `-` before a decimal; "zero" for a leading zero; None for others."""
    if re.match(r"0x[0-9a-fA-F]+\Z", text):
        number = int(text, 16)
    elif re.match(r"-?[0-9]+\Z" if signed else r"[0-9]+\Z", text):
        if re.match(r"-?0[0-9]", text):
            return "zero"
        number = int(text)
    else:
        return None
    if signed:
        return number if -2**63 <= number < 2**64 else None
    return number if number <= 255 else None


class Loader:
    """Gathers all faults of a tree while it makes the types."""

    def __init__(self):
        self.faults = []
        self.types = []
        self.enum_members = 0

    def fault(self, line, code, text=None):
        """Notes a fault."""
        self.faults.append((line, int(code[1:]), code, MESSAGES[code] if text is None else text))

    def entries(self, tree, keys, left_out=(), ignored=()):
        """The entries of a mapping with fixed keys that have a meaning; the other keys are faults."""
        for line, key, node in tree.entries:
            if key in keys:
                yield line, key, node
            elif key in left_out:
                self.fault(line, "S8")
            elif not is_ignored(key) and key not in ignored:
                self.fault(line, "S1")

    # What a type declares, before anything is looked up.

    def declare(self, tree, name, outer, line):
        """Makes a type with the names of all that it declares, in the order of the text."""
        made = Type(name, outer, tree)
        self.types.append(made)
        if len(self.types) > MOST_TYPES:
            self.fault(line, "S9")
        meta = tree.get("meta")
        if isinstance(meta, Map):
            if outer is None:
                made.name = identifier(meta.get("id"))
            self.inherit(made, meta)
        for key_line, key, node in tree.entries:
            if key == "types" and isinstance(node, Map):
                for inner_line, inner, inner_tree in node.entries:
                    made.types[inner] = self.declare(as_map(inner_tree, inner_line), inner, made, inner_line)
            elif key == "enums" and isinstance(node, Map):
                for inner_line, inner, inner_tree in node.entries:
                    made.enums[inner] = self.declare_enum(inner, as_map(inner_tree, inner_line))
            elif key in ("params", "seq") and isinstance(node, List):
                for number, item in enumerate(node.items):
                    self.declare_item(made, key, number, item)
            elif key == "instances" and isinstance(node, Map):
                for inner_line, inner, inner_tree in node.entries:
                    is_value = isinstance(inner_tree, Map) and inner_tree.get("value") is not None
                    self.member(made, Attribute(inner, "value" if is_value else "positioned", made), inner_line, inner_line)
        return made

    def inherit(self, made, meta):
        """A default that isn't one of the language's counts as not written."""
        endian, encoding = meta.get("endian"), meta.get("encoding")
        if isinstance(endian, Text) and endian.text in ("le", "be"):
            made.endian = endian.text
        if isinstance(encoding, Text):
            made.encoding = encoding.text

    def declare_item(self, made, key, number, item):
        """A parameter or a field of `seq`."""
        node = item.get("id") if isinstance(item, Map) else None
        name = identifier(node)
        if key == "params":
            attribute = Attribute(name, "parameter", made)
            attribute.number = len(made.parameters)
            made.parameters.append(attribute)
        else:
            if node is None:
                name = f"_unnamed{number}"
            attribute = Attribute(name, "field", made)
            attribute.before = made.fields[-1] if made.fields else None
            made.fields.append(attribute)
        self.member(made, attribute, item.line, item.line if node is None else item.line_of("id"))

    def member(self, made, attribute, line, name_line):
        """One member more of a type."""
        made.order.append(attribute)
        if len(made.order) > MOST_MEMBERS:
            self.fault(line, "S9")
        if attribute.name in made.members:
            self.fault(name_line, "S3")
        elif attribute.name is not None:
            made.members[attribute.name] = attribute

    def declare_enum(self, name, tree):
        """An enum with its numbers and ids; faults of the entries too."""
        made = Enum(name)
        for line, key, node in tree.entries:
            self.enum_members += 1
            if self.enum_members > MOST_ENUM_MEMBERS:
                self.fault(line, "S9")
            number = plain_number(key, True)
            if number is None or number == "zero":
                self.fault(line, "S6" if number is None else "S8")
                number = None
            member, member_line = self.enum_member(line, node)
            if number is not None:
                if number in made.ids:
                    self.fault(line, "S3")
                else:
                    made.ids[number] = member
            if member is not None:
                if member in made.numbers:
                    self.fault(member_line, "S3")
                else:
                    made.numbers[member] = number
        return made

    def enum_member(self, line, node):
        """The id of an enum's entry and its line."""
        if isinstance(node, Map):
            found = None
            for key_line, _, inner in self.entries(node, {"id"}):
                found = inner, key_line
            if found is None:
                self.fault(node.line, "S2")
                return None, line
            node, line = found
        name = identifier(node)
        if name is None:
            self.fault(line, "S6")
        return name, line

    # Names that are looked up.

    def find_type(self, names, scope):
        """The type of a path: the first name from the inside outwards, the root by its id last, the others inside."""
        found, here = None, scope
        while here is not None and found is None:
            found, here = here.types.get(names[0]), here.outer
        root = self.types[0]
        if found is None and root.name is not None and root.name == names[0]:
            found = root
        for inner in names[1:]:
            found = found.types.get(inner) if found else None
        return found

    def find_enum(self, names, scope):
        """The enum of a path, whose first names are types."""
        if len(names) > 1:
            found = self.find_type(names[:-1], scope)
            return found.enums.get(names[-1]) if found else None
        while scope is not None:
            if names[0] in scope.enums:
                return scope.enums[names[0]]
            scope = scope.outer
        return None

    def find_member(self, names, scope):
        """The enum and number of a path to a member."""
        enum = self.find_enum(names[:-1], scope)
        if enum is None or names[-1] not in enum.numbers:
            return None
        return enum, enum.numbers[names[-1]]

    # Expressions with their names looked up.

    def expression(self, line, node, key, place):
        """The tree of an expression that is the node of a key; None where it has a fault."""
        if not isinstance(node, Text):
            self.fault(line, "S6")
            return None
        try:
            tree = expressions.parse(node.text)
        except expressions.ExpressionFault as fault:
            self.fault(line, "S10", f"expression: {fault}")
            return None
        return Names(self, line, key, place).resolve(tree, "whole" if key == "io" else None)

    # The keys of a type.

    def check_type(self, one):
        """All keys of a type."""
        tree, is_root = one.tree, one.outer is None
        for line, key, node in self.entries(tree, TYPE_KEYS):
            if key == "params" and is_root:
                self.fault(line, "S8")
            wanted = List if key in ("params", "seq") else Map
            if not isinstance(node, wanted):
                self.fault(line, "S6")
            elif key == "meta":
                self.check_meta(node, is_root)
            elif key in ("params", "seq"):
                members = one.parameters if key == "params" else one.fields
                check = self.check_parameter if key == "params" else self.check_field
                for item, attribute in zip(node.items, members):
                    if isinstance(item, Map):
                        check(item, attribute)
                    else:
                        self.fault(item.line, "S6")
            elif key == "instances":
                self.check_instances(node, one)
            else:
                for inner_line, inner, inner_tree in node.entries:
                    if not IDENTIFIER.match(inner) or not isinstance(inner_tree, Map):
                        self.fault(inner_line, "S6")
        if is_root and tree.get("meta") is None:
            self.fault(tree.line, "S2")

    def check_meta(self, tree, is_root):
        """The keys of `meta`."""
        if is_root and tree.get("id") is None:
            self.fault(tree.line, "S2")
        for line, key, node in self.entries(tree, META_KEYS, META_LEFT_OUT, META_IGNORED):
            text = node.text if isinstance(node, Text) else None
            if key == "id":
                if identifier(node) is None:
                    self.fault(line, "S6")
            elif key == "endian":
                if isinstance(node, Map):
                    self.fault(line, "S8")
                elif text not in ("le", "be"):
                    self.fault(line, "S6")
            elif key == "bit-endian":
                if text != "be":
                    self.fault(line, "S8" if text == "le" else "S6")
            else:
                self.check_encoding(line, node)

    def check_encoding(self, line, node):
        """ASCII or UTF-8, in any letter case."""
        if not isinstance(node, Text):
            self.fault(line, "S6")
        elif node.text.lower() not in ("ascii", "utf-8"):
            self.fault(line, "S8")

    def check_parameter(self, tree, attribute):
        """A parameter has an id; its type and enum say nothing, but are texts."""
        if tree.get("id") is None:
            self.fault(tree.line, "S2")
        for line, key, node in self.entries(tree, {"id", "type", "enum"}):
            if key == "id":
                if identifier(node) is None:
                    self.fault(line, "S6")
            elif not isinstance(node, Text):
                self.fault(line, "S6")
            elif key == "type" and node.text == "io":
                self.fault(line, "S8")

    def check_instances(self, tree, one):
        """Value instances, positioned ones, and those that are neither."""
        attributes = [member for member in one.order if member.kind in ("value", "positioned")]
        for (line, name, node), attribute in zip(tree.entries, attributes):
            if not IDENTIFIER.match(name) or not isinstance(node, Map):
                self.fault(line, "S6")
            if not isinstance(node, Map):
                continue
            if node.get("value") is not None:
                self.check_value(node, attribute)
            elif node.get("pos") is not None:
                self.check_field(node, attribute)
            else:
                self.fault(line, "S8")
                self.check_field(node, attribute, False)

    def check_value(self, tree, attribute):
        """A value instance, and the keys that can't stand beside it."""
        place = Place(attribute.owner, False, False)
        keys = {"value", "if", "enum", "valid", *AGAINST_VALUE}
        for line, key, node in self.entries(tree, keys, FIELD_LEFT_OUT):
            if key in AGAINST_VALUE:
                self.fault(min(line, tree.line_of("value")), "S3")
                self.check_key(line, key, node, attribute, place)
            elif key == "value":
                attribute.value = self.expression(line, node, key, place)
            else:
                self.check_key(line, key, node, attribute, place)

    # The keys of a field or a positioned instance.

    def check_field(self, tree, attribute, together=True):
        """Each key by itself, and then the keys together."""
        is_seq = attribute.kind == "field"
        repeat = tree.get("repeat")
        if isinstance(repeat, Text) and repeat.text in ("eos", "expr", "until"):
            attribute.repeat = repeat.text
        attribute.encoding = attribute.owner.encoding
        place = Place(attribute.owner, is_seq, attribute.repeat is not None)
        keys = FIELD_KEYS | ({"id"} if is_seq else {"pos", "io"})
        for line, key, node in self.entries(tree, keys, FIELD_LEFT_OUT):
            self.check_key(line, key, node, attribute, place)
        if together:
            self.check_together(tree, attribute)

    def check_key(self, line, key, node, attribute, place):
        """One key of an attribute, by itself."""
        if key in ("if", "size", "repeat-expr", "repeat-until", "pos", "io"):
            names = {"if": "condition", "repeat-expr": "count", "repeat-until": "until"}
            setattr(attribute, names.get(key, key), self.expression(line, node, key, place))
        elif key == "type":
            self.check_type_key(line, node, attribute, place)
        elif key == "contents":
            attribute.contents = self.contents(line, node)
        elif key == "valid":
            attribute.checks = self.checks(line, node, place)
        elif not isinstance(node, Text):
            self.fault(line, "S6")
        elif key == "id":
            if identifier(node) is None:
                self.fault(line, "S6")
        elif key == "encoding":
            self.check_encoding(line, node)
            attribute.encoding = node.text
        elif key == "terminator":
            number = plain_number(node.text)
            if number is None or number == "zero":
                self.fault(line, "S6" if number is None else "S8")
            else:
                attribute.terminator = number
        elif key in ("size-eos", "consume", "include", "eos-error"):
            if node.text not in ("true", "false"):
                self.fault(line, "S6")
            else:
                setattr(attribute, key.replace("-", "_"), node.text == "true")
        elif key == "repeat":
            if node.text not in ("eos", "expr", "until"):
                self.fault(line, "S6")
        else:
            self.check_enum_key(line, node, attribute)

    def check_enum_key(self, line, node, attribute):
        """The enum of an attribute."""
        names = node.text.split("::")
        if not all(IDENTIFIER.match(name) for name in names):
            self.fault(line, "S6")
            return
        attribute.enum = self.find_enum(names, attribute.owner)
        if attribute.enum is None:
            self.fault(line, "S4")

    def checks(self, line, node, place):
        """What the key `valid` states: a text, or a mapping with one key of a check, or with `min` and `max`."""
        if isinstance(node, Text):
            return [("eq", [self.expression(line, node, "valid", place)])]
        if not isinstance(node, Map):
            self.fault(line, "S6")
            return []
        found, lines = {}, []
        for key_line, key, inner in self.entries(node, CHECK_KEYS, {"in-enum"}):
            lines.append(key_line)
            found[key] = self.check_expressions(key_line, key, inner, place)
        if all(is_ignored(key) for _, key, _ in node.entries):
            self.fault(node.line, "S2")
        if len(found) > 1 and set(found) != {"min", "max"}:
            self.fault(min(lines), "S3")
        return [(key, found[key]) for key in ("eq", "any-of", "expr", "min", "max") if key in found]

    def check_expressions(self, line, key, node, place):
        """The expressions of one key of `valid`: those of a list, or the only one."""
        if key != "any-of":
            return [self.expression(line, node, "expr" if key == "expr" else "valid", place)]
        if not isinstance(node, List) or not node.items:
            self.fault(line, "S6")
            return []
        return [self.expression(item.line, item, "valid", place) for item in node.items]

    def contents(self, line, node):
        """The bytes of a text, or of a list of numbers and texts."""
        if isinstance(node, Text):
            if not node.quoted and re.match(r"(?:0x[0-9a-fA-F]+|[0-9]+)\Z", node.text):
                self.fault(line, "S8")
            return node.text.encode("utf-8")
        if not isinstance(node, List):
            self.fault(line, "S6")
            return None
        out = bytearray()
        for item in node.items:
            if not isinstance(item, Text):
                self.fault(item.line, "S6")
                continue
            number = None if item.quoted else plain_number(item.text)
            if number == "zero":
                self.fault(item.line, "S8")
            elif number is not None:
                out.append(number)
            elif not item.quoted and re.match(r"(?:0x[0-9a-fA-F]+|[0-9]+)\Z", item.text):
                self.fault(item.line, "S6")
            else:
                out += item.text.encode("utf-8")
        return bytes(out)

    def check_type_key(self, line, node, attribute, place):
        """A type's text, or a switch."""
        if isinstance(node, Text):
            attribute.case = self.type_text(line, node.text, place)
        elif isinstance(node, Map):
            self.check_switch(node, attribute, place)
        else:
            self.fault(line, "S6")

    def type_text(self, line, text, place):
        """What a type's text names, with its arguments; None where that has a fault."""
        try:
            names, arguments = expressions.parse_type(text)
        except expressions.ExpressionFault as fault:
            self.fault(line, "S10", f"expression: {fault}")
            return None
        if len(names) == 1:
            found = self.built_in(line, names[0], place)
            if found is not None:
                if arguments:
                    self.fault(line, "S7")
                return found
        resolver = Names(self, line, "argument", place)
        resolved = [resolver.resolve(argument, None) for argument in arguments or []]
        found = self.find_type(names, place.type)
        if found is None:
            self.fault(line, "S4")
            return None
        if len(resolved) != len(found.parameters):
            self.fault(line, "S7")
        return Case("user", type=found, arguments=resolved)

    def built_in(self, line, name, place):
        """A type of the language by its name; None for other names."""
        if name in ("str", "strz"):
            return Case(name)
        if LEFT_OUT_TYPE.match(name):
            self.fault(line, "S8")
            return Case("left out")
        found = BIT_TYPE.match(name)
        if found is not None:
            if found[2] == "le":
                self.fault(line, "S8")
            return Case("bits", int(found[1]))
        found = INTEGER_TYPE.match(name)
        if found is None:
            return None
        size = int(found[2] or found[3])
        order = found[4] or place.type.endian
        if size > 1 and order is None:
            self.fault(line, "S5")
        return Case("integer", 8 * size, found[1] == "s", order)

    def check_switch(self, tree, attribute, place):
        """The expression of a switch and its cases."""
        on = cases = None
        for line, key, node in self.entries(tree, {"switch-on", "cases"}):
            if key == "switch-on":
                on = self.expression(line, node, key, place)
            elif isinstance(node, Map):
                cases = [self.case(*entry, attribute, place) for entry in node.entries]
            else:
                self.fault(line, "S6")
        if tree.get("switch-on") is None or tree.get("cases") is None:
            self.fault(tree.line, "S2")
        attribute.switch = (on, cases)

    def case(self, line, key, node, attribute, place):
        """The key of a case and what it chooses."""
        value = self.case_key(line, key, place)
        if not isinstance(node, Text):
            self.fault(line, "S6")
            return value, None
        found = self.type_text(line, node.text, place)
        if found is not None:
            if found.kind in ("str", "strz", "bits"):
                self.fault(line, "S8")
            attribute.case_lines.append((line, found))
        return value, found

    def case_key(self, line, key, place):
        """A number, text, truth value or member, or `_`: (kind, value)."""
        try:
            tree = expressions.parse(key)
        except expressions.ExpressionFault as fault:
            self.fault(line, "S10", f"expression: {fault}")
            return None
        if tree == ("special", "_"):
            return ("any", None)
        if tree[0] in ("int", "text", "bool"):
            return tree
        if tree[0] == "unary" and tree[1] == "-" and tree[2][0] == "int" and tree[2][1] <= 2**63:
            return ("int", -tree[2][1])
        if tree[0] == "member":
            found = self.find_member(tree[1], place.type)
            if found is None:
                self.fault(line, "S4")
            return ("member", found)
        self.fault(line, "S6")
        return None

    def check_together(self, tree, attribute):
        """Keys that must or can't stand together."""
        lines = {key: line for line, key, _ in tree.entries}
        true_eos = lines["size-eos"] if attribute.size_eos else None
        kind = attribute.case.kind if attribute.case else None
        is_sized = "size" in lines or true_eos is not None or "terminator" in lines

        def against(*given):
            """Two keys that don't fit together, where both are there."""
            if None not in given:
                self.fault(min(given), "S3")

        if "type" not in lines and not is_sized and "contents" not in lines:
            self.fault(tree.line, "S2")
        if kind == "str" and not is_sized:
            self.fault(tree.line, "S2")
        if kind in ("str", "strz") and attribute.encoding is None:
            self.fault(tree.line, "S2")
        for key, word in (("repeat-expr", "expr"), ("repeat-until", "until")):
            if attribute.repeat == word and key not in lines:
                self.fault(tree.line, "S2")
            if attribute.repeat != word and key in lines:
                self.fault(lines[key], "S3")
        against(lines.get("size"), true_eos)
        for key in AGAINST_CONTENTS:
            against(lines.get("contents"), lines.get(key))
        if kind in INTEGERS:
            for line in (lines.get("size"), true_eos, lines.get("terminator")):
                against(lines["type"], line)
        for line, case in attribute.case_lines:
            if case.kind in INTEGERS:
                for other in (lines.get("size"), true_eos, lines.get("terminator")):
                    against(line, other)
            elif case.kind == "user" and "terminator" in lines:
                self.fault(lines["terminator"], "S8")
        if kind == "user" and "terminator" in lines:
            self.fault(lines["terminator"], "S8")
        if kind == "strz" and attribute.terminator not in (None, 0):
            self.fault(lines["terminator"], "S8")
        if "enum" in lines and kind not in INTEGERS:
            self.fault(lines["enum"], "S3")


class Place:
    """Where an expression stands: the type, and whether in `seq` and in something repeated."""

    def __init__(self, type, in_seq, repeated):
        self.type, self.in_seq, self.repeated = type, in_seq, repeated


class Names:
    """Looks up the names of one expression."""

    def __init__(self, loader, line, key, place):
        self.loader, self.line, self.key, self.place = loader, line, key, place

    def fault(self, code):
        """A fault of the expression stands at its key."""
        self.loader.fault(self.line, code)

    def resolve(self, tree, role):
        """The tree with members and casts found. The role of a stream is "whole" (the end of an `io`), "size" or "place"
        (what stands behind its dot), or None where a stream can't stand."""
        kind = tree[0]
        if kind in ("int", "text", "bool"):
            return tree
        if kind == "name":
            if tree[1] not in self.place.type.members:
                self.fault("S4")
            return tree
        if kind == "special":
            self.special(tree[1], role)
            return tree
        if kind == "member":
            found = self.loader.find_member(tree[1], self.place.type)
            if found is None:
                self.fault("S4")
            return ("member", tree[1], found)
        if kind == "field":
            return self.field(tree, role)
        if kind == "cast":
            return ("cast", self.resolve(tree[1], None), tree[2], self.cast_type(tree[2]))
        if kind == "call":
            if ARGUMENT_COUNTS.get(tree[2]) != len(tree[3]):
                self.fault("S4")
            return ("call", self.resolve(tree[1], None), tree[2], [self.resolve(one, None) for one in tree[3]])
        return (kind, *(self.resolve(one, None) if isinstance(one, tuple) else one for one in tree[1:]))

    def special(self, word, role):
        """A name of the language must be allowed where it stands."""
        if word == "_io":
            fits = self.place.in_seq and self.key in PLACE_KEYS
            if role is None or (role == "place" and not fits):
                self.fault("S8")
        elif word == "_index":
            if not (self.place.repeated and self.key in INDEX_KEYS):
                self.fault("S4")
        elif word == "_" and self.key not in ("repeat-until", "expr"):
            self.fault("S4")

    def field(self, tree, role):
        """What stands behind a dot."""
        _, before, word = tree
        if word in ("_", "_index"):
            self.fault("S4")
        if word == "_io" and role not in ("whole", "size"):
            self.fault("S8")
        inner = {"size": "size", "pos": "place", "eof": "place"}.get(word)
        is_stream = before == ("special", "_io") or (before[0] == "field" and before[2] == "_io")
        return ("field", self.resolve(before, inner if is_stream else None), word)

    def cast_type(self, names):
        """The type of a cast, which is one of the description."""
        if len(names) == 1:
            name = names[0]
            if name in ("str", "strz") or any(one.match(name) for one in (LEFT_OUT_TYPE, INTEGER_TYPE, BIT_TYPE)):
                self.fault("S8")
                return None
        found = self.loader.find_type(names, self.place.type)
        if found is None:
            self.fault("S4")
        return found
