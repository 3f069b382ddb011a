"""Hints on texts that are no YAML that ksv reads (Y1 to Y9)."""
from __future__ import annotations

import re
from typing import Callable, Dict, List, NamedTuple, Optional, Tuple

from front.hints import flow, lines, schema
from front.hints.flow import QUOTED
from front.hints.kinds import Hint, say
from front.hints.node import Node
from front.hints.outline import COMMENT, STOP, Outline

# Keys that people write in braces.
KEYS_IN_FLOW = ("id", "endian", "encoding", "value", "pos", "io", "min", "max", "eq", "any-of", "expr", "switch-on", "cases", *schema.FIELD.split())
# How much of a line and how many lines are looked at.
LONGEST, LINES = 4000, 5_000
# How many spaces a line is away from the column that it should have, where it is near.
NEAR = 3
# How many lines before one are looked at for the last that isn't blank.
NEARBY = 10
CONTROL = re.compile("[\x00-\x08\x0b-\x1f\x7f-\x9f]")
FRONT = re.compile(r"[ \t]*(?:-[ \t]+)*")
WORD = re.compile(r"[A-Za-z_][\w-]*")
EXPRESSIONS = ("if", "value", "valid", "expr", "repeat-until", "repeat-expr", "size", "pos", "eq", "min", "max", "switch-on")
# What comes in a flow after a quoted text or a closed bracket, where a comma is missing.
COMMA = re.compile(r"'\s+[^\s,:\]}#]|[\]}]\s*[^\s,\]}:#]")
# A word in a flow, and a key behind it without a comma.
JOINED = re.compile(r"[\w'][;.]? {1,9}(?:" + "|".join(KEYS_IN_FLOW) + r"): ")
# A bracket, brace or comma in a plain text of a flow.
OPEN_TEXT = re.compile(r"[^\s\[\]{},:'] {0,9}[\[{]|\([^()\[\]{}:']*,")
# A quote in a flow behind which there is none.
LONE = re.compile(r"[:,\[{]\s{0,9}([\"'])(?!x*')[^\"']*\Z")
# The same as a word and a key, in a block.
SECOND = re.compile(r"[\w'\]),] {1,9}(?:" + "|".join(KEYS_IN_FLOW) + r"):(?: |\Z)")
# Keys of checks, keys that an item begins with, keys of texts, and the lines that begin and end a description.
BOUNDS, ITEM_KEYS = ("valid", "min", "max", "eq", "expr"), ("id", "type", "size", "contents", "doc")
MAPPED = {"valid": "valid", "type": "switch"}
STRUCTURES = ("meta", "seq", "types", "instances", "enums", "params", "cases", "valid", "type")
TEXTS, MARKER = ("doc", "doc-ref", "title", "license"), re.compile(r"(?:---|\.\.\.)(?:[ \t]|\Z)")
# The line that a description begins with, and spaces or a comment behind it.
BEGIN = re.compile(r"---[ \t]+(?:#|\r?\Z)")
KNOWN = frozenset(it for keys in (*schema.KEYS.values(), *schema.IGNORED.values(), *schema.LEFT_OUT.values(), ("doc", "doc-ref")) for it in keys)
COMMENT_SIGN = re.compile(r"//|/\*|;|--(?!-)|<!--")
GOOD_ESCAPE = re.compile(r"\\(?:[\"\\/0abtnvfre]|x[\da-fA-F]{2}|u(?![dD][89a-fA-F])[\da-fA-F]{4})")


class Line(NamedTuple):
    """A line of a text: how many spaces it begins with, what follows them and dashes, its key, if it has one, and its value or all that follows."""

    text: str
    number: int
    content: str
    key: str
    value: str


def read(text: str, number: int) -> Line:
    """A line, taken apart as far as it can be by itself."""
    line = (lines.line(text, number) or "")[:LONGEST]
    if number == 1:
        line = line.lstrip("\ufeff")
    content = line[FRONT.match(line).end() :]
    quoted = QUOTED.match(content)
    stop = STOP.search(content, quoted.end() if quoted else 0) if not content.startswith(("{", "[")) else None
    is_key = stop is not None and stop[0] == ":" and (not quoted or not content[quoted.end() : stop.start()].strip())
    key = content[: stop.start()].strip("\"' \t") if is_key else ""
    return Line(line, number, content, key, content[stop.end() :].strip(" \t") if is_key else content.strip(" \t"))


def bad(text: str, number: int, code: str) -> Hint:
    """What to say of a refusal of a line, by its code."""
    general = {"Y1": "utf", "Y2": "length", "Y3": "tab", "Y4": "indentation alone", "Y5": "key twice", "Y6": "form", "Y7": "not closed", "Y8": "key place",
               "Y9": "depth", "Y10": "memory"}
    found: Dict[str, Callable[[str, Line], Optional[Hint]]] = {"Y4": indented, "Y5": twice, "Y6": left_out, "Y7": not_closed, "Y8": no_key}
    line = read(text, number)
    hint = found[code](text, line) if code in found and len(line.text) < LONGEST else None
    return hint or (say(general[code]) if code in general else Hint("", ""))


def spaces(count: int) -> str:
    """A number of spaces."""
    return f"{count or 'no'} space{'' if count == 1 else 's'}"


def begun(text: str) -> int:
    """The number of the line that a description begins with, if that is `---` with spaces or a comment behind it; else 0."""
    rows = text[:LONGEST].lstrip("\ufeff").split("\n")
    number = next((number for number, it in enumerate(rows, 1) if it.strip() and not it.lstrip().startswith("#")), 0)
    return number if number and BEGIN.match(rows[number - 1]) else 0


# Indentation


def indented(text: str, line: Line) -> Optional[Hint]:
    """What to say of a line whose indentation fits no level (Y4)."""
    if MARKER.match(line.text):
        return say("marker", sign=line.text[:3])
    begin = begun(text)
    if begin:
        return say("marker alone", line=begin)
    outline = Outline(text[: lines.start(text, line.number)], LINES)
    if not outline.is_whole or not outline.starts:
        return None
    here, last = len(line.text) - len(line.text.lstrip(" ")), len(outline.starts) - 1
    if opened := unclosed(outline, line):
        return opened
    if re.match(r"-(?:%s):" % "|".join(ITEM_KEYS), line.content):
        return say("dash space", line=line.number, key=line.key[1:])
    if outline.inline(last) in ("|", ">") and here > outline.column(last):
        return say("block line")
    what, columns = "an item" if is_item(line) else "a key", columns_for(outline, line)
    if hint := joined_above(text, line) or of_deep_key(outline, here, line) or (of_items(outline, here) if is_item(line) and not columns else None):
        return hint
    if here > outline.column(last):
        if not outline.inline(last):
            return None
        if not columns:
            return say("under a value", line=outline.line(outline.starts[last]))
        return say("below a value", line=outline.line(outline.starts[last]), what=what, columns=spaces(columns[-1]))
    return say("indentation", found=spaces(here), what=what, columns=one_of(columns)) if columns else None


def of_deep_key(outline: Outline, here: int, line: Line) -> Optional[Hint]:
    """What to say of a line after a key that has more spaces and nothing below it; None where it is something else."""
    chain = outline.around(len(outline.starts) - 1)
    key, before = outline.key(chain[0]), outline.column(chain[1]) if len(chain) > 1 else -1
    is_it = key in STRUCTURES and not outline.inline(chain[0]) and before < here < outline.column(chain[0])
    if not is_it or is_item(line) and key in schema.ITEMS:
        return None
    return say("mapping of key", key=key, line=outline.line(outline.starts[chain[0]]), found=spaces(outline.column(chain[0])))


def of_items(outline: Outline, here: int) -> Optional[Hint]:
    """What to say of an item where no list is: the item before it has no dash, or the key of its list more spaces; None where it is something else."""
    chain = outline.around(len(outline.starts) - 1)
    last = chain[0]
    if outline.key(last) in schema.ITEMS and not outline.inline(last) and outline.column(last) > here:
        return say("list of key", key=outline.key(last), line=outline.line(outline.starts[last]), found=spaces(outline.column(last)))
    return lost_dash(outline)


def lost_dash(outline: Outline) -> Optional[Hint]:
    """What to say where a list has a key in an item's place; None where none of those around the last row has."""
    chain = outline.around(len(outline.starts) - 1)
    for row, outer in zip(chain, chain[1:]):
        if outline.key(row) in KEYS_IN_FLOW and outline.key(outer) in schema.ITEMS:
            return say("dash above", line=outline.line(outline.starts[next(outline.below(outer))]))
    return None


def joined_above(text: str, line: Line) -> Optional[Hint]:
    """What to say of a line after one with a key that has no space behind its colon; None where that isn't so."""
    number = line.number - 1
    while line.number - NEARBY < number and number > 0 and not (lines.line(text, number) or "").strip(" \t"):
        number -= 1
    content = read(text, number).content if number else ""
    found = re.match(r"([a-z0-9][\w-]*):([\w'\"\[{(<>-].*)\Z", content)
    above = read(text, number) if found else None
    is_beside = above and len(above.text) - len(above.text.lstrip(" ")) == len(line.text) - len(line.text.lstrip(" "))
    is_it = found and not above.key and (found[1] in KNOWN or is_beside)
    return say("no space", where=f"line {number}: ", near=f"{found[1]}: {found[2]}") if is_it else None


def one_of(columns: List[int]) -> str:
    """Some numbers, of which one is to be chosen."""
    return ", ".join(str(it) for it in columns[:-1]) + (" or " if columns[:-1] else "") + str(columns[-1])


def is_item(line: Line) -> bool:
    """Whether a line begins an item of a list."""
    return re.match(r" *-(?:[ \t]|\Z)", line.text) is not None


def columns_for(outline: Outline, line: Line) -> List[int]:
    """Where a line after a text may begin: beside the items above, or beside the keys of the mappings that may have its key and haven't it yet: those whose keys
    are fixed, or else those whose keys are names and that are near; none where no mapping may have it."""
    chain, role = outline.around(len(outline.starts) - 1), "type"
    if is_item(line):
        return sorted({outline.column(it) for it in chain if outline.key(it) is None})
    found: Dict[int, int] = {}
    for count, row in reversed(list(enumerate(chain)) if line.key else []):
        key = outline.key(row)
        if key is None:
            role = schema.ITEMS.get(role, "item")
            continue
        beside = outline.below(chain[count + 1] if count + 1 < len(chain) else -1)
        if line.key not in (outline.key(it) for it in beside):
            found[outline.column(row)] = 1 if role in schema.FREE else 2 * schema.is_known(role, line.key)
        role = schema.BELOW.get((role, key)) or schema.BELOW.get((role, "*"), "none")
    best, here = max(found.values(), default=0), len(line.text) - len(line.text.lstrip(" "))
    columns = sorted(it for it, how in found.items() if how == best)
    beside = [it for it in columns if abs(it - here) <= NEAR]
    return beside or (columns if best == 2 else []) if best == 2 or best and line.key not in KNOWN else []


# Keys


def twice(text: str, line: Line) -> Optional[Hint]:
    """Where a key was before (Y5)."""
    begin = lines.start(text, line.number) or 0
    end = lines.stop(text, begin)
    outline = Outline(text[:end], LINES)
    if not outline.is_whole:
        return None
    for row in [it for it in range(len(outline.starts)) if outline.starts[it] >= begin and outline.key(it) is not None]:
        parents = outline.around(row)[1:]
        before = [it for it in outline.below(parents[0] if parents else -1) if it < row and outline.key(it) == outline.key(row)]
        if before:
            is_item = outline.key(row) == "id" and parents and outline.key(parents[0]) is None
            return say("item again" if is_item else "key again", key=outline.key(row), line=outline.line(outline.starts[before[0]]))
    last = outline.row_at(end)
    return in_flow(outline, outline.node(last), begin) if last >= 0 and outline.inline(last) in ("{", "[") else None


def in_flow(outline: Outline, node: Node, begin: int) -> Optional[Hint]:
    """The key of a flow that is there twice, the second time from a place on."""
    rest = [node]
    while rest:
        here, seen = rest.pop(), {}
        for it in here.pairs:
            if it.key in seen and it.at >= begin:
                return say("key again", key=it.key, line=outline.line(seen[it.key]))
            seen.setdefault(it.key, it.at)
        rest += here.items + [it.value for it in here.pairs]
    return None


def unclosed(outline: Outline, line: Line) -> Optional[Hint]:
    """What to say of the line after a text, where the last value of that is a bracket or a brace that isn't closed."""
    last = len(outline.starts) - 1
    if last < 0 or outline.inline(last) not in ("{", "["):
        return None
    node = outline.node(last)
    signs = flow.opened(outline.text, node.at)
    if not signs:
        return None
    if is_beyond(outline.text, signs, line):
        return still_open(outline, outline.text, signs)
    return say("open flow", sign=node.mark, line=outline.line(node.at), columns=spaces(outline.column(last) + 1))


def is_beyond(front: str, signs: List[Tuple[str, int]], line: Line) -> bool:
    """Whether a line is none of the bracket or brace that is open before it: an item, or a key that it can't have, or that has no comma before it."""
    if is_item(line) or not line.key:
        return is_item(line)
    before = COMMENT.split(front.rstrip().rpartition("\n")[2], 1)[0].rstrip()
    is_going_on = before.endswith((",", "{", "[")) or flow.closes(line.text)
    return signs[-1][0] == "[" or not is_going_on


def still_open(outline: Outline, front: str, signs: List[Tuple[str, int]]) -> Hint:
    """What to say of brackets and braces that are open at the end of a text: what closes them, and where; or that a quote isn't closed in one."""
    for _, begin in (signs[0], signs[-1]):
        lone = LONE.search(bare_of(front[begin : lines.stop(front, begin)][:LONGEST]))
        if lone:
            return say("quote", sign=lone[1])
    closing = "".join("}" if sign == "{" else "]" for sign, _ in reversed(signs))
    sign, at = signs[0]
    row, number = last_row(front)
    bare = COMMENT.split(row, 1)[0].rstrip()
    where = f"at the end of line {number}" if bare == row.rstrip() else f"on line {number}, before its comment"
    where = f"for `)` on line {number}" if bare.endswith(")") and bare.count("(") < bare.count(")") else where
    return say("bracket", sign=sign, line=outline.line(at), closing=closing, where=where)


def last_row(text: str) -> Tuple[str, int]:
    """The last line of a text that isn't blank and no comment, but of the last few lines; and its number."""
    end = len(text.rstrip())
    for _ in range(NEARBY):
        begin = text.rfind("\n", 0, end) + 1
        if text[begin:end].strip() and not text[begin:end].lstrip().startswith("#"):
            break
        end = max(begin - 1, 0)
    return text[begin:end][:LONGEST], text.count("\n", 0, begin) + 1


def no_key(text: str, line: Line) -> Optional[Hint]:
    """What to say where a value is in a key's place (Y8)."""
    if MARKER.match(line.text):
        return say("marker", sign=line.text[:3])
    begin = begun(text)
    if begin:
        return say("marker alone", line=begin)
    above = previous(text, line.number)
    if above and above.opened:
        is_deep = above.opened.kind == "open flow" and len(line.text) - len(line.text.lstrip(" ")) > above.before
        return say("flow comma" if JOINED.search(bare_of(line.text)) else "flow parts") if is_deep else above.opened
    first = text_first(text, line.number) if not above and line.number > 1 else None
    hint = first or of_begin(text, line) or joined_above(text, line) or of_flow_value(line) or of_above(text, line, above) or of_value(line)
    if hint:
        return hint
    if above and above.is_block and not line.key and not line.text.startswith(" " * (above.before + 1)):
        return say("block empty", line=above.number)
    plain = not line.value.startswith(("'", '"', "[", "|", ">"))
    if plain and STOP.search(f"{COMMENT.split(line.value, 1)[0]} ") and (line.key or line.value[:1] == "{"):
        return of_colon(text, line)
    return misplaced(line, above) if not line.value.startswith("{") else None


def of_flow_value(line: Line) -> Optional[Hint]:
    """What to say of braces or brackets whose parts have no comma between them; None where it is something else."""
    bare = bare_of(line.value) if line.value[:1] in ("[", "{") else ""
    if bare and COMMA.search(bare[: flow.end(bare, 0)]):
        return say("flow comma")
    if line.value[:1] == "{" and (other := re.search(r"[\w')\]] ?([;|]) ?[\w-]+: ", bare)):
        return say("flow sign", sign=other[1])
    return say("flow comma") if line.value[:1] == "{" and JOINED.search(bare) else None


def of_above(text: str, line: Line, above: Optional[Above]) -> Optional[Hint]:
    """What to say of a line by the key or item above it, whose dash or colon is mistaken, or which has a value already; None where it is something else."""
    if not above:
        return None
    if above.key[:1] == "-" and above.key[1:] in ITEM_KEYS:
        return say("dash space", line=above.number, key=above.key[1:])
    if re.match(r"[+*•–—−] *[\w-]+\Z", above.key):
        return say("other dash", where=f"line {above.number}: ", sign=above.key[0])
    if above.is_full and (lone := lone_word(text, above.number)):
        return say("no colon", where=f"line {above.number + 1}: ", key=lone)
    is_below = line.text.startswith(" " * (above.before + 1)) and above.is_full and (line.key or not line.value.startswith(("[", "{")))
    if not is_below or of_own(line):
        return None
    if (above.key in TEXTS or above.key.startswith("-")) and line.key not in KNOWN:
        return say("text lines", key=above.key)
    if above.lost or not above.columns:
        return above.lost or say("under a value", line=above.number)
    return say("below a value", line=above.number, what="an item" if is_item(line) else "a key", columns=spaces(above.columns[-1]))


def of_own(line: Line) -> Optional[Hint]:
    """What to say of a value that is written as an argument with a name, or as a mapping without braces; None where it is something else."""
    if line.key == "type" and re.match(r"[a-z]\w*\([a-z]\w*: ", line.value):
        return say("argument name")
    joined = re.fullmatch(r"(until|expr): +(\S.*)", line.value) if line.key == "repeat" else None
    if joined:
        return say("repeat joined", word=joined[1], value=joined[2])
    is_mapping = line.key in MAPPED and line.value.partition(":")[0] in schema.KEYS[MAPPED[line.key]]
    return say("braces", key=line.key, value=line.value) if is_mapping else None


def of_value(line: Line) -> Optional[Hint]:
    """What to say of a line by its value, or by what it begins with; None where it is something else."""
    if hint := of_own(line):
        return hint
    if is_item(line) and re.match(r"\[[a-z-]+: ", line.content):
        return say("parentheses")
    if line.value[:1] == "[" and ": " in line.value[: flow.end(line.value, 0)]:
        return say("choice") if " ? " in line.value else say("pair in list")
    if line.content.startswith("(") and ": " in line.content:
        return say("parentheses")
    if line.key not in TEXTS and SECOND.search(line.value) and not line.value.startswith(("'", '"', "[", "{", "|", ">")):
        return say("key place")
    return say("other dash", where="", sign=line.content[0]) if re.match(r"[+*•–—−] *[\w-]+:(?: |\Z)", line.content) else None


def of_colon(text: str, line: Line) -> Hint:
    """What to say of a plain text with a colon."""
    bare = COMMENT.split(line.value, 1)[0].rstrip()
    if bare.endswith(":") and line.key in EXPRESSIONS and ": " not in bare:
        return say("end sign", sign=":")
    if bare[-1:] in ("'", '"') and bare.count(bare[-1]) % 2 and line.key:
        return say("front quote", sign=bare[-1])
    lone = next((it for it in "\"'" if bare.count(it) % 2 and line.key not in TEXTS), "")
    if lone:
        return say("lone quote", sign=lone)
    if line.key in TEXTS and (lines.line(text, line.number + 1) or "").startswith(" " * (len(line.text) - len(line.content) + 1)):
        return say("text lines", key=line.key)
    return say("choice") if " ? " in line.value else say("colon")


def text_first(text: str, number: int) -> Optional[Hint]:
    """What to say where a text without a key is before the first key; None where there is none."""
    for it in range(1, min(number, NEARBY)):
        front = (lines.line(text, it) or "").strip("\ufeff \t")
        if front and not front.startswith(("#", "---", "%", "{", "[")):
            return None if re.split(r"[ =;:]", front)[0] in KNOWN else say("text first", line=it)
    return None


def of_begin(text: str, line: Line) -> Optional[Hint]:
    """What to say of a line by what it begins with, or where a key is alone on the line above; None where it is something else."""
    if re.fullmatch(r"[\]})]+[,;]?", line.content.strip()):
        return say("lone closing", sign=line.content.strip())
    if re.match(r"(?:typedef|struct|union|enum|class)\b[^:]*\Z", line.content):
        return say("declaration")
    variable = re.match(r"(?:local |const |static |let |var |#?define )(?:[A-Za-z]\w* +)?([A-Za-z]\w*)(?: *= *| +)([\w.]+);?\s*\Z", line.content)
    if variable:
        return say("variable", name=variable[1].lower(), value=variable[2])
    order = re.match(r"(little|big)_?-?endian\b[^:]*\Z", line.content, re.I)
    if order:
        return say("order line", near="le" if order[1].lower() == "little" else "be")
    begun = COMMENT_SIGN.match(line.content)
    if begun:
        return say("comment begin", where="", sign=begun[0])
    if re.match(r"\*\s*:\s", line.content):
        return say("other case")
    if re.match(r"[&*!]\S", line.content):
        return say("anchor")
    if re.match(r"-[{\[]", line.content):
        return say("dash brace", sign=line.content[1])
    if line.content.startswith("? "):
        return say("question")
    above = (lines.line(text, line.number - 1) or "")[:LONGEST].strip() if line.number > 1 else ""
    wide = re.match(r"(?:- +)?([A-Za-z_][\w-]*) ?：", above) if line.key else None
    if wide and ": " not in above:
        return say("no colon", where=f"line {line.number - 1}: ", key=wide[1])
    word = re.fullmatch(r"(?:- +)?([A-Za-z_][\w-]*) {0,9}[=;]?", above)
    dashes = re.match(r"--+ *([a-z][a-z-]*):", above)
    if line.key and dashes and dashes[1] in ITEM_KEYS:
        return say("dash space", line=line.number - 1, key=dashes[1])
    item = re.fullmatch(r"- +([a-z][\w-]*)[;,=]? +\S+", above)
    if line.key and item and item[1] in ITEM_KEYS:
        return say("no colon", where=f"line {line.number - 1}: ", key=item[1])
    if line.key and word and word[1] in KNOWN:
        return say("no colon", where=f"line {line.number - 1}: ", key=word[1])
    marked = re.search(r": +(//|/\*|--|;)", above) if line.key else None
    return say("comment begin", where=f"line {line.number - 1}: ", sign=marked[1]) if marked else None


def lone_word(text: str, number: int) -> str:
    """The word that the line after a key or a dash begins with, where that has nothing behind it; the empty text where the line has more."""
    front, below = (lines.line(text, number) or "").strip(), (lines.line(text, number + 1) or "").strip()
    is_open = front == "-" or front.endswith(":")
    return below.split()[0] if is_open and re.fullmatch(r"[A-Za-z_0-9][\w-]*(?: +(?:(?:=>?|->) *)?[\w-]+)?", below) else ""


def misplaced(line: Line, above: Optional[Above]) -> Optional[Hint]:
    """What to say of a line that has no key or no dash where one is wanted."""
    dashed = line.text.lstrip(" ").startswith("- ")
    here = len(line.text) - len(line.text.lstrip(" "))
    if above and here in above.lists and line.key in schema.KEYS["type"] and not dashed:
        return say("key of type", key=line.key, columns=spaces(max((it for it in above.keys if it < here), default=0)))
    if above and here in above.lists and not dashed and line.key in above.beside:
        return say("item again above", key=line.key)
    if above and here in above.lists and not dashed and line.key in KEYS_IN_FLOW and line.key != "id":
        return say("key of item", key=line.key, columns=spaces(min((it for it in above.keys if it > here), default=here + 2)))
    if above and here in above.lists and line.key[:1] == "-" and line.key[1:] in ITEM_KEYS:
        return say("dash space", line=line.number, key=line.key[1:])
    if above and here in above.lists and not dashed:
        return say("no dash", columns=spaces(min((it for it in above.keys if it > here), default=here + 2)))
    if dashed and above and above.key in schema.ITEMS and not above.is_full and here < above.before:
        return say("list of key", key=above.key, line=above.number, found=spaces(above.before))
    if dashed:
        lists = [it for it in above.items if it != here] if above else []
        return say("item column", columns=spaces(lists[0])) if lists else say("no key")
    if line.key:
        return None
    joined = re.match(r"([A-Za-z_][\w-]*):([\w'\"\[{(<>-].*)\Z", line.content)
    if joined:
        return say("no space", where="", near=f"{joined[1]}: {joined[2]}")
    quoted = re.match(r"([^\"']+|.*)([\"'])\s*:(?:\s|\Z)", line.content)
    if quoted and line.content[: quoted.end(2)].count(quoted[2]) % 2:
        return say("front quote", sign=quoted[2])
    first = re.match(r"([A-Za-z_][\w-]*)(?: *[=;]| |\Z)", line.content)
    return say("no colon", where="", key=first[1]) if first and first[1] in KNOWN else say("no key")


def keys_beside(outline: Outline, chain: List[int]) -> List[str]:
    """The keys of the innermost mapping around the last of some rows."""
    count = next((count for count, row in enumerate(chain) if outline.key(row) is not None), -1)
    outer = chain[count + 1] if count + 1 < len(chain) else -1
    return [key for it in outline.below(outer) if (key := outline.key(it)) is not None] if count >= 0 else []


class Above(NamedTuple):
    """The last key or item above a line: its line and column, and whether it has a value on its line; the columns of the lists and mappings that it is in, the
    innermost first, and of lists where no key is; what is said where it is open; the key, if it is one; whether its value is a block text; where the line
    may begin; the keys of the innermost mapping; and what is said where an item
    has no dash."""

    number: int
    before: int
    is_full: bool
    items: List[int]
    keys: List[int]
    lists: List[int]
    opened: Optional[Hint]
    key: str
    is_block: bool
    columns: List[int]
    beside: List[str]
    lost: Optional[Hint]


def previous(text: str, number: int) -> Optional[Above]:
    """The last key or item above a line; None where it can't be told."""
    outline = Outline(text[: lines.start(text, number)], LINES)
    if not outline.is_whole or not outline.starts:
        return None
    last = len(outline.starts) - 1
    chain = outline.around(last)
    keys = [outline.column(it) for it in chain if outline.key(it) is not None]
    items = [outline.column(it) for it in chain if outline.key(it) is None]
    lists = [it for it in items if it not in keys]
    front = outline.line(outline.starts[last]), outline.column(last), outline.inline(last) != ""
    line = read(text, number)
    said = unclosed(outline, line), outline.key(last) or "", outline.inline(last) in ("|", ">"), columns_for(outline, line), keys_beside(outline,
        chain), lost_dash(outline)
    return Above(*front, items, keys, lists, *said)


# Forms that aren't read


def left_out(text: str, line: Line) -> Optional[Hint]:
    """What to say of a form of YAML that isn't read (Y6)."""
    found = CONTROL.search(line.text)
    if found:
        return say("control", number=f"{ord(found[0]):04X}")
    if text.endswith("\r") and lines.stop(text, lines.start(text, line.number) or 0) == len(text):
        return say("control", number="000D")
    if len(text) < LONGEST and all(not it.strip("\ufeff \t\r") or it.lstrip().startswith("#") or it.rstrip() == "---" for it in text.split("\n")):
        return say("empty")
    value = line.value
    if line.text.startswith("%"):
        return say("directive")
    if line.content.startswith("? ") or line.content.strip() == "?":
        return say("question")
    above = previous(text, line.number)
    if above and above.opened:
        return above.opened if len(line.text) - len(line.text.lstrip(" ")) <= above.before else say("flow parts")
    if not above and line.number > 1 and (Outline(text[: lines.start(text, line.number)], LINES).root.is_flow):
        return say("flow parts")
    if re.match(r"[+*] +[\w-]+:(?: |\Z)", line.content):
        return say("other dash", where="", sign=line.content[0])
    if line.content[:1] and line.content[:1] in ",]}@%`&*!|>":
        return of_first(line, line.content)
    if value[:1] in ("[", "{") and line.key in TEXTS:
        return say("sign first", sign=value[0])
    if value[:1] == "[" and line.key in EXPRESSIONS and value[flow.end(value, 0) :].strip():
        return say("list literal")
    if value[:1] == "{" and line.key in EXPRESSIONS and line.key != "valid" and not re.match(r"\{[^{}]*: ", value):
        return say("sign of expression", sign="{")
    if value[:1] in ("[", "{"):
        return of_flow(value) or say("flow parts")
    if value[:1] in ("'", '"'):
        return of_quoted(value, line.key)
    return of_first(line, value)


def of_first(line: Line, value: str) -> Optional[Hint]:
    """What to say of a plain text by its first letter."""
    first = value[:1]
    if value.startswith("!=") and line.key == "valid":
        return say("unequal", check=value)
    if first == "!" and line.key in EXPRESSIONS:
        return say("operator")
    if first in ("&", "*") and line.key in EXPRESSIONS:
        return say("sign of expression", sign=first)
    if line.key == "<<":
        return say("merge")
    if first in ("&", "*", "!") and first:
        return say("sign first", sign=first) if line.key in TEXTS else say("anchor")
    if first == ">" and line.key in BOUNDS:
        return say("bound")
    if first in ("|", ">") and first:
        is_block = re.match(r"[|>][-+\d]+(?:[ \t]+#.*|[ \t]*)\Z", value)
        return say("block sign") if is_block else say("sign of expression" if line.key in EXPRESSIONS else "sign first", sign=first)
    if first == "@" and line.key in EXPRESSIONS:
        return say("name sign", sign=first)
    if first in ("@", "%", "`") and first:
        return say("sign of expression", sign=first.replace("`", "a backquote")) if line.key in EXPRESSIONS else say("first letter")
    if value.startswith("- ") and line.key in EXPRESSIONS and re.match(r"- +[\w(]", value):
        return say("minus", near=f"-{value[1:].strip()}")
    if first in (",", "]", "}", "?", ":") and first and line.key in EXPRESSIONS:
        return say("sign of expression", sign=first)
    if value.startswith("- ") and line.key:
        return say("dash" if line.key in TEXTS else "dash item")
    return say("sign first", sign=first) if first in (",", "]", "}", "?", ":", "-") and first else None


def of_quoted(value: str, key: str) -> Optional[Hint]:
    """What to say of a quoted text: an escape in it, or what comes after it."""
    quoted = QUOTED.match(value)
    if not quoted:
        return None
    if value.startswith(('"""', "'''")):
        return say("lines in quotes")
    escape = bad_escape(quoted[0])
    if escape:
        return of_escape(escape)
    after = value[quoted.end() :]
    if key in EXPRESSIONS and after.lstrip().startswith("%"):
        return say("filled text")
    begun = COMMENT_SIGN.match(after.strip())
    if begun:
        return say("comment begin", where="", sign=begun[0])
    if re.match(r"[\"'](?:\s*:|\s*\Z)", after) and after[0] != value[0]:
        return say("front quote", sign=after[0])
    if after.strip() and value.rstrip()[-1] == value[0] and not after.startswith((" ", "#", value[0])):
        return say("apostrophe" if value[0] == "'" else "inner quote")
    if key == "contents" and after.strip():
        return say("contents wanted")
    return say("comment sign") if after.startswith("#") else say("after quote", more="" if key in EXPRESSIONS else ", or none") if after.strip() else None


def of_escape(escape: str) -> Hint:
    """What to say of an escape that is none."""
    return say("quote escape") if escape == "\\'" else say("yaml escape", escape=escape)


def bad_escape(quoted: str) -> str:
    """The first escape in a quoted text that is none; the empty text where there is none."""
    if not quoted.startswith('"'):
        return ""
    at = quoted.find("\\")
    while at >= 0:
        found = GOOD_ESCAPE.match(quoted, at)
        if not found:
            return quoted[at : at + 2]
        at = quoted.find("\\", found.end())
    return ""


def bare_of(value: str) -> str:
    """A text with the letters of its quoted parts made alike."""
    return QUOTED.sub(lambda it: "'" + "x" * (len(it[0]) - 2) + "'", value)


def of_flow(value: str) -> Optional[Hint]:
    """What to say of braces or brackets, where they are closed on their line."""
    bare = bare_of(value)
    for it in QUOTED.finditer(value):
        if bad_escape(it[0]):
            return of_escape(bad_escape(it[0]))
    if re.search(r"[\[{,]\s*,", bare):
        return say("two commas")
    if re.search(r"\b(?:valid|min|max): >", bare):
        return say("bound")
    marked = re.search(r"[\[{,:]\s+([&*!@%`|>])|[\[{,]([&*!@%`|>])", bare)
    if marked:
        sign = marked[1] or marked[2]
        of_value = re.search(r"([a-z-]+):\s*\Z", bare[: marked.start() + 1])
        if of_value and of_value[1] in EXPRESSIONS and sign in "!&*":
            return say("operator" if sign == "!" else "sign of expression", **({} if sign == "!" else {"sign": sign}))
        return say("anchor") if sign in "&*!" else say("first letter") if sign in "@%`" else say("sign first", sign=sign)
    if crossed := flow.crossed(bare):
        return say("other closing", sign=crossed[0], closing="}" if crossed[0] == "{" else "]", other=crossed[1])
    if COMMA.search(bare[: flow.end(bare, 0)]):
        return say("flow comma")
    lost = re.search(r"[{,]\s*([a-z][\w-]*) +[\[{]", bare)
    if lost:
        return say("flow colon", near=f"{lost[1]}: ..")
    if OPEN_TEXT.search(bare):
        return say("flow text")
    after = COMMENT.split(bare[flow.end(bare, 0) :], 1)[0]
    if after.startswith("#"):
        return say("comment sign")
    if re.fullmatch(r"[\s,\]}]+", after) and after.strip():
        return say("extra sign", sign=after.strip())
    if after.strip() and not after.lstrip().startswith("#"):
        return say("after bracket")
    return of_parts(flow.read(value, 0, LONGEST)[0], bare)


def of_parts(node: Node, bare: str) -> Optional[Hint]:
    """What to say of a part of braces that has no value."""
    rest: List[Node] = [node]
    while rest:
        here = rest.pop()
        for it in here.pairs:
            if it.value.kind == "text" and not it.value.text and not it.value.mark:
                joined = re.match(r"([A-Za-z_][\w-]*):(\S.*)\Z", it.key)
                if joined:
                    return say("flow space", near=f"{joined[1]}: {joined[2]}")
                spaced = re.match(r"([a-z][\w-]*) *(?: |=>?|->|:=) *([^ =>].*)\Z", it.key)
                if spaced and spaced[1] in KNOWN:
                    return say("flow colon", near=f"{spaced[1]}: {spaced[2]}")
                if re.search(r"[{,]\s*%s\s*:?\s*(?:[,}]|\Z)" % re.escape(it.key), bare):
                    return say("flow entry", key=it.key)
        rest += here.items + [it.value for it in here.pairs]
    return None


# What isn't closed


def not_closed(text: str, line: Line) -> Optional[Hint]:
    """What to say of a quote, a bracket or a brace that isn't closed (Y7)."""
    opened = line.value if line.value[:1] in ("'", '"') else line.content if line.content[:1] in ("'", '"') else ""
    if opened and not QUOTED.match(opened):
        if opened[0] == '"' and opened.rstrip().endswith('\\"'):
            return say("escaped quote")
        if opened == line.content and re.search(r"[^:]: +\S|[^:]:\s*\Z", opened):
            return say("key quote", sign=opened[0])
        below = lines.line(text, line.number + 1) or ""
        return say("lines in quotes") if opened[0] in below and not QUOTED.search(below) else say("quote", sign=opened[0])
    own = LONE.search(bare_of(line.value)) if line.value[:1] in ("[", "{") else None
    if own:
        return say("quote inside", sign=own[1])
    outline = Outline(text, LINES)
    last = len(outline.starts) - 1
    if outline.is_whole and last < 0 and outline.root.is_flow:
        node = outline.root
    elif not outline.is_whole or last < 0 or outline.inline(last) not in ("{", "["):
        return None
    else:
        node = outline.node(last)
    lone = LONE.search(bare_of(text[node.at :])) if len(text) - node.at < LONGEST else None
    if lone:
        return say("quote", sign=lone[1])
    signs = flow.opened(text, node.at)
    return still_open(outline, text, signs) if signs and line.number > 0 else None
