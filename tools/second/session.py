"""Sessions: command lines and their replies, and what is kept across them."""

import json

import description
import yaml_reader
from meaning import LONGEST_PATH, MOST_ELEMENTS, Bytes, Fault, ListValue, Member, ObjectValue, Path, kind_of
from nodes import Evaluation

LONGEST_LINE = 4096
LARGEST_FILE = 16_777_216
MOST_BYTES = 4096
MOST_PARTS = 10_000

REFUSALS = {
    "C1": "unknown command", "C2": "wrong arguments", "C3": "bad number", "C4": "bad hex", "C5": "bad path",
    "C6": "line too long", "C7": "not an integer", "C8": "out of range", "C9": "too large", "B1": "outside",
    "B2": "nothing to do", "B3": "file too large",
}
COMMANDS = {
    "get": ("path",), "at": ("path",), "ls": ("path",), "dump": ("path",), "put": ("path", "integer"),
    "set": ("number", "hex"), "ins": ("number", "hex"), "del": ("number", "number"), "app": ("hex",),
    "bytes": ("number", "number"), "size": (), "stats": (), "quit": (),
}
QUESTIONS = ("get", "at", "ls", "dump", "put")


class Refusal(Exception):
    """A line that is refused, by its code."""


def describe(text):
    """The description that a text states, and None; or None and its refusal: the line, the code and the text."""
    try:
        return description.load(yaml_reader.read(text)), None
    except yaml_reader.YamlFault as fault:
        return None, (fault.line, fault.kind, yaml_reader.MESSAGES[fault.kind])
    except description.DescriptionFault as fault:
        return None, (fault.line, fault.code, fault.text)


def message(refusal):
    """The program's message of a refused description."""
    return "ksv: KSY: line {}: {} {}".format(*refusal)


def touches(edit, use):
    """Whether an edit touches a use. An edit is ("set", from, to), ("shift", from) for an insert or a delete, or ("app",)."""
    if edit[0] == "set":
        return use[0] == "bytes" and use[1] < edit[2] and edit[1] < use[2]
    if use[0] == "size":
        return True
    return edit[0] == "shift" and use[-1] > edit[1]


def same_evaluation(one, other):
    """Whether two evaluations of one node from nothing asked and used the same."""
    return one.uses == other.uses and [(a.kind, a.path) for a in one.asks] == [(a.kind, a.path) for a in other.asks]


class Session:
    """A session. The bytes and the kept nodes are its state; each evaluation begins from nothing on the bytes then standing."""

    def __init__(self, described, data):
        self.description, self.data = described, bytearray(data)
        self.root = Path()
        self.kept = []  # nodes; those that a node asked stand before it
        self.turns, self.circle, self.parts = 0, False, 0
        self.ended = False
        self.complaints = []  # kept nodes that came out otherwise from nothing
        self.evaluation = Evaluation(self.description, bytes(self.data))

    def line(self, line):
        """The reply to a line, or None."""
        try:
            return self.answer(line)
        except Refusal as refusal:
            return f"error: {REFUSALS[refusal.args[0]]}"

    def answer(self, line):
        """The reply to a line; a Refusal where it is refused."""
        if len(line) > LONGEST_LINE:
            raise Refusal("C6")
        if line.endswith(b"\r"):
            line = line[:-1]
        words = [word for word in line.replace(b"\t", b" ").split(b" ") if word]
        if not words or words[0].startswith(b"#"):
            return None
        command = words[0].decode("latin-1")
        if command not in COMMANDS:
            raise Refusal("C1")
        kinds = COMMANDS[command]
        if len(words) - 1 != len(kinds):
            raise Refusal("C2")
        arguments = [getattr(self, f"read_{kind}")(word.decode("latin-1")) for kind, word in zip(kinds, words[1:])]
        if command in QUESTIONS:
            return self.question(command, arguments)
        return getattr(self, f"command_{command}")(*arguments)

    # The words of a line.

    def read_number(self, word):
        """1 to 20 decimal digits of a number below 2^64."""
        if not (1 <= len(word) <= 20 and all(digit in "0123456789" for digit in word)) or int(word) >= 2**64:
            raise Refusal("C3")
        return int(word)

    def read_integer(self, word):
        """The same, with a minus where it is at least -2^63."""
        if not word.startswith("-"):
            return self.read_number(word)
        number = -self.read_number(word[1:])
        if number < -2**63:
            raise Refusal("C3")
        return number

    def read_hex(self, word):
        """An even number of hexadecimal digits."""
        if len(word) % 2 or any(digit not in "0123456789abcdefABCDEF" for digit in word):
            raise Refusal("C4")
        return bytes.fromhex(word)

    def read_path(self, word):
        """`/`, or at most 64 steps: names of members of the description, and indices without leading zeros."""
        if word == "/":
            return self.root
        if not word.startswith("/"):
            raise Refusal("C5")
        path = self.root
        for step in word[1:].split("/"):
            path = path.child(self.read_step(step))
        if path.depth > LONGEST_PATH:
            raise Refusal("C5")
        return path

    def read_step(self, step):
        """A name or an index."""
        if step in self.description.names:
            return step
        if step and all(digit in "0123456789" for digit in step) and (step == "0" or step[0] != "0"):
            if len(step) < 8 and int(step) < MOST_ELEMENTS:
                return int(step)
        raise Refusal("C5")

    # Questions.

    def question(self, command, arguments):
        """A question's reply. The nodes that it completes are kept; its turns are those of nodes that weren't kept."""
        self.circle = False
        first_made = len(self.evaluation.made)
        try:
            reply = getattr(self, f"command_{command}")(*arguments)
        except Fault as fault:
            reply = f"fault {fault}"
        finally:
            self.keep(self.evaluation.made[first_made:])
        return self.overwrite(*reply) if isinstance(reply, tuple) else reply

    def keep(self, made):
        """Keeps the nodes that a question completed, and counts its turns."""
        turns = 0
        for node in made:
            kept = node.path.kept
            if kept is None:
                kept = node.path.kept = [None, None, None, None]
            if kept[node.kind] is None:
                kept[node.kind] = node
                self.kept.append(node)
                turns += len(node.asks) + 1
            elif not same_evaluation(kept[node.kind], node):
                self.complaints.append(f"a kept node of {node.path.text()} has other asks or uses from nothing")
        self.turns = "-" if self.circle else turns

    def ask(self, kind, path, at=None):
        """Asks a node of the bytes then standing; a path that is too long is a fault at `at`."""
        if path.depth > LONGEST_PATH:
            raise Fault("path-too-long", at)
        try:
            return self.evaluation.ask(kind, path)
        except Fault as fault:
            self.circle = self.circle or fault.kind == "circle"
            raise

    def command_get(self, path):
        """The text of a value."""
        value = self.ask("value", path)
        kind = kind_of(value)
        if kind == "object":
            return f"object {self.ask('head', value.path, value.path).type.name}"
        if kind == "list":
            return f"[{self.ask('rest', value.path.child(0), value.path)[0]}]"
        if kind == "text":
            return json.dumps(value, ensure_ascii=False)
        if kind == "bytes":
            return f"hex {self.data[value.start:value.end].hex()}"
        if kind == "member":
            return f"{member_text(value)} ({value.number})"
        return str(value).lower() if kind == "bool" else str(value)

    def command_at(self, path):
        """Where what stands at a path begins and ends."""
        head = self.ask("head", path)
        if head.form in ("gone", "calc"):
            return {"gone": "absent", "calc": "calculated"}[head.form]
        return f"at {place_text(head.start)} {place_text(self.ask('end', path).place)}"

    def command_ls(self, path):
        """The members of an object, or how many elements a list has."""
        head = self.ask("head", path)
        if head.form == "object":
            return " ".join(["members", *head.type.members])
        if head.form == "list":
            return f"[{self.ask('rest', path.child(0), path)[0]}]"
        return "absent" if head.form == "gone" else "no members"

    def command_dump(self, path):
        """A value with all that is in it, in JSON."""
        self.parts = 0
        self.part_begins()
        value = self.ask("value", path)
        return json.dumps(self.dumped(value, path), ensure_ascii=False, separators=(",", ":"), sort_keys=True)

    def part_begins(self):
        """One part more of a dump."""
        self.parts += 1
        if self.parts > MOST_PARTS:
            raise Refusal("C9")

    def part(self, path, at):
        """A part inside an object or a list."""
        self.part_begins()
        try:
            value = self.ask("value", path, at)
        except Fault as fault:
            return None if fault.kind == "absent" and fault.path is path else {"fault": str(fault)}
        return self.dumped(value, path)

    def dumped(self, value, path):
        """A value as JSON's values."""
        if isinstance(value, Member):
            return {"enum": member_text(value), "value": value.number}
        if isinstance(value, Bytes):
            return {"hex": self.data[value.start:value.end].hex()}
        try:
            if isinstance(value, ObjectValue):
                fields = self.ask("head", value.path, value.path).type.fields
                return {one.name: self.part(value.path.child(one.name), value.path) for one in fields}
            if isinstance(value, ListValue):
                count = self.ask("rest", value.path.child(0), value.path)[0]
                return [self.part(value.path.child(index), value.path) for index in range(count)]
        except Fault as fault:
            return {"fault": str(fault)}
        return value

    def command_put(self, path, number):
        """The place and the bytes of an integer field that takes a number, in its own width and order. A truth value is no integer."""
        head = self.ask("head", path)
        case = head.case if head.form == "leaf" else None
        if case is None or case.kind not in ("integer", "bits") or case.kind == "bits" and case.width == 1 and not head.attribute.enum:
            raise Refusal("C7")
        if case.kind == "bits":
            return head.first, self.with_bits(head, number)
        try:
            return head.first, number.to_bytes(case.width // 8, "little" if case.order == "le" else "big", signed=case.signed)
        except OverflowError:
            raise Refusal("C8") from None

    def with_bits(self, head, number):
        """All bytes that a field of bits meets, with a number in the field and every other bit as it stands."""
        width, before = head.case.width, head.start % 8
        if not 0 <= number < 2**width:
            raise Refusal("C8")
        bits = "".join(f"{byte:08b}" for byte in self.data[head.first:head.last])
        bits = bits[:before] + f"{number:0{width}b}" + bits[before + width:]
        return bytes(int(bits[at:at + 8], 2) for at in range(0, len(bits), 8))

    # Edits and the rest.

    def edited(self, edit, data):
        """The bytes change: a node with a touched use in its tree is no longer kept."""
        kept = []
        for node in self.kept:
            if any(touches(edit, use) for use in node.uses) or any(one.path.kept[one.kind] is None for one in node.asks):
                node.path.kept[node.kind] = None
            else:
                kept.append(node)
        self.kept, self.data = kept, data
        self.evaluation = Evaluation(self.description, bytes(data))
        return f"ok {len(data)}"

    def overwrite(self, place, data):
        """Bytes over those that stand from a place on."""
        if place + len(data) > len(self.data):
            raise Refusal("B1")
        end = place + len(data)
        return self.edited(("set", place, end), self.data[:place] + data + self.data[end:])

    command_set = overwrite

    def command_ins(self, place, data):
        """Bytes before the one at a place."""
        if place > len(self.data):
            raise Refusal("B1")
        if len(self.data) + len(data) > LARGEST_FILE:
            raise Refusal("B3")
        return self.edited(("shift", place), self.data[:place] + data + self.data[place:])

    def command_del(self, place, count):
        """Takes out bytes from a place on."""
        if place + count > len(self.data):
            raise Refusal("B1")
        if count == 0:
            raise Refusal("B2")
        return self.edited(("shift", place), self.data[:place] + self.data[place + count:])

    def command_app(self, data):
        """Bytes at the end."""
        if len(self.data) + len(data) > LARGEST_FILE:
            raise Refusal("B3")
        return self.edited(("app",), self.data + data)

    def command_bytes(self, place, count):
        """Bytes as they stand."""
        if count > MOST_BYTES:
            raise Refusal("C9")
        if place + count > len(self.data):
            raise Refusal("B1")
        return f"hex {self.data[place:place + count].hex()}"

    def command_size(self):
        """The number of bytes."""
        return f"size {len(self.data)}"

    def command_stats(self):
        """How much is kept, and the turns of the last question."""
        return f"kept {len(self.kept)} turns {self.turns}"

    def command_quit(self):
        """The end."""
        self.ended = True
        return "bye"


def place_text(place):
    """A place of bits by its byte, and how many bits behind that where it is in a byte."""
    return f"{place // 8}.{place % 8}" if place % 8 else str(place // 8)


def member_text(member):
    """A member by the ids of its enum and itself."""
    return f"{member.enum.name}::{member.enum.ids.get(member.number, '?')}"


def run(session, data):
    """The replies to all lines of an input, and whether it ended by "Quit" or "Input". A last line may lack its end."""
    replies = []
    lines = data.split(b"\n")
    if lines[-1] == b"":
        lines.pop()
    for line in lines:
        reply = session.line(line)
        if reply is not None:
            replies.append(reply)
        if session.ended:
            return replies, "Quit"
    return replies, "Input"
