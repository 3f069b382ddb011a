"""What nodes mean, and their evaluation from nothing with what is asked and used for each.

A node is a kind (head, value, end or rest) and a path. The rule of a node is a generator: it yields what it asks and is sent
the answer. A fault of what it asks is its own answer, so only good answers come back.

Starts and ends of what stands at a path count bits from the file's first byte, most significant bit first. Streams, positions, sizes
and what is used count bytes, and so do the first and last byte that a leaf is read from."""

from meaning import (LONGEST_PATH, MOST_ELEMENTS, Bytes, Context, Fault, ListValue, Member, ObjectValue, Stream, byte_from,
                     decode, evaluate, kind_of)

HEAD, VALUE, END, REST = range(4)
KINDS = {"head": HEAD, "value": VALUE, "end": END, "rest": REST}
NEW, OPEN, DONE = range(3)
INTEGERS = ("integer", "bits")


class Node:
    """A node with what its evaluation found."""

    __slots__ = ("kind", "path", "state", "answer", "fault", "asks", "uses")

    def __init__(self, kind, path):
        self.kind, self.path, self.state = kind, path, NEW
        self.answer = self.fault = None
        self.asks = self.uses = ()


class Head:
    """What stands at a path. Its form is "gone", "calc", "leaf", "object" or "list"."""

    __slots__ = ("form", "attribute", "case", "home", "home_stream", "stream", "start", "first", "last", "end", "type", "count",
                 "empty", "outer")

    def __init__(self, form, attribute=None, home=None, home_stream=None, start=None):
        self.form, self.attribute, self.home, self.home_stream, self.start = form, attribute, home, home_stream, start
        self.case = self.stream = self.first = self.last = self.end = self.type = self.count = self.outer = None
        self.empty = False

    def ends_at(self, byte):
        """A leaf ends at a whole byte."""
        self.last, self.end = byte, 8 * byte


class End:
    """The end of what stands at a path, and whether it is the last of its list."""

    __slots__ = ("place", "last")

    def __init__(self, place, last):
        self.place, self.last = place, last


class Evaluation:
    """Evaluates nodes of a description on bytes that don't change while it lives. Completed nodes are remembered; `made` is
    the list of those that were completed, in this order."""

    def __init__(self, description, data):
        self.description, self.data, self.size = description, data, len(data)
        self.made = []
        self.rules = [self.head, self.value, self.end, self.rest]

    def node(self, kind, path):
        """The node of a kind and a path: one object for each."""
        if path.owner is not self:
            path.owner, path.nodes = self, [None, None, None, None]
        found = path.nodes[kind]
        if found is None:
            found = path.nodes[kind] = Node(kind, path)
        return found

    def ask(self, kind, path):
        """The answer of a node, evaluated from nothing; a circle is a fault at the path of the node that was open."""
        node = self.node(KINDS[kind], path)
        if node.state == NEW:
            self.run(node)
        if node.fault is not None:
            raise node.fault
        return node.answer

    def run(self, node):
        """Completes a node and all that it needs. Rules are run on a stack of their own, each until it asks."""
        made, rules = self.made, self.rules
        node.state, rule, reply = OPEN, rules[node.kind](node, node.path), None
        stack = []
        while True:
            try:
                wanted = rule.send(reply)
            except StopIteration as done:
                node.answer = done.value
            except Fault as fault:
                node.fault = fault.with_traceback(None)
            else:
                node.asks += (wanted,)
                if wanted.state == NEW:
                    stack.append((node, rule))
                    node, rule, reply = wanted, rules[wanted.kind](wanted, wanted.path), None
                    node.state = OPEN
                    continue
                if wanted.state == OPEN:
                    stack.append((node, rule))
                    for one, _ in stack:
                        one.state, one.asks, one.uses = NEW, (), ()
                    raise Fault("circle", wanted.path)
                reply = wanted.answer
                if wanted.fault is None:
                    continue
                node.fault = wanted.fault
            node.state = DONE
            made.append(node)
            while stack and node.fault is not None:
                fault = node.fault
                node, _ = stack.pop()
                node.state, node.fault = DONE, fault
                made.append(node)
            if not stack:
                return
            reply = node.answer
            node, rule = stack.pop()

    # Readings, with what they use.

    def child(self, node, step, path=None):
        """The path one step below, at most 64 steps long."""
        path = (node.path if path is None else path)
        if path.depth >= LONGEST_PATH:
            raise Fault("path-too-long", node.path)
        return path.child(step)

    def reach(self, node, stream, place):
        """A place must lie in the stream and in the file."""
        if stream.end is not None and stream.end < place:
            raise Fault("end-of-bytes", node.path)
        if place > self.size:
            node.uses += (("size",),)
            raise Fault("end-of-bytes", node.path)
        node.uses += (("reach", place),)

    def finish(self, node, stream):
        """The stream's end."""
        if stream.end is not None:
            return stream.end
        node.uses += (("size",),)
        return self.size

    def is_done(self, node, stream, place):
        """Whether a place of bits is the stream's end, or behind it."""
        if stream.end is not None:
            return place >= 8 * stream.end
        if place < 8 * self.size:
            node.uses += (("reach", place // 8 + 1),)
            return False
        node.uses += (("size",),)
        return True

    def peek(self, node, start, end):
        """The bytes of a range."""
        if start == end:
            return b""
        if end > self.size or start > end:
            node.uses += (("size",),)
            if start < self.size:
                node.uses += (("bytes", start, self.size),)
            raise Fault("end-of-bytes", node.path)
        node.uses += (("bytes", start, end),)
        return self.data[start:end]

    def evaluate(self, node, tree, context):
        """The value of an expression of a node: what it asks is asked, and what it reads is read here."""
        running, reply = evaluate(tree, context), None
        while True:
            try:
                wanted = running.send(reply)
            except StopIteration as done:
                return done.value
            if wanted[0] == "done":
                reply = self.is_done(node, context.stream, context.place)
            elif wanted[0] == "bytes":
                reply = self.peek(node, wanted[1], wanted[2])
            elif wanted[0] == "size":
                node.uses += (("size",),)
                reply = self.size
            else:
                reply = yield self.node(KINDS[wanted[0]], wanted[1])
                if wanted[0] == "rest":
                    reply = reply[0]

    def of_kind(self, node, tree, context, kind):
        """The value of an expression that must be of a kind."""
        value = yield from self.evaluate(node, tree, context)
        if kind_of(value) != kind:
            raise Fault("bad-type", node.path)
        return value

    def count_from(self, node, tree, context):
        """An integer of at least 0, such as a size, a count or a position."""
        number = yield from self.of_kind(node, tree, context, "int")
        if number < 0:
            raise Fault("bad-size", node.path)
        return number

    # Heads.

    def head(self, node, path):
        """What stands at a path."""
        if path.parent is None:
            head = Head("object", start=0)
            head.type, head.stream, head.end = self.description.root, Stream(0, None), "fields"
            return head
        if isinstance(path.step, int):
            return (yield from self.head_of_element(node, path))
        outer = yield self.node(HEAD, path.parent)
        if outer.form == "gone":
            raise Fault("absent", path.parent)
        attribute = outer.type.members.get(path.step) if outer.form == "object" else None
        if attribute is None:
            raise Fault("no-such", path)
        head = Head("calc", attribute, path.parent, outer.stream)
        start = None
        if attribute.kind == "field":
            start = outer.start
            if attribute.before is not None:
                start = (yield self.node(END, path.parent.child(attribute.before.name))).place
                if attribute.case is None or attribute.case.kind != "bits":
                    start = 8 * byte_from(start)
        context = Context(path.parent, outer.stream, path, start)
        if attribute.condition is not None:
            if not (yield from self.of_kind(node, attribute.condition, context, "bool")):
                head.form, head.start = "gone", start
                return head
        if attribute.kind == "parameter":
            head.outer = outer
            head.count = path.parent.step if path.parent.is_element() else None
        if attribute.kind in ("parameter", "value"):
            return head
        stream = outer.stream
        if attribute.kind == "positioned":
            if attribute.io is not None:
                stream = yield from self.of_kind(node, attribute.io, context, "stream")
            place = stream.start + (yield from self.count_from(node, attribute.pos, context))
            self.reach(node, stream, place)
            start = context.place = 8 * place
        head.start, head.stream = start, stream
        if attribute.repeat is None:
            if attribute.switch is None and attribute.size is None:
                self.placed(node, head, attribute.case, None)
            else:
                yield from self.shape(node, head, context)
            return head
        head.form = "list"
        if attribute.repeat == "expr":
            head.count = yield from self.count_from(node, attribute.count, context)
            if head.count > MOST_ELEMENTS:
                raise Fault("too-many", path)
            head.empty = head.count == 0
        elif attribute.repeat == "eos":
            head.empty = self.is_done(node, stream, start)
        return head

    def head_of_element(self, node, path):
        """What stands at an index."""
        index = path.step
        whole = yield self.node(HEAD, path.parent)
        if whole.form == "gone":
            raise Fault("absent", path.parent)
        if whole.form != "list":
            raise Fault("no-such", path)
        if whole.empty or (whole.count is not None and index >= whole.count):
            raise Fault("bad-index", path)
        start = whole.start
        if index > 0:
            before = yield self.node(END, path.parent.child(index - 1))
            if before.last:
                raise Fault("bad-index", path)
            start = before.place
        head = Head("calc", whole.attribute, whole.home, whole.home_stream, start)
        head.stream = whole.stream
        attribute = whole.attribute
        if attribute.switch is None and attribute.size is None:
            self.placed(node, head, attribute.case, None)
        else:
            yield from self.shape(node, head, Context(whole.home, whole.home_stream, path, start, index))
        return head

    def shape(self, node, head, context):
        """What the head of one attribute or element asks: the switch, then the size."""
        attribute, case, size = head.attribute, head.attribute.case, None
        if attribute.switch is not None:
            case = yield from self.chosen(node, attribute.switch, context)
        if attribute.size is not None:
            size = yield from self.count_from(node, attribute.size, context)
        self.placed(node, head, case, size)

    def placed(self, node, head, case, size):
        """Completes the head of one attribute or element that begins at the head's start, in its stream."""
        attribute, stream = head.attribute, head.stream
        kind = case.kind if case else None
        head.form, head.case, head.first = "leaf", case, head.start // 8
        if kind in INTEGERS or attribute.contents is not None:
            end = head.start + (case.width if kind in INTEGERS else 8 * len(attribute.contents))
            self.reach(node, stream, byte_from(end))
            head.last, head.end = byte_from(end), end
            return
        start = head.first
        if kind == "user":
            head.form, head.type = "object", case.type
        if size is not None:
            self.reach(node, stream, start + size)
            head.ends_at(start + size)
            if kind == "user":
                head.stream = Stream(start, start + size)
        elif kind == "user":
            head.end = "fields"
            if attribute.size_eos:
                head.stream, head.end = Stream(start, stream.end), "stream"
        elif attribute.size_eos:
            head.ends_at(self.finish(node, stream))
        elif attribute.switch is None and self.terminator(head) is not None:
            self.terminated(node, head)
        else:
            head.form = "gone"

    def terminator(self, head):
        """The byte that ends the value, or None."""
        return 0 if head.case and head.case.kind == "strz" else head.attribute.terminator

    def terminated(self, node, head):
        """A leaf up to its terminator."""
        attribute, start, stream = head.attribute, head.first, head.stream
        bound = self.size if stream.end is None else min(stream.end, self.size)
        found = self.data.find(self.terminator(head), start, max(start, bound))
        if found >= 0:
            node.uses += (("bytes", start, found + 1),)
            head.ends_at(found + 1 if attribute.consume else found)
            head.last = found + 1 if attribute.include else found
            return
        end = self.finish(node, stream)
        self.peek(node, start, end)
        if attribute.eos_error:
            raise Fault("no-terminator", node.path)
        head.ends_at(end)

    def chosen(self, node, switch, context):
        """The first case that equals the value; else that of `_`; else None."""
        value = yield from self.evaluate(node, switch[0], context)
        other = None
        for (kind, wanted), case in switch[1]:
            if kind == "any":
                other = case
            elif kind != kind_of(value):
                continue
            elif kind == "member":
                if (value.enum, value.number) == wanted:
                    return case
            elif value == wanted:
                return case
        return other

    # Values.

    def value(self, node, path):
        """The value at a path, which must meet its checks; a list has none, its elements have."""
        head = yield self.node(HEAD, path)
        value = yield from self.unchecked(node, path, head)
        if head.form != "list" and head.attribute is not None:
            index = path.step if path.is_element() else None
            context = Context(head.home, head.home_stream, path, index=index, made=(value,))
            for how, trees in head.attribute.checks:
                if not (yield from self.meets(node, how, trees, context)):
                    raise Fault("invalid", path)
        return value

    def meets(self, node, how, trees, context):
        """Whether the value that was made meets a check."""
        if how == "expr":
            return (yield from self.of_kind(node, trees[0], context, "bool"))
        sign = {"min": ">=", "max": "<="}.get(how, "==")
        for tree in trees:
            if (yield from self.evaluate(node, ("binary", sign, ("special", "_"), tree), context)):
                return True
        return False

    def unchecked(self, node, path, head):
        """The value of what stands at a path, whatever its checks say."""
        if head.form == "gone":
            raise Fault("absent", path)
        if head.form == "object":
            return ObjectValue(path)
        if head.form == "list":
            return ListValue(path)
        if head.form == "calc":
            return (yield from self.calculated(node, head))
        attribute, kind = head.attribute, head.case.kind if head.case else None
        if kind in INTEGERS:
            data = self.peek(node, head.first, head.last)
            if kind == "bits":
                number = int("".join(f"{byte:08b}" for byte in data)[head.start % 8:][:head.case.width], 2)
                if head.case.width == 1 and attribute.enum is None:
                    return number == 1
            else:
                number = int.from_bytes(data, "little" if head.case.order == "le" else "big", signed=head.case.signed)
            return number if attribute.enum is None else Member(attribute.enum, number)
        if attribute.contents is not None:
            if self.peek(node, head.first, head.last) != attribute.contents:
                raise Fault("contents", path)
            return Bytes(head.first, head.last)
        byte = self.terminator(head)
        cuts = byte is not None and (attribute.size is not None or attribute.size_eos)
        if kind is None and not cuts:
            return Bytes(head.first, head.last)
        data = self.peek(node, head.first, head.last)
        if cuts:
            found = data.find(byte)
            if found >= 0:
                data = data[:found + 1 if attribute.include else found]
        if kind is None:
            return Bytes(head.first, head.first + len(data))
        return decode(data, attribute.encoding, path)

    def calculated(self, node, head):
        """The value of an instance's expression, or of the argument of a parameter."""
        attribute = head.attribute
        if attribute.kind == "parameter":
            outer = head.outer
            argument = outer.case.arguments[attribute.number]
            context = Context(outer.home, outer.home_stream, node.path, index=head.count)
            return (yield from self.evaluate(node, argument, context))
        value = yield from self.evaluate(node, attribute.value, Context(head.home, head.home_stream, node.path))
        if attribute.enum is None:
            return value
        if kind_of(value) != "int":
            raise Fault("bad-type", node.path)
        return Member(attribute.enum, value)

    # Ends and rests.

    def end(self, node, path):
        """Where what stands at a path ends."""
        head = yield self.node(HEAD, path)
        if head.form == "list":
            place = (yield self.node(REST, self.child(node, 0)))[1]
        elif head.form == "object" and head.end == "stream":
            place = 8 * self.finish(node, head.stream)
        elif head.form == "object" and head.end == "fields":
            place = head.start
            if head.type.fields:
                place = 8 * byte_from((yield self.node(END, self.child(node, head.type.fields[-1].name))).place)
        elif head.form == "gone":
            place = head.start
        else:
            place = head.end
        if place is None:
            raise Fault("no-such", path)
        if not isinstance(path.step, int):
            return End(place, False)
        whole = yield self.node(HEAD, path.parent)
        attribute = whole.attribute
        if attribute.repeat == "expr":
            return End(place, path.step + 1 == whole.count)
        if place == head.start:
            raise Fault("no-bytes", path)
        if attribute.repeat == "eos":
            return End(place, self.is_done(node, whole.stream, place))
        context = Context(whole.home, whole.home_stream, path, place, path.step, path)
        return End(place, (yield from self.of_kind(node, attribute.until, context, "bool")))

    def rest(self, node, path):
        """How many elements a list has in all, and where it ends, seen from one element on."""
        if path.step == 0:
            whole = yield self.node(HEAD, path.parent)
            if whole.form == "gone":
                raise Fault("absent", path.parent)
            if whole.form != "list":
                raise Fault("no-such", path)
            if whole.empty:
                return 0, whole.start
        end = yield self.node(END, path)
        if end.last:
            return path.step + 1, end.place
        if path.step + 1 == MOST_ELEMENTS:
            raise Fault("too-many", path)
        return (yield self.node(REST, path.parent.child(path.step + 1)))
