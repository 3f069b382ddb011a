"""What needs a clause of a public function: edits that fail it, and functions of its crate that aren't proved without it."""
import hashlib
import os
import re
from dataclasses import dataclass

from edit import edits_of
from said import verdict_of
from source import bound, clauses_of, functions_in, functions_of, read

# How many clauses `--some` deletes.
SOME = 4


@dataclass(frozen=True)
class Clause:
    """A clause that a public function of a library ensures: its crate, the function and its file, and its name, empty where it has none."""

    crate: str
    function: str
    path: str
    name: str

    def said(self):
        """How an edit names it."""
        return f"ensures {self.name}".strip()

    def __str__(self):
        return f"{self.crate}::{self.function}: {self.said()}"


def clauses_in(top, crate, asked=()):
    """The clauses of a crate's public functions, or of those of these names; laws have no edits, and theirs aren't among them."""
    folder = f"{top}/crates/{crate}"
    if not os.path.isfile(f"{folder}/src/lib.rt"):
        return []
    public = [it for it in functions_of(folder) if it.is_open and not it.is_law and is_asked(it.name, asked)]
    return [Clause(crate, it.name, it.path, name) for it in public for name in clauses_of(folder, it.path, it.name)]


def is_asked(function, asked):
    """Whether a function is one of these names, which may lack its first modules; or there is no name."""
    return not asked or any(f"::{function}".endswith(f"::{name}") for name in asked)


def end_of(text, at):
    """Where the `}` of the `{` at a place is, texts in quotes left out."""
    depth = 0
    for found in re.finditer(r'"(?:[^"\\]|\\.)*"|[{}]', text[at:]):
        depth += {"{": 1, "}": -1}.get(found[0], 0)
        if not depth:
            return at + found.start()
    raise ValueError("a clause has no end")


def without(text, clause):
    """A file's text in which this clause isn't there."""
    rows = text.split("\n")
    it = next(it for it in functions_in(clause.path, text) if it.name == clause.function)
    head = len("\n".join(rows[: it.head])) + 1
    found = re.compile(rf"^ *ensures {clause.name} *\{{" if clause.name else r"^ *ensures *\{", re.M).search(text, head - 1)
    return text[: found.start()] + text[end_of(text, found.end() - 1) + 1 :].removeprefix("\n")


def named_by(top, clause, is_gate=False):
    """The edits that name a clause as the one that must fail."""
    return [it for it in edits_of(top, clause.crate, is_gate) if not it.why and (it.function, it.fails) == (clause.function, clause.said())]


def callers_of(top, clause):
    """The functions of its crate whose bodies name that of a clause, itself left out."""
    folder, own = f"{top}/crates/{clause.crate}", clause.function.split("::")[-1]
    body = lambda it: "\n".join(read(f"{folder}/{it.path}").split("\n")[it.begin + 1 : it.end])
    return {it.name for it in functions_of(folder) if it.name != clause.function and re.search(rf"\b{own}\b", body(it))}


def unproved(checks, top, clause, functions, is_there=False):
    """Those of these functions that aren't proved where a clause is deleted, or where it is there."""
    text = read(f"{top}/crates/{clause.crate}/{clause.path}")
    said = checks.said(clause.crate, {clause.path: text if is_there else without(text, clause)}, functions, True) if functions else ""
    once = bound(f"{top}/crates/{clause.crate}")
    return {it for it in functions if not verdict_of(said, clause.crate, it, it in once).is_fine()}


def needing(checks, top, clause):
    """The functions of its crate that need a clause: proved with it, and not without."""
    found = unproved(checks, top, clause, callers_of(top, clause))
    return sorted(found - unproved(checks, top, clause, found, True))


def gone(checks, top, clause, it):
    """Whether the prover says of an edit, which names a clause, that it isn't refused where the clause is deleted."""
    texts = {clause.path: without(read(f"{top}/crates/{clause.crate}/{clause.path}"), clause)}
    texts[it.file] = it.applied(texts.get(it.file) or read(f"{top}/crates/{clause.crate}/{it.file}"))[0]
    said = checks.said(clause.crate, texts, {it.function}, True)
    verdict = verdict_of(said, clause.crate, it.function, it.function in bound(f"{top}/crates/{clause.crate}"), it.fails, it.has_twin)
    return verdict.is_told() and not verdict.goal


def some(top, crates, commit):
    """Some of the clauses that the gate's edits name, by the number of the commit: others at each."""
    known = [it for crate in crates for it in clauses_in(top, crate) if named_by(top, it, True)]
    return sorted(known, key=lambda it: hashlib.sha256(f"{commit} {it}".encode()).hexdigest())[:SOME]


def seen(checks, top, clause):
    """What notices that a clause is deleted: an edit that it refuses, and that isn't refused any more, or functions that aren't proved; nothing if neither."""
    tried = named_by(top, clause, True)[:1]
    if tried and checks.together(clause.crate, tried)[0][tried[0].name].goal and gone(checks, top, clause, tried[0]):
        return f"{tried[0].name} isn't refused without it"
    found = needing(checks, top, clause)
    return f"{', '.join(found)} isn't proved without it" if found else ""


def needs(checks, top, clause, verdicts):
    """What needs a clause, by the verdicts on a crate's edits: those that fail it alone, or else functions that aren't proved without it, or else
    those that fail it among others; and whether that is enough."""
    mine = [(it, verdict) for it, verdict in verdicts if it.function == clause.function and clause.said() in verdict.clauses]
    alone = [it.name for it, verdict in mine if verdict.clauses == (clause.said(),)]
    if alone:
        return f"alone fails with {', '.join(alone)}", True
    found = needing(checks, top, clause)
    if found:
        return f"needed by {', '.join(found)}", True
    named = [it.name for it, verdict in mine if it.fails == clause.said() and verdict.goal]
    beside = f"fails among others with {', '.join(it.name for it, _ in mine)}" if mine else "fails with no edit"
    return f"{beside}; nothing of its crate needs it", bool(named)
