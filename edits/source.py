"""Functions of a crate's source files, as the prover names them, and stubs for their bodies."""
import glob
import os
import re
import shutil
from dataclasses import dataclass

# The row on which a function begins, and the last row of a signature that has no clauses.
FUNCTION = re.compile(r"( *)(pub(?:\([\w:]+\))? )?(?:const )?(?:unsafe )?fn (\w+)")
SIGNATURE = re.compile(r"(?:(?:pub(?:\([\w:]+\))? )?(?:const )?(?:unsafe )?fn \w+.*|\).*) \{$")
BLOCK = re.compile(r"impl|(pub(\([\w:]+\))? )?trait ")
# What stands above each of the functions that call each other.
CYCLE = re.compile(r" *#\[cycle\((\w+)\)\]$")


@dataclass(frozen=True)
class Function:
    """A function that has a body: its name without its crate's, its file, and the rows of its signature's begin, of the `{` of its
    body and of the `}`. `is_open`: it is public, and no method of a trait. `is_law`: its body is empty. `is_bound`: a method of a trait, or one
    of functions that call each other, which have one proof; `cycle`: the name of that proof."""

    name: str
    path: str
    head: int
    begin: int
    end: int
    is_open: bool
    is_law: bool
    is_bound: bool
    cycle: str

    def has(self, first, last):
        """Whether these rows are in its body."""
        return self.begin < first and last < self.end


def read(path):
    """The text of a file."""
    with open(path, encoding="utf-8") as file:
        return file.read()


def write(path, text):
    """Writes a file."""
    with open(path, "w", encoding="utf-8") as file:
        file.write(text)


def module_of(path):
    """The module that a file of src/ is, as the prover names it."""
    return re.sub(r"(^|/)(lib|main|mod)$", "", path[len("src/") : -len(".rt")]).replace("/", "::")


def home_of(path, text, owner):
    """The module of a type for which a file has an `impl`, as the prover names its methods: the file's own, or the one that the type is from."""
    brought = re.search(rf"^use crate::((?:\w+::)*\w+)::(?:\{{[^}}]*\b{owner}\b[^}}]*\}}|{owner});", text, re.M)
    return brought[1] if brought else module_of(path)


def owner_of(block):
    """What the prover calls an `impl`: its type, and its trait if it has one, as `IntegerFromU64`."""
    parts = re.match(r"impl(?:<.*?>)? (?:(.*) for )?(\w+)", block)
    if not parts:
        return ""
    words = re.findall(r"\w+", re.sub(r"\w+::", "", parts[1] or ""))
    return parts[2] + "".join(word[0].upper() + word[1:] for word in words)


def body_of(rows, at, indent):
    """The rows of a function's `{` and `}`, where it has a body; the same row twice where the body is empty."""
    for begin in range(at, len(rows)):
        row = rows[begin]
        if row == f"{indent}{{}}" or begin == at and row.endswith("{}"):
            return begin, begin
        if row == f"{indent}{{" or SIGNATURE.match(row, len(indent)):
            end = next((it for it in range(begin, len(rows)) if rows[it] == f"{indent}}}"), None)
            return None if end is None else (begin, end)
        if begin > at and FUNCTION.match(row):
            return None
    return None


def functions_in(path, text):
    """The functions with a body of a file of src/, in their order."""
    rows, found, block, marks = text.split("\n"), [], "", []
    for at, row in enumerate(rows):
        block = row if BLOCK.match(row) else "" if row == "}" else block
        head = FUNCTION.match(row)
        marks = [*marks, row] if row.lstrip().startswith("#[") else marks
        if not head:
            marks = marks if row.lstrip().startswith(("#[", "//")) else []
            continue
        indent, mark, name = head.groups()
        body = body_of(rows, at, indent)
        if body:
            in_trait = bool(indent) and (" for " in block or not block.startswith("impl"))
            owner = owner_of(block) if indent else ""
            home = home_of(path, text, owner) if owner and " for " not in block else module_of(path)
            full = "::".join(filter(None, (home, owner, name)))
            cycle = next((it[1] for it in map(CYCLE.match, marks) if it), "")
            found.append(Function(full, path, at, *body, mark == "pub " and not in_trait, body[0] == body[1], in_trait or bool(cycle), cycle))
        marks = []
    return found


def sources_of(folder):
    """The files of a crate's src/, by their paths from the crate's folder."""
    found = (f"{at}/{name}" for at, _, names in os.walk(f"{folder}/src") for name in names if name.endswith(".rt"))
    return sorted(os.path.relpath(it, folder) for it in found)


def functions_of(folder):
    """The functions with a body of a crate."""
    return [it for path in sources_of(folder) for it in functions_in(path, read(f"{folder}/{path}"))]


def has_stub(it, functions, kept):
    """Whether a function of a file with these gets a stub where only these are kept: a method of a trait doesn't, nor one of functions that call each
    other where one of them is kept."""
    if it.cycle:
        return not any(other.name in kept for other in functions if other.cycle == it.cycle)
    return not (it.is_bound or it.is_law or it.name in kept)


def has_proof(folder, name):
    """Whether a proof of a function is written: a folder of its own in proofs/, or answers of its own in that of functions that call each other."""
    home, _, own = name.replace("::", "/").rpartition("/")
    shared = glob.glob(f"{folder}/proofs/{home}/+*/*.antt")
    return os.path.isdir(f"{folder}/proofs/{home}/{own}") or any(re.search(rf"^pub {own}-", read(it), re.M) for it in shared)


def clauses_of(folder, path, name):
    """The names of what a function of a crate ensures, in its order; a clause without a name is the empty text."""
    text = read(f"{folder}/{path}")
    it = next((it for it in functions_in(path, text) if it.name == name), None)
    return re.findall(r"^ *ensures (\w*) *\{", "\n".join(text.split("\n")[it.head : it.begin + 1]), re.M) if it else []


def callers(folder, edited):
    """Those of these functions of a crate that name, in their bodies, one that may get a stub: no stub is before the others."""
    functions = functions_of(folder)
    names = {it.name.split("::")[-1] for it in functions if has_stub(it, (), ())}
    body = lambda it: "\n".join(read(f"{folder}/{it.path}").split("\n")[it.begin + 1 : it.end])
    return {it.name for it in functions if it.name in edited and names & {*re.findall(r"\w+", body(it))}}


def stubbed(path, text, kept):
    """A file's text in which all functions but these have a stub for their bodies, and the proofs of those that have: by their names, or as `+NAME` where
    functions call each other, which these no longer do."""
    functions = functions_in(path, text)
    rows, proofs = text.split("\n"), set()
    for it in reversed(functions):
        if has_stub(it, functions, kept):
            indent = re.match(" *", rows[it.end])[0]
            rows[it.begin + 1 : it.end] = [f"{indent}    loop {{}}"]
            proofs.add(it.name)
            proofs |= {"::".join(filter(None, (module_of(path), f"+{it.cycle}")))} if it.cycle else set()
            above = next(at for at in range(it.head, -1, -1) if not at or not rows[at - 1].lstrip().startswith(("#[", "//")))
            rows[above : it.head] = [row for row in rows[above : it.head] if not CYCLE.match(row)]
    return "\n".join(rows), proofs


def stub(folder, kept):
    """Gives all functions of a copied crate but these a stub, and a proof that isn't one, so that nothing is searched for them."""
    for path in sources_of(folder):
        text, proofs = stubbed(path, read(f"{folder}/{path}"), kept)
        write(f"{folder}/{path}", text)
        for it in proofs:
            proof = f"{folder}/proofs/{it.replace('::', '/')}"
            shutil.rmtree(proof, ignore_errors=True)
            if "+" not in it:
                os.makedirs(proof)
                write(f"{proof}/Proof.antt", "")


def header_of(rows, head):
    """The first rows of the `impl` that a method stands in, up to its `{`, and what it imports for contracts."""
    first = next(at for at in range(head, -1, -1) if BLOCK.match(rows[at]))
    begin = next(at for at in range(first, head) if rows[at].endswith("{"))
    return rows[first : begin + 1] + [row for row in rows[begin + 1 : head] if row.startswith("    ghost use ")]


def double(path, text, name, other):
    """A function of a file's text once more, by another name, as it may stand at the end of the file."""
    rows = text.split("\n")
    it = next(it for it in functions_in(path, text) if it.name == name)
    first = it.head
    while rows[first - 1].lstrip().startswith(("#[", "//")):
        first -= 1
    own = name.split("::")[-1]
    head = re.sub(rf"\bfn {own}\b", f"fn {other}", rows[it.head])
    block = [*rows[first : it.head], head, *rows[it.head + 1 : it.end + 1]]
    return "\n".join([*header_of(rows, it.head), *block, "}"] if rows[it.head].startswith(" ") else block)


def add_double(folder, crate, path, text, name, other):
    """Adds a function of a file's text to a copied crate, by another name, with the files of its proof. The name of the double."""
    with open(f"{folder}/{path}", "a", encoding="utf-8") as file:
        file.write(f"\n{double(path, text, name, other)}\n")
    home, full = name.rpartition("::")[0], f"{name.rpartition('::')[0]}::{other}"
    proof, dots = f"{folder}/proofs/{name.replace('::', '/')}", f"Rattle.{crate}.proofs.{home.replace('::', '.')}."
    if os.path.isdir(proof):
        shutil.copytree(proof, f"{folder}/proofs/{full.replace('::', '/')}")
        for file in os.listdir(proof):
            at = f"{folder}/proofs/{full.replace('::', '/')}/{file}"
            write(at, read(at).replace(f"{dots}{name.split('::')[-1]}.", f"{dots}{other}."))
    return full


def bound(folder):
    """Those of a crate's functions that can't stand there twice: methods of traits, and functions that call each other."""
    return {it.name for it in functions_of(folder) if it.is_bound}
