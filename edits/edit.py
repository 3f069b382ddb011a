"""Must-fail edits: the form of their files, what they change, and which functions want one."""
import os
import re
from dataclasses import dataclass, field

from source import clauses_of, functions_in, functions_of, has_proof, read, write

# The file of a harmless twin, and the clauses that are none of the function's own.
TWIN = ".twin"
FAILS = r"(?:requires of [\w-]+|invariant of (?:loop )?[\w-]+)(?:: \w+)?"


@dataclass
class Edit:
    """An edit of a crate: its file, the function that it changes and that it is named after, and the file of that function with pairs of
    an old text and a new one. `fails`: the clause that must fail. `is_twin`: it doesn't turn the meaning, and nothing may fail. `has_twin`: there
    is such a one of the same name. `why`: why it is no edit, if so."""

    path: str
    name: str
    crate: str
    file: str = ""
    pairs: list = field(default_factory=list)
    function: str = ""
    fails: str = ""
    is_twin: bool = False
    has_twin: bool = False
    why: str = ""

    def stem(self):
        """The name of its file without its end, which an edit and its twin share."""
        return os.path.splitext(os.path.basename(self.path))[0]

    def applied(self, text):
        """A text of its file after this edit, and why it can't be applied, if so."""
        for old, new in self.pairs:
            if text.count(old) != 1:
                return text, f"`{old}` is there {text.count(old)} times, and not once"
            text = text.replace(old, new)
        return text, ""


def parsed(path, name, crate):
    """What is written in the file of an edit."""
    edit, old = Edit(path, name, crate, is_twin=path.endswith(TWIN)), None
    for row in read(path).split("\n"):
        word, _, text = row.partition(": ")
        if word == "file":
            edit.why = edit.why or ("it names two files" if edit.file else "")
            edit.file = text.strip()
        elif word == "fails":
            edit.why = edit.why or ("it names two clauses" if edit.fails else "")
            edit.fails = text.strip()
        elif word == "old":
            edit.why = edit.why or ("an `old:` has no `new:`" if old is not None else "")
            old = text
        elif word.startswith("new") and old is not None:
            edit.pairs.append((old, text))
            old = None
    if not edit.why and (not edit.pairs or old is not None):
        edit.why = "it has no pair of `old:` and `new:`"
    return edit


def changed_functions(edit, text):
    """The functions in whose bodies an edit's old texts are; None stands for what is in no body."""
    found, changed = set(), text
    for old, new in edit.pairs:
        place = changed.find(old)
        first = changed.count("\n", 0, place)
        last = first + old.count("\n")
        found.add(next((it for it in functions_in(edit.file, changed) if it.has(first, last)), None))
        changed = changed.replace(old, new)
    return {it and it.name for it in found}


def twin_path(path, crate, top):
    """Where the harmless twin of an edit is."""
    return f"{top}/edits/{crate}/{os.path.basename(path)[: -len('.edit')]}{TWIN}"


def edit_of(path, folder, top):
    """The edit that a file has, of the crate in this folder. It changes the body of one function in src/, after which its file is named."""
    edit = parsed(path, os.path.relpath(path, top), os.path.basename(folder))
    edit.has_twin = not edit.is_twin and os.path.isfile(twin_path(path, edit.crate, top))
    where = f"{folder}/{edit.file}"
    if edit.why:
        return edit
    if not re.fullmatch(r"src/[\w/]+\.rt", edit.file):
        edit.why = f"it changes {edit.file or 'no file'}, which is no source"
    elif not os.path.isfile(where):
        edit.why = f"there is no file {edit.file}"
    else:
        text = read(where)
        changed, edit.why = edit.applied(text)
        names = set() if edit.why else changed_functions(edit, text)
        named = os.path.basename(path).partition("--")[0]
        if edit.why:
            pass
        elif changed == text:
            edit.why = "it changes nothing"
        elif None in names or len(names) != 1:
            edit.why = "it changes something else than the body of one function"
        else:
            edit.function = names.pop()
            if edit.function.split("::")[-1] != named:
                edit.why = f"it changes {edit.function}, and is named after {named}"
    edit.why = edit.why or unnamed(edit, folder)
    return edit


def unnamed(edit, folder):
    """Why what an edit says to fail is no clause that its function can break: one of its own, one of a type, or one of a function that it calls.
    The clauses of a trait's method aren't beside its body, so any name passes here: one that isn't there never fails."""
    if edit.is_twin or not edit.fails:
        return f"a twin names {edit.fails}" if edit.fails else ""
    kind, _, name = edit.fails.partition(" ")
    own = clauses_of(folder, edit.file, edit.function)
    if kind == "ensures":
        return "" if name in own or not own or not name and len(own) < 2 else f"{edit.function} has no clause {edit.fails}"
    return "" if re.fullmatch(FAILS, edit.fails) else f"`{edit.fails}` names no clause"


def name_clause(edit, clause):
    """Writes into the file of an edit, which names none, the clause that must fail."""
    text = read(edit.path)
    write(edit.path, text.replace(f"file: {edit.file}\n", f"file: {edit.file}\nfails: {clause}\n", 1))


def files_of(top, crate, is_gate=False):
    """The files in the folders of a crate's edits, in the order of their names; of those alone that the gate tries, or of all."""
    folders = [f"{top}/crates/{crate}/must-fail", *([] if is_gate else [f"{top}/edits/{crate}"])]
    return [f"{at}/{name}" for at in folders if os.path.isdir(at) for name in sorted(os.listdir(at))]


def edits_of(top, crate, is_gate=False):
    """The edits of a crate, as `files_of` has them."""
    folder = f"{top}/crates/{crate}"
    return [edit_of(path, folder, top) for path in files_of(top, crate, is_gate) if path.endswith(".edit")]


def twins_of(top, crate, is_gate=False):
    """The harmless twins of these edits: `edits/CRATE/NAME.twin` for the edit NAME."""
    return [edit_of(twin_path(it.path, crate, top), f"{top}/crates/{crate}", top) for it in edits_of(top, crate, is_gate) if it.has_twin]


def unclear(top, crate):
    """What edits of a crate lack: the clause that fails, but for those of edits/ that are listed as not named yet; and, of those that the gate tries, a
    harmless twin where their function has a written proof."""
    tried, folder = edits_of(top, crate, True), f"{top}/crates/{crate}"
    wrong = [f"{it.name}: it names no clause that must fail" for it in tried if not it.fails]
    wrong += [f"{it.name}: it has no harmless twin" for it in tried if not it.has_twin and has_proof(folder, it.function)]
    return wrong + unlisted(top, crate)


def unlisted(top, crate):
    """What edits/unnamed.txt has wrong of a crate: an edit of edits/ that names no clause and isn't there, and one that is there and isn't such an edit. A
    row is an edit, or a crate some of whose edits are such."""
    names = {it.name for it in edits_of(top, crate) if not it.fails and it.name.startswith("edits/")}
    rows = rows_of(top, "unnamed.txt")
    listed = {it for it in rows if it.startswith(f"edits/{crate}/")}
    wrong = [] if crate in rows else [f"{it}: it names no clause that must fail" for it in sorted(names - listed)]
    wrong += [f"edits/unnamed.txt: {it} is no edit without a clause" for it in sorted(listed - names)]
    return wrong + ([f"edits/unnamed.txt: {crate} has no edit without a clause"] if crate in rows and not names else [])


def rows_of(top, name):
    """The rows of a list in edits/."""
    return [row for row in read(f"{top}/edits/{name}").split("\n") if row and not row.startswith("#")]


def exceptions(top):
    """The public functions that have no edit, by crate and name, each with its reason: rows `CRATE FUNCTION: REASON`."""
    return {tuple(row.partition(": ")[0].split()): row.partition(": ")[2] for row in rows_of(top, "exceptions.txt")}


def misplaced(top, crate, known):
    """What is wrong with a crate's edits as a whole: files that are none, names that are there twice, and public functions of a library
    without an edit in must-fail/ that have no reason for that, or have both."""
    wrong = [f"{os.path.relpath(it, top)}: it is no edit" for it in files_of(top, crate) if not it.endswith((".edit", TWIN))]
    names = [os.path.basename(it) for it in files_of(top, crate) if it.endswith(".edit")]
    twins = [it for it in files_of(top, crate) if it.endswith(TWIN)]
    wrong += [f"{os.path.relpath(it, top)}: there is no edit of this name" for it in twins if f"{os.path.basename(it)[: -len(TWIN)]}.edit" not in names]
    wrong += [f"{os.path.relpath(it, top)}: a twin stands in edits/" for it in twins if "/must-fail/" in it]
    wrong += [f"crates/{crate}: {it} is in must-fail/ and in edits/" for it in sorted({it for it in names if names.count(it) > 1})]
    if not os.path.isfile(f"{top}/crates/{crate}/src/lib.rt"):
        return wrong
    edited = {it.function for it in edits_of(top, crate, True) if not it.why}
    public = {it.name for it in functions_of(f"{top}/crates/{crate}") if it.is_open and not it.is_law}
    reasons = {function for of, function in known if of == crate}
    wrong += [f"crates/{crate}: {it} is public and has no must-fail edit" for it in sorted(public - edited - reasons)]
    wrong += [f"edits/exceptions.txt: {crate} {it} is no public function without an edit" for it in sorted(reasons - (public - edited))]
    return wrong
