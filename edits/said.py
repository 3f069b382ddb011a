"""What the prover says of a function whose body was edited."""
import re
from dataclasses import dataclass

# Where a proof file names what an edit took away, and where what depends on that isn't checked.
LOST = re.compile(r"has no field|is not in scope|has no `|w(?:as|ere) not admitted|was rejected, w(?:as|ere) not checked|which was rejected")
# Where the prover can't read a source.
UNREAD = re.compile(r"^(?:\./)?src/\S+:\d+:\d+: error.*$", re.M)
# Goals of a contract: that the clauses hold at a return, that a loop's or a type's invariant does, or what a called function requires. The others are of
# safety alone, and of an end: that no number overflows, no index is out of range, and a loop or a recursion ends.
RETURNS = re.compile(r"returns(?:-.*)?")
REQUIRES = re.compile(r"(.+?)-requires(?:-.*)?")
LOOP = re.compile(r"(.+)-(?:init|preserved)(?:-.*)?")
OF_TYPE = re.compile(r"invariant_of-(.+)")
# Where a proof file says that it met a limit, which says nothing of the edit.
LIMIT = re.compile(r"limit|gave up|too (?:many|large|deep)")
# What is said of a function that is proved, and of one that only waits for those that it calls.
PROVED, WAITS = "its function is still proved", "no goal of its own fails"
# What is said where the prover comes to no word on a function.
UNTOLD = UNREADABLE, SILENT, LIMITED = "it can't be read", "the prover says nothing of its function", "the prover met a limit"


@dataclass
class Verdict:
    """What a check came to for a function: `goal`, the first goal of its contract that isn't proved and the reason, so that an edit is refused;
    or `why` it says nothing of the contract. `clauses`: those that fail, and `sure`: those of which a goal says so that counts for an edit that names
    its clause. `waits`: goals wait for the proof of a function that it calls."""

    goal: str = ""
    why: str = ""
    clauses: tuple = ()
    sure: tuple = ()
    waits: bool = False

    def is_fine(self):
        """Whether nothing of the function fails."""
        return not self.goal and self.why.startswith((PROVED, WAITS))

    def is_told(self):
        """Whether the prover came to a word on the function at all."""
        return not self.why.startswith(UNTOLD)


def clause_of(goal, own=""):
    """The clause that a goal is of, as an edit's `fails:` names it; nothing where it is of safety alone. `own`: the name of a function that is bound
    to others, with which its goals begin."""
    goal = goal.removeprefix(f"{own}-") if own else goal
    head, _, name = goal.partition("-clause-")
    if RETURNS.fullmatch(head):
        return f"ensures {name}".strip()
    kinds = ((REQUIRES, "requires of"), (LOOP, "invariant of loop"), (OF_TYPE, "invariant of"))
    kind = next((f"{said} {found[1].removeprefix('loop-')}" for form, said in kinds if (found := form.fullmatch(head))), "")
    return f"{kind}: {name}" if kind and name else kind


def places_of(function):
    """Where the prover names the proofs of a function: its folder, or that of the functions that call each other, whose goals begin with its name."""
    name = function.split("::")[-1]
    return [(rf"{re.escape(function.replace('::', '/'))}/\w+\.antt", ""), (r"(?:\w+/)*\+\w+/\w+\.antt", f"{name}-")]


def errors_of(said, function):
    """The errors in a function's proof files: each the goal, where it names one, and the text, of which further rows are indented."""
    found = []
    for place, start in places_of(function):
        for text in re.findall(rf"^\./proofs/{place}:\d+:\d+: error: (.*(?:\n  .*)*)", said, re.M):
            goal = re.match(r"`([^`]+)`: ", text)
            if not start or goal and goal[1].startswith(start):
                found.append((goal[1] if goal else "", re.sub(r"\s+", " ", text)))
    return found


def open_goals(said, verdict, function, is_bound):
    """The goals of a function for which the prover found no proof by itself. The goals of functions that call each other begin with the name of one
    of them; but elsewhere those of a call begin with the name of what is called, so they say nothing of that."""
    tried = re.search(r"`search` did not prove ((?:`[^`]+`(?:, )?)+)", verdict)
    found = re.findall(r"`([^`]+)`", tried[1]) if tried else []
    if not is_bound:
        return found
    name = function.split("::")[-1]
    return found + re.findall(rf"^note: src/\S+ it is not proved that .*\(`({re.escape(name)}-[^`]*)`", said, re.M)


def verdict_of(said, crate, function, is_bound, fails="", has_twin=False):
    """What a check's output says of a function, and whether that is bound to others (`source.bound`). Its contract refuses an edit where a goal of it
    isn't proved: that its clauses hold, that the invariant of a type or of a loop does, or what a function that it calls requires; a goal of the
    clause that the edit names (`fails`). An error of a written proof counts only where a harmless twin of the edit passes with the same proof: else it may
    say no more than that the proof is of another body. Where no clause is named yet (edits/unnamed.txt), any goal counts, and so does each such error. A
    name that only a proof file has, a limit of the prover, a text that it can't read, and goals of safety alone say nothing of the contract."""
    if UNREAD.search(said):
        return Verdict(why=f"{UNREADABLE}: {UNREAD.search(said)[0][:160]}")
    told = re.search(rf"^fn {re.escape(crate)}::{re.escape(function)}: (.*)$", said, re.M)
    if not told:
        return Verdict(why=SILENT)
    if told[1].startswith("proved"):
        return Verdict(why=PROVED)
    if told[1].startswith("could not tell"):
        return Verdict(why=LIMITED)
    errors = errors_of(said, function)
    lost = [text for _, text in errors if LOST.search(text)]
    written = [(goal, text) for goal, text in errors if goal and not LOST.search(text) and not LIMIT.search(text)]
    found = [] if lost else [(goal, "not proved") for goal in open_goals(said, told[1], function, is_bound)]
    own = function.split("::")[-1] if is_bound else ""
    of_contract = lambda goals: [(clause_of(goal, own), goal, text) for goal, text in goals if clause_of(goal, own)]
    certain, every = of_contract([*found, *(written if has_twin else [])]), of_contract([*found, *written])
    counted = certain if fails else every
    clauses, sure = (tuple(dict.fromkeys(clause for clause, _, _ in goals)) for goals in (counted, certain))
    named = [it for it in counted if not fails or it[0] == fails]
    if named:
        clause, goal, text = named[0]
        return Verdict(goal=f"{clause} (`{goal}`: {text.removeprefix(f'`{goal}`: ')[:120]})", clauses=clauses, sure=sure)
    if counted:
        return Verdict(why=f"`{fails}` doesn't fail, but {', '.join(clauses)}", clauses=clauses, sure=sure)
    if found and not errors:
        return Verdict(why=f"only goals of safety fail, as `{found[0][0]}`")
    if errors:
        return Verdict(why=f"only a proof file fails: {(lost or [text for _, text in errors])[0][:160]}")
    waits = f"goals of `{crate}::{function}`, which wait for" in said or told[1].startswith("no proof: it calls")
    return Verdict(why=f"{WAITS}: {told[1][:160]}", waits=waits)
