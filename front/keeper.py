"""The edits of a session: made by the program, kept as a value, and noted in the journal before anything else happens."""
import re
from typing import Callable, Dict, List, Optional, Tuple

from front import journal
from front.copies import Copy
from front.edits import Edit, Edits
from front.journal import Journal, Left, NoJournal
from front.look import span_of
from front.session import Refused, Session, pieces
from front.words import GREATEST, sent_words

# The most bytes that one line inserts, and the most lines of an inverse: an edit with more of them is taken back by beginning anew.
INSERTED, MOST_LINES = 2000, 32
# The number of no state: where the file was changed since, none is known to be saved.
NOWHERE = -1
# The most bytes that an integer has bits of.
WIDEST = 9
# The edits of ksv, and how many words each has.
WORDS = {"put": 3, "set": 3, "ins": 3, "del": 3, "app": 2}


class Keeper:
    """A session with its edits, and their journal."""

    def __init__(self, file: str, origin: bytes, make_session: Callable[["Keeper", Copy], Session], tell: Callable[[str], None]) -> None:
        self.file, self.origin, self.make_session, self.tell = file, origin, make_session, tell
        self.edits, self.journal = Edits(), None  # type: Edits, Optional[Journal]
        # the record of the save that was begun last, and those of saves that went well, the last one to each file
        self.saving: Optional[dict] = None
        self.saves: Dict[str, dict] = {}
        self.copy = Copy(origin)
        self.session = make_session(self, self.copy)

    def make(self, line: str) -> str:
        """Sends the line of an edit. One that is accepted is kept, with the lines that it amounts to and those that take it back."""
        words = sent_words(line)
        if len(words) != WORDS[words[0]]:
            return self.session.ask(line)
        span = span_of(self.session.ask(f"at {words[1]}")) if words[0] == "put" else None
        inverse = self.inverse(words, span)
        try:
            told, effect = self.put(line, span) if span else (self.session.ask(line), line)
            if told.startswith("ok "):
                edit = Edit(line, (effect,), inverse)
                self.keep(self.edits.made(edit), journal.made(edit, self.edits.greatest + 1))
        except BaseException:
            self.session.end()
            raise
        return told

    def make_all(self, title: str, lines: List[str]) -> str:
        """Sends the lines of one edit, which is made as a whole: where one of them is refused, none holds. What the last one is told, or the one refused."""
        try:
            replies = self.session.ask_all(lines)
            refused = next((it for it in replies if not it.startswith("ok ")), None)
            if refused is None:
                edit = Edit(title, tuple(lines))
                self.keep(self.edits.made(edit), journal.made(edit, self.edits.greatest + 1))
        except BaseException:
            self.session.end()
            raise
        if refused is not None:
            self.session.end()
        return refused or replies[-1]

    def put(self, line: str, span: Tuple[int, int]) -> Tuple[str, str]:
        """What the line of a `put` is told, and the line of bytes that it amounts to. Both are of one process: one that is begun anew has no `put` that isn't
        kept yet. Where the bytes can't be told, the line is refused."""
        told, now = self.session.ask_together([line, f"bytes {span[0]} {min(span[1] - span[0], WIDEST)}"])
        if told.startswith("ok ") and not now.startswith("hex "):
            self.session.end()
            told = now
        return told, f"set {span[0]} {now[4:]}"

    def written(self, span: Tuple[int, int]) -> str:
        """The line that writes the bytes over a place that are there now."""
        return f"set {span[0]} {self.session.content(span[0], span[1] - span[0]).hex()}"

    def inverse(self, words: List[str], span: Optional[Tuple[int, int]]) -> Optional[Tuple[str, ...]]:
        """The lines that take an edit back if it is accepted; None where they would be many."""
        try:
            return self.inverse_lines(words, span)
        except Refused:
            return None

    def inverse_lines(self, words: List[str], span: Optional[Tuple[int, int]]) -> Optional[Tuple[str, ...]]:
        """The same, where the program has the memory to tell the bytes as they are."""
        if words[0] == "put":
            return (self.written(span),) if span else None
        if words[0] == "app":
            return (f"del {self.session.size()} {len(words[1]) // 2}",)
        start, count = place_of(words[1]), len(words[2]) // 2
        if words[0] == "ins":
            return (f"del {start} {count}",)
        if words[0] == "set":
            return (f"set {start} {self.session.content(start, count).hex()}",) if count else None
        count = min(place_of(words[2]), self.session.size())
        if count > INSERTED * MOST_LINES:
            return None
        old = self.session.content(start, count)
        return tuple(f"ins {start + at} {old[at : at + some].hex()}" for at, some in pieces(0, len(old), INSERTED))

    def undo(self) -> Tuple[Edit, str]:
        """Takes the last edit back; the edit, and what the program told."""
        edit = self.edits.last.edit
        told = self.sent(edit.inverse)
        if told is None:
            self.session.end()
        self.keep(self.edits.taken_back(), {"step": "undo"})
        return edit, told or f"ok {self.session.size()}"

    def redo(self) -> Tuple[Edit, str]:
        """Makes the edit again that was taken back last; the edit, and what the program told."""
        edit = self.edits.undone.edit
        told = self.sent(edit.effect)
        if told is None:
            self.session.end()
        self.keep(self.edits.again(), {"step": "redo"})
        return edit, told or f"ok {self.session.size()}"

    def sent(self, lines: Optional[Tuple[str, ...]]) -> Optional[str]:
        """What the last of some edit lines is told; None where they aren't all accepted, or aren't there."""
        if not lines:
            return None
        replies = self.session.ask_all(lines)
        return replies[-1] if all(it.startswith("ok ") for it in replies) else None

    def keep(self, edits: Edits, event: dict) -> None:
        """Holds on to what was done, in the journal too."""
        self.edits = edits
        try:
            if self.journal is None:
                self.begin_journal()
            else:
                self.journal.note(event)
        except OSError as error:
            self.tell(f"the edit isn't in the journal: {error.strerror or error}")

    def begin_journal(self) -> None:
        """Begins the journal, with all edits so far."""
        found = Journal.begun(self.file, self.origin)
        try:
            for event in journal.events_of(self.edits, self.saves.values()):
                found.note(event)
        except OSError:
            found.close(is_kept=False)
            raise
        self.journal = found

    def begins_save(self, content: bytes, out: str) -> None:
        """Notes that the bytes as they are will be saved."""
        self.saving = journal.saving(content, out, self.edits.version)
        self.note_save(self.saving)

    def saved(self) -> None:
        """Notes that the bytes as they are were saved."""
        self.edits = self.edits.marked_saved(self.edits.version)
        event = journal.saved(self.saving)
        self.saves.pop(event["to"], None)
        self.saves[event["to"]] = event
        self.note_save(event)

    def note_save(self, event: dict) -> None:
        """Writes a record of a save."""
        if self.journal:
            try:
                self.journal.note(event)
            except OSError as error:
                self.tell(f"the save isn't in the journal: {error.strerror or error}")

    def recover(self, left: Left) -> str:
        """Takes up what a session left that ended; what the program tells of it. Where the file was changed since, no state is saved. Where that fails, all is
        as it was."""
        found, held = Journal.taken_up(left)
        before = (self.origin, self.edits, self.copy, self.session)
        try:
            self.origin, self.edits, self.copy = held.origin, held.edits, Copy(held.origin)
            self.session = self.make_session(self, self.copy)
            told = f"ok {self.session.size()}"
        except BaseException:
            if self.copy is not before[2]:
                self.session.end()
                self.copy.close()
            found.close(is_kept=True)
            self.origin, self.edits, self.copy, self.session = before
            raise
        before[3].end()
        before[2].close()
        if self.journal:
            self.journal.close(is_kept=False)
        self.journal, self.saves = found, {}
        if held.sum != journal.sum_at(held.file):
            self.edits = self.edits.marked_saved(NOWHERE)
            self.note_save({"saved": NOWHERE})
        elif held.told:
            self.note_save(held.told)
        return told

    def close(self, is_kept: bool) -> None:
        """Ends the session, and the journal, which stays if it is wanted and has what isn't saved."""
        self.session.end()
        self.copy.close()
        if self.journal:
            self.journal.close(is_kept and not self.edits.is_saved())


def place_of(word: str) -> int:
    """A place or count as ksv reads it; what it would refuse is any number."""
    return min(int(word), GREATEST) if re.fullmatch(r"[0-9]{1,20}", word) else 0


def lefts(file: str) -> List[Left]:
    """What other sessions over a file left; nothing where the folder can't be read."""
    try:
        return journal.found(file)
    except (OSError, NoJournal):
        return []
