"""The prompt without a terminal: a line in, what it does and shows. The commands are in front/commands."""
from typing import List, Optional, Tuple

from front import words as reader
from front.commands import COMMANDS
from front.description import Description
from front.explain import Explainer
from front.journal import NoJournal
from front.keeper import WORDS
from front.look import MOST_ASKED, Explorer, Spent
from front.opening import Opened
from front.output import Output
from front.save import NotSaved
from front.session import Died, Refused
from front.signals import Interrupted, Signals
from front.texts import hexed
from front.words import Misread


class Leaving(Exception):
    """The person leaves, or the input ended: the status to leave with, and whether edits that aren't saved stay in the journal."""

    def __init__(self, status: int, is_kept: bool) -> None:
        super().__init__(status)
        self.status, self.is_kept = status, is_kept


class Shell:
    """A session with its commands, and what they need to know of each other: the place in the tree, and what was asked last."""

    def __init__(self, opened: Opened, output: Output, signals: Signals) -> None:
        self.file, self.out, self.keeper, self.saver = opened.file, opened.out, opened.keeper, opened.saver
        self.opened, self.output, self.signals = opened, output, signals
        self.place, self.asked, self.is_warned, self.status = "/", "/", False, 0
        # the line that is done
        self.typed = ""
        # whether integers are shown as hexadecimal digits; the list of which `more` shows more, by its path and the next index
        self.is_hex = False
        self.more: Optional[Tuple[str, int]] = None
        # the number of the state that is at OUT
        self.at_out: Optional[int] = 0 if self.out is not None and self.saver.is_same(self.out, self.file) else None

    @property
    def is_terminal(self) -> bool:
        """Whether a person reads what is shown."""
        return self.output.is_terminal

    def description(self) -> Description:
        """What the description's text has."""
        return self.opened.description()

    def ask(self, line: str) -> str:
        """The reply to a line."""
        return self.keeper.session.ask(line)

    def explorer(self, most: int = MOST_ASKED) -> Explorer:
        """Questions for one command."""
        return Explorer(self.keeper.session, most)

    def explained(self, told: str, line: str) -> List[str]:
        """What is said below a reply; nothing where that takes too long."""
        try:
            return Explainer(self.explorer(), self.description, self.is_terminal).explained(told, line)
        except (Spent, Refused):
            return []

    def reply(self, line: str, is_hex: bool = False) -> None:
        """Sends a line and shows its reply, and of a fault where it arose."""
        told = self.ask(line)
        self.output.show([self.shown(told, is_hex), *self.explained(told, line)])

    def shown(self, told: str, is_hex: bool = False) -> str:
        """A value as it is shown: an integer as hexadecimal digits where that is asked for."""
        return hexed(told) if is_hex or self.is_hex else told

    def path(self, word: str) -> str:
        """A path as ksv reads it: from the root, or from the place in the prompt."""
        steps = [] if word.startswith("/") else self.place.split("/")
        for step in word.split("/"):
            steps = steps[:-1] if step == ".." else steps if step in ("", ".") else [*steps, step]
        return "/" + "/".join(it for it in steps if it)

    def usage(self, word: str) -> None:
        """How a command is written."""
        self.output.show([f"{COMMANDS[word].form}: {COMMANDS[word].what}"])

    def line(self, text: str) -> bool:
        """Does what a line says; whether nobody broke it off. What goes wrong is told, and the next line can be read."""
        self.signals.is_interrupted = False
        try:
            self.do(text)
        except Interrupted:
            if not self.is_terminal:
                raise
            self.output.write("\n")
            self.output.tell("broken off")
            return False
        except Died as error:
            self.status = 3
            self.output.tell(f"{error}; the next line begins it anew with the edits so far")
        except (Misread, NoJournal, Refused) as error:
            self.output.show([str(error)])
        except OSError as error:
            self.output.show([reason_of(error)])
        except Spent:
            self.output.show([f"  (given up after {MOST_ASKED} questions)"])
        return True

    def do(self, text: str) -> None:
        """Does what a line says."""
        word, rest = reader.head_of(text)
        if not word or word.startswith("#"):
            return
        if word == "raw":
            self.raw(rest)
            return
        found = reader.words_of(text)
        word, words, self.typed = found[0].text, found[1:], text
        if word in ("quit", "exit"):
            self.leave()
        elif word == "save":
            self.save(reader.name_of(text, found))
        elif word in COMMANDS:
            COMMANDS[word].run(self, word, words)
        else:
            self.output.show([f"{word}: no such command; `help` lists them"])

    def raw(self, rest: str) -> None:
        """Sends a line as it is. An edit that is sent so can be taken back like others."""
        words = reader.sent_words(rest)
        if not reader.has_reply(rest):
            return
        if words == ["quit"]:
            self.leave()
        elif words[0] in WORDS:
            self.output.show([self.made(rest)])
        else:
            self.reply(rest)

    def made(self, line: str) -> str:
        """What the line of an edit is told."""
        told = self.keeper.make(line)
        self.is_warned = self.is_warned and not told.startswith("ok ")
        return told

    def made_all(self, title: str, lines: List[str]) -> str:
        """What an edit of many lines is told."""
        told = self.keeper.make_all(title, lines)
        self.is_warned = self.is_warned and not told.startswith("ok ")
        return told

    def save(self, name: str) -> bool:
        """Saves to a file, or where `--save` said; whether that went well."""
        out = name or self.out
        if not out:
            self.output.show(["save OUT: name the file to write, such as the one that you opened"])
            return False
        session = self.keeper.session
        try:
            content = session.content(0, session.size())
            self.saver.save(content, out)
        except (Died, NotSaved, OSError, Refused) as error:
            self.status = 3
            self.output.show([reason_of(error) if isinstance(error, OSError) else str(error)])
            return False
        self.status = 0
        self.keeper.saved()
        if self.out is not None and self.saver.is_same(out, self.out):
            self.at_out = self.keeper.edits.version
        self.output.show([f"saved {len(content)} bytes to {out}"])
        return True

    def leave(self, is_asked: bool = True) -> None:
        """Leaves, as it was asked to, or since the input ended; with `--save` the bytes are saved. Else, where edits aren't, a person is told so and stays at
        the first time. An input that ends may have been broken off: then, and where the last save failed, the journal keeps what isn't saved."""
        is_owed = self.at_out != self.keeper.edits.version if self.out else not self.keeper.edits.is_saved()
        if is_owed and self.out:
            if not self.save("") and self.is_terminal and not self.is_warned:
                self.is_warned = True
                return
        elif is_owed and self.is_terminal and not self.is_warned:
            self.is_warned = True
            self.output.write("edits aren't saved: `save OUT` saves them, a second `quit` or ctrl-D loses them\n")
            return
        elif is_owed and not self.is_terminal:
            self.output.tell("edits weren't saved" + ("" if is_asked else ": `recover` takes them up in the next session over this file"))
        raise Leaving(self.status, is_kept=self.status != 0 or not (self.is_terminal or is_asked))


def reason_of(error: OSError) -> str:
    """Why something that was asked of the system failed."""
    return ": ".join(str(it) for it in (error.filename, error.strerror) if it) or str(error)
