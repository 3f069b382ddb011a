"""Replies of the program to the bytes as they are, each asked for once; and those to the bytes as they were before the last edit."""
from typing import Callable, Dict, List, Optional

from front.session import MOST_TOLD, NO_MEMORY, Session, pieces
from front.signals import Interrupted, Signals

# What is known in place of a reply that was broken off, and how many replies are kept.
BROKEN, MOST_KEPT = "(broken off: ctrl-L asks again)", 300_000


class Replies:
    """What a session answered. It may be asked as the session itself."""

    def __init__(self, session: Callable[[], Session], signals: Signals, looked: Callable[[], None] = lambda: None) -> None:
        self._session, self._signals, self._looked = session, signals, looked
        self.known: Dict[str, str] = {}
        self.before: Dict[str, str] = {}
        self.asked, self._size = 0, 0
        self.is_given_up = False

    def ask(self, line: str) -> str:
        """The reply to a line. While it is given up, what isn't known yet isn't asked."""
        found = self.known.get(line)
        if found is not None:
            return found
        if self.is_given_up:
            return BROKEN
        if self._signals.is_interrupted or self._signals.ending:
            self._signals.look()
        self._looked()
        self.asked += 1
        try:
            found = self._session().ask(line)
        except Interrupted:
            self.known[line] = BROKEN
            raise
        if len(self.known) >= MOST_KEPT:
            self.known.clear()
        self.known[line] = found
        return found

    def ask_all(self, lines: List[str]) -> None:
        """Asks for replies that aren't known yet, all at once."""
        lines = [it for it in lines if it not in self.known]
        if not lines or self.is_given_up:
            return
        self._looked()
        self.asked += len(lines)
        session = self._session()
        try:
            session.ask_all(lines)
        except Interrupted:
            self.known[lines[len(session.told) % len(lines)]] = BROKEN
            raise
        finally:
            self.known.update({line: told for line, told in zip(lines, session.told) if told != NO_MEMORY})

    def was(self, line: str) -> Optional[str]:
        """The reply to a line before the last edit; None where it wasn't asked."""
        return self.before.get(line)

    def edited(self) -> None:
        """Forgets the replies, since the bytes are others; they are those from before."""
        self.before, self.known = self.known, {}

    def again(self) -> None:
        """Forgets what was broken off, so that it is asked again."""
        self.known = {line: told for line, told in self.known.items() if told not in (BROKEN, NO_MEMORY)}

    def size(self) -> int:
        """The number of bytes; while it is given up what it was last."""
        told = self.ask("size")
        if told.startswith("size "):
            self._size = int(told.split()[1])
        return self._size

    def piece(self, start: int, count: int) -> bytes:
        """Some bytes of the file that aren't kept here."""
        self._looked()
        return self._session().content(start, count)

    def content(self, start: int, count: int) -> bytes:
        """Some bytes of the file; fewer where it has no more, or where they weren't told."""
        count = max(0, min(count, self.size() - start))
        found = b""
        for at, some in pieces(start, count, MOST_TOLD):
            told = self.ask(f"bytes {at} {some}")
            if not told.startswith("hex "):
                break
            found += bytes.fromhex(told[4:])
        return found
