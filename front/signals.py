"""Signals as values: what was asked for by ctrl-C, SIGHUP and SIGTERM, and a file that can be waited on for it.

Only while a person's line is awaited does a signal raise something; at all other times it is noted, and who waits looks at the notes.
"""
import os
import signal
from contextlib import contextmanager
from types import FrameType
from typing import Callable, Iterator, List, Optional, Tuple

ENDING = (signal.SIGHUP, signal.SIGTERM)


class Interrupted(Exception):
    """A person broke off what was going on."""


class Ending(Exception):
    """The shell was told to end, by this signal."""

    def __init__(self, signum: int) -> None:
        super().__init__(f"ended by {signal.Signals(signum).name}")
        self.signum = signum


class Signals:
    """What signals have asked for since they were looked at, and which of them ask for the end."""

    def __init__(self, ends: Tuple[int, ...] = ENDING) -> None:
        self._ends = ends
        self.is_interrupted, self.ending, self.is_listening = False, 0, False
        # how long something is waited for, in seconds, until a sign is given that it goes on; and how it is given
        self.patience: Optional[float] = None
        self.sign: Callable[[], None] = lambda: None
        self.wake, self._told = os.pipe()
        self._before: List[tuple] = []
        for end in (self.wake, self._told):
            os.set_blocking(end, False)

    def __enter__(self) -> "Signals":
        signal.set_wakeup_fd(self._told, warn_on_full_buffer=False)
        for signum in (signal.SIGINT, signal.SIGALRM, *self._ends):
            self._before.append((signum, signal.signal(signum, self._heard)))
        return self

    def __exit__(self, *_: object) -> None:
        signal.set_wakeup_fd(-1)
        for signum, handler in self._before:
            signal.signal(signum, handler)
        for end in (self.wake, self._told):
            os.close(end)

    def _heard(self, signum: int, _frame: Optional[FrameType]) -> None:
        """Notes a signal; where a person's line is awaited, it ends the waiting."""
        if signum == signal.SIGINT:
            self.is_interrupted = True
        elif signum in self._ends:
            self.ending = self.ending or signum
        if self.is_listening:
            self.look()

    def drain(self) -> None:
        """Empties the file that is waited on; what was noted stays."""
        try:
            while os.read(self.wake, 512):
                pass
        except BlockingIOError:
            pass

    def is_asked(self) -> bool:
        """Whether something was asked for and isn't raised yet."""
        return self.is_interrupted or bool(self.ending)

    def look(self) -> None:
        """Raises what was asked for, if something was: once an interruption, each time the end."""
        if self.is_asked():
            self.drain()
        if self.ending:
            raise Ending(self.ending)
        if self.is_interrupted:
            self.is_interrupted = False
            raise Interrupted

    @contextmanager
    def listening(self) -> Iterator[None]:
        """While a person's line is awaited: a signal ends the waiting at once."""
        self.is_listening = True
        try:
            self.look()
            yield
        finally:
            self.is_listening = False

    @contextmanager
    def working(self) -> Iterator[None]:
        """While something is done in the midst of a person's line, as for Tab: signals are noted. One that ends the shell does so a moment later."""
        was, self.is_listening = self.is_listening, False
        try:
            yield
        finally:
            self.is_listening, self.is_interrupted = was, False
            if self.ending:
                signal.setitimer(signal.ITIMER_REAL, 0.01)
