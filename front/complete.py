"""What Tab offers: commands, and paths."""
from typing import Callable, Iterable, List, Optional, Tuple

from front.look import Explorer, Spent
from front.session import Died, Refused
from front.signals import Ending, Interrupted, Signals

# The most elements of a list that are offered, and the most questions for it.
OFFERED, ASKED = 100, 200


class Completer:
    """Offers words for the line that is typed. What goes wrong there, or is broken off, offers nothing."""

    def __init__(self, explorer: Callable[[int], Explorer], commands: Iterable[str], with_path: Tuple[str, ...], path: Callable[[str], str], signals: Signals) -> None:
        self.explorer, self.commands, self.with_path, self.path, self.signals = explorer, list(commands), with_path, path, signals
        self.offers: List[str] = []

    def complete(self, text: str, state: int) -> Optional[str]:
        """The next word that Tab offers."""
        if state == 0:
            with self.signals.working():
                self.offers = self.offered_here(text)
        return self.offers[state] if state < len(self.offers) else None

    def offered_here(self, text: str) -> List[str]:
        """All words that may be where Tab was pressed in the line that is typed."""
        import readline

        try:
            return self.offered(readline.get_line_buffer()[: readline.get_begidx()], text)
        except (Died, Ending, Interrupted, Refused, Spent):
            return []

    def offered(self, before: str, text: str) -> List[str]:
        """All words that may follow what is typed, and begin as the text does."""
        words = before.split()
        if not words or words == ["help"]:
            return [f"{it} " for it in self.commands if it.startswith(text)]
        if words[0] not in self.with_path or len(words) > 1:
            return []
        front, slash, step = text.rpartition("/")
        below = self.explorer(ASKED).children(self.path((front or "/") if slash else "."))
        if isinstance(below, range):
            names = [str(it) for it in indices(step, len(below))]
        else:
            names = [it.rsplit("/", 1)[1] for it in below]
        return [f"{front}{slash}{it}" for it in names if it.startswith(step)]


def indices(digits: str, count: int) -> List[int]:
    """The first indices below a number that begin with some digits."""
    if not digits.isascii() or not (digits.isdigit() or not digits):
        return []
    if not digits or digits == "0":
        return list(range(count))[:OFFERED] if not digits else [0][: min(1, count)]
    found, width = [], 1
    while len(found) < OFFERED and int(digits[:8]) * width < count:
        found += range(int(digits[:8]) * width, min(count, (int(digits[:8]) + 1) * width))
        width *= 10
    return found[:OFFERED]
