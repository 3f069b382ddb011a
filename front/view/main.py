"""A view of a file by its description: ksv-view FILE KSY [--save OUT]

It has a tree and its bytes on one screen, over the same session, edits, journal and saves as the prompt. `?` lists its keys.
"""
import locale
import os
import signal
import sys
from typing import List, Optional, Tuple

from front.edits import edits_of
from front.opening import Opened, helped, looked_at, open_streams, told, words_of
from front.session import Died, Refused
from front.signals import ENDING, Ending, Interrupted, Signals
from front.view.filing import Leave
from front.view.help import LINES
from front.view.desk import Desk

USAGE = "usage: ksv-view FILE KSY [--save OUT]"
# Signals by which it ends. By ctrl-\ too: otherwise the terminal would keep its other screen, without a cursor.
ENDS = (*ENDING, signal.SIGQUIT)


def viewed(named: Tuple[str, str, Optional[str]], signals: Signals) -> int:
    """Opens a file by its description, and shows it until the person leaves; the status. However it ends, what isn't saved is in the journal, but for edits
    that the person gives up."""
    from front.view.terminal import NoTerminal, Terminal

    status, is_kept, why, messages = 0, True, "", []  # type: int, bool, str, List[str]
    with Opened(named, signals, messages.append) as opened:
        try:
            with Terminal(signals) as terminal:
                terminal.run(Desk(opened, messages, *terminal.size(), looked=terminal.sign))
        except Leave as end:
            status, is_kept = end.status, end.is_kept
            messages.append(end.message)
        except Ending as end:
            status, why = 128 + end.signum, str(end)
        except Interrupted:
            status, why = 128 + signal.SIGINT, "ended by SIGINT"
        except NoTerminal as error:
            status, why = 1, f"the terminal {os.environ['TERM']} can't be used: {error}"
        except (Died, OSError, Refused) as error:
            status, why = 3, str(error)
        finally:
            edits = opened.keeper.edits
            opened.keeper.close(is_kept)
    for it in filter(None, messages):
        told(f"ksv-view: {it}")
    if why:
        also = "" if edits.is_saved() else f"; {edits_of(len(edits.holding()))}, not saved: R takes them up in the next view of this file"
        told(f"ksv-view: {why}{also}")
    return status


def begin_letters() -> None:
    """Shows letters as the person's locale has them. One that isn't there, as where it came from another machine, is as UTF-8."""
    for it in ("", "C.UTF-8"):
        try:
            locale.setlocale(locale.LC_ALL, it)
            return
        except locale.Error:
            pass


def main(words: List[str]) -> int:
    """Opens a file by its description; the status."""
    open_streams()
    if "--help" in words or "-h" in words:
        return helped("ksv-view", USAGE + "\n\n" + "\n".join(f"  {key:<12} {what}".rstrip() for key, what in LINES))
    named = words_of(words)
    if not named:
        print(USAGE, file=sys.stderr)
        return 2
    if not (sys.stdin.isatty() and sys.stdout.isatty()):
        told("ksv-view: it needs a terminal; ksv-shell reads lines")
        return 2
    begin_letters()
    os.environ.setdefault("TERM", "dumb")
    try:
        looked = looked_at("ksv-view", named)
    except KeyboardInterrupt:
        return 128 + signal.SIGINT
    if looked:
        return looked
    with Signals(ENDS) as signals:
        try:
            return viewed(named, signals)
        except OSError as error:
            told(f"ksv-view: {error}")
            return 1
