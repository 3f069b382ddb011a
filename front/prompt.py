"""A prompt over ksv: ksv-shell FILE KSY [--save OUT]

It talks to the proved program over pipes. Each value that it shows is a reply of the program, and each edit is a line of it; `help` lists what it adds.
On a terminal it has a prompt with the place in the tree, history, line editing and Tab; else it reads lines and prints plainly. The file on the disk
stays as it is until `save`. Edits that were accepted are in a journal, from which `recover` takes them up after any end of the shell.
"""
import os
import signal
import sys
from typing import List, Optional, Tuple

from front import journal
from front.commands import COMMANDS, NUMBERS, WITH_PATH, listed
from front.complete import Completer
from front.copies import kind_of
from front.edits import edits_of
from front.opening import Opened, greetings, helped, looked_at, open_streams, told, words_of
from front.output import Output, OutputFailed
from front.session import Died, Refused
from front.shell import Leaving, Shell
from front.signals import Ending, Interrupted, Signals
from front.texts import visible

USAGE = "usage: ksv-shell FILE KSY [--save OUT]"
# The longest line that is read, in bytes, and how many lines the history keeps.
LONGEST, REMEMBERED = 1 << 20, 2000


class History:
    """The lines that were typed, also those of earlier sessions, as far as they can be kept."""

    def __init__(self) -> None:
        import readline

        self.readline, self.path, self.length = readline, None, 0  # type: object, Optional[str], int
        try:
            path = os.path.join(journal.folder(), "history")
            os.close(os.open(path, os.O_RDONLY | os.O_NONBLOCK | os.O_CREAT | os.O_NOFOLLOW | os.O_CLOEXEC, 0o600))
            if not kind_of(path):
                readline.read_history_file(path)
                self.path = path
        except OSError:
            pass
        readline.set_history_length(REMEMBERED)
        self.length = readline.get_current_history_length()

    def keep(self) -> None:
        """Writes the last line that was typed, if it is a new one."""
        before, self.length = self.length, self.readline.get_current_history_length()
        try:
            if self.path and self.length != before:
                self.readline.append_history_file(1, self.path)
        except OSError:
            pass


def prompted(shell: Shell, signals: Signals) -> None:
    """Greets with the file's name and size, and reads lines at a prompt until the person leaves."""
    import readline

    # what is typed may be no text, as a letter of another encoding
    sys.stdin.reconfigure(errors="surrogateescape")
    shell.output.write(f"{visible(shell.file)}: {shell.keeper.session.size()} bytes; `help` lists the commands\n")
    greeted(shell)
    history = History()
    readline.set_completer(Completer(shell.explorer, COMMANDS, WITH_PATH, shell.path, signals).complete)
    readline.set_completer_delims(" \t\n")
    readline.parse_and_bind("bind ^I rl_complete" if "libedit" in (readline.__doc__ or "") else "tab: complete")
    while True:
        try:
            with signals.listening():
                text = input(f"ksv {visible(shell.place)}> ")
        except EOFError:
            shell.output.write("\n")
            shell.leave()
        except Interrupted:
            shell.output.write("\n")
        else:
            history.keep()
            # a text that was pasted may have several lines; those behind one that is broken off aren't done
            for line in text.split("\n"):
                if not shell.line(line):
                    break


def served(shell: Shell, signals: Signals) -> None:
    """Does what the lines of the input say."""
    greeted(shell)
    while True:
        with signals.listening():
            text = sys.stdin.buffer.readline(LONGEST)
        if not text:
            shell.leave(is_asked=False)
        elif len(text) == LONGEST and not text.endswith(b"\n"):
            while text and not text.endswith(b"\n"):
                text = sys.stdin.buffer.readline(LONGEST)
            shell.output.show(["error: line too long"])
        else:
            shell.line(text.decode(errors="surrogateescape").rstrip("\n"))


def greeted(shell: Shell) -> None:
    """Tells what other sessions over the file left."""
    for it in greetings(shell.keeper, "`recover` takes them up, `recover drop` removes them"):
        shell.output.tell(it)


def explored(named: Tuple[str, str, Optional[str]], signals: Signals) -> int:
    """Opens a file by its description, and does what is asked; the status."""
    output = Output(sys.stdout, sys.stdin.isatty() and sys.stdout.isatty())
    with Opened(named, signals, output.tell) as opened:
        return left_with(Shell(opened, output, signals), signals)


def left_with(shell: Shell, signals: Signals) -> int:
    """Reads lines until the session ends; its status. However it ends, what isn't saved is in the journal, but for edits that a person gives up."""
    status, is_kept, why = 0, True, ""
    try:
        (prompted if shell.is_terminal else served)(shell, signals)
    except Leaving as end:
        status, is_kept = end.status, end.is_kept
    except Ending as end:
        status, why = 128 + end.signum, str(end)
    except Interrupted:
        status, why = 128 + signal.SIGINT, "ended by SIGINT"
    except OutputFailed as error:
        status, why = 3, f"output failed: {error}"
    except (Died, OSError, Refused) as error:
        status, why = 3, str(error)
    finally:
        is_owed, count = not shell.keeper.edits.is_saved(), len(shell.keeper.edits.holding())
        shell.keeper.close(is_kept)
    if why:
        also = f"; {edits_of(count)}, not saved: `recover` takes them up in the next session over this file" if is_owed else ""
        told(f"ksv-shell: {why}{also}")
    return status


def main(words: List[str]) -> int:
    """Opens a file by its description; the status."""
    open_streams()
    if "--help" in words or "-h" in words:
        return helped("ksv-shell", USAGE + "\n\n" + "\n".join(f"  {it}" for it in listed()) + "\n\n" + NUMBERS)
    named = words_of(words)
    if not named:
        print(USAGE, file=sys.stderr)
        return 2
    try:
        looked = looked_at("ksv-shell", named)
    except KeyboardInterrupt:
        return 128 + signal.SIGINT
    if looked:
        return looked
    with Signals() as signals:
        try:
            return explored(named, signals)
        except OSError as error:
            told(f"ksv-shell: {error}")
            return 1
