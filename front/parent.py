"""A process that ends with the one that began it: `Popen(words, preexec_fn=ends_with_parent(SIGTERM))`. The kernel sends the signal when the thread that began
it ends, in whatever way, by SIGKILL too."""
import ctypes
import os
import signal
from typing import Callable

# PR_SET_PDEATHSIG of Linux's prctl.
SET_SIGNAL = 1
_C = ctypes.CDLL(None, use_errno=True)


def ends_with_parent(number: signal.Signals) -> Callable[[], None]:
    """What a new process does first, so that it gets this signal when its parent ends, or has ended by then."""
    parent = os.getpid()

    def asks() -> None:
        _C.prctl(SET_SIGNAL, int(number), 0, 0, 0)
        if os.getppid() != parent:
            os.kill(os.getpid(), number)

    return asks
