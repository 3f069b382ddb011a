"""A folder for a build, which is taken away in whatever way the build ends, but for SIGKILL."""
from __future__ import annotations

import shutil
import signal
import tempfile
from contextlib import contextmanager
from types import FrameType
from typing import Iterator, Optional

ENDING = (signal.SIGINT, signal.SIGHUP, signal.SIGTERM)


def stop(number: int, _: Optional[FrameType]) -> None:
    """Ends the build. A second signal, as of a terminal that is closed, would end what takes the folder away, so none is heard any more."""
    for name in ENDING:
        signal.signal(name, signal.SIG_IGN)
    raise KeyboardInterrupt if number == signal.SIGINT else SystemExit(1)


@contextmanager
def room() -> Iterator[str]:
    """The folder. A signal that is ignored already, as by nohup, still is."""
    heard = {name: signal.signal(name, stop) for name in ENDING if signal.getsignal(name) != signal.SIG_IGN}
    folder = tempfile.mkdtemp(prefix="ksv-build-")
    try:
        yield folder
    finally:
        for name in heard:
            signal.signal(name, signal.SIG_IGN)
        shutil.rmtree(folder, ignore_errors=True)
        for name, before in heard.items():
            signal.signal(name, before)
