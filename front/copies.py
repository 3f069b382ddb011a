"""Private copies of files, in memory alone: nothing of them is left wherever the shell ends."""
import errno
import os
import stat
from typing import Optional


class Copy:
    """Some bytes as a file without a name, which a process that is begun with its number may read by its path."""

    def __init__(self, content: bytes) -> None:
        self.number = os.memfd_create("ksv", os.MFD_CLOEXEC)
        try:
            rest = memoryview(content)
            while rest:
                rest = rest[os.write(self.number, rest) :]
        except BaseException:
            os.close(self.number)
            raise
        self.path = f"/proc/self/fd/{self.number}"

    def close(self) -> None:
        """Gives the memory back."""
        os.close(self.number)

    def __enter__(self) -> "Copy":
        return self

    def __exit__(self, *_: object) -> None:
        self.close()


def kind_of(path: str) -> str:
    """What is there that isn't a file; the empty text where a file is, or nothing."""
    try:
        mode = os.stat(path).st_mode
    except (OSError, ValueError):
        return ""
    return "" if stat.S_ISREG(mode) else "a folder" if stat.S_ISDIR(mode) else "a pipe" if stat.S_ISFIFO(mode) else "a device"


def read(path: str, most: Optional[int] = None) -> bytes:
    """The bytes of a file, at most n of them. A pipe or a device is none: it isn't waited for."""
    number = os.open(path, os.O_RDONLY | os.O_NONBLOCK | os.O_NOCTTY | os.O_CLOEXEC)
    if not stat.S_ISREG(os.fstat(number).st_mode):
        os.close(number)
        raise OSError(errno.EINVAL, "this is no file", path)
    with open(number, "rb") as file:
        return file.read() if most is None else file.read(most)
