"""What the tools read and what they say of it: files by name, or standard input."""
import contextlib
import pathlib
import sys


class Fault(Exception):
    """Why a file can't be taken."""


def bytes_of(name):
    return sys.stdin.buffer.read() if name == "-" else pathlib.Path(name).read_bytes()


@contextlib.contextmanager
def named(name, *faults):
    """Puts the file's name before a fault of these kinds; standard input has none."""
    try:
        yield
    except faults as fault:
        if name in ("-", None):
            raise
        raise Fault(f"{name}: {fault}") from None
