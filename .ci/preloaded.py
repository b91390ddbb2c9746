"""Calls of a program with a library of this folder before the C library: calls of the system that fail, and what is
asked of it."""
import os
import struct

from checks import PROGRAM, built, call

MOST_CALLS = 20_000


class Faults:
    """Calls in which one request of the system fails, by `.ci/faults.c`."""

    def __init__(self, folder, program=PROGRAM):
        self.library, self.mark, self.program = built("faults", folder), folder / "mark", program

    def call(self, words, **settings):
        """What the call told, and whether a call in it was made to fail."""
        self.mark.unlink(missing_ok=True)
        given = {key: str(value) for key, value in settings.items()}
        env = {**os.environ, **given, "LD_PRELOAD": str(self.library), "FAULT_MARK": str(self.mark)}
        told = call(words, self.program.name, self.program, env=env)
        return told, self.mark.exists()

    def each(self, words, kind, **settings):
        """What the call told with the first, the second and each further call of this kind failing."""
        for number in range(1, MOST_CALLS):
            told, failed = self.call(words, **{kind: number}, **settings)
            if not failed:
                return
            yield number, told
        raise AssertionError(f"{kind} has no end")


class Counts:
    """What calls ask of the system, by `.ci/counts.c`."""

    def __init__(self, folder, program):
        self.library, self.file, self.program = built("counts", folder), folder / "counts", program

    def of(self, words, ends=(0,)):
        """The requests for memory of a call, their bytes, the threads that it started, and the most at one time. It
        ends with one of these statuses."""
        env = {**os.environ, "LD_PRELOAD": str(self.library), "COUNTS": str(self.file)}
        status, _, said = call(words, program=self.program, env=env)
        assert status in ends and said == b"", (words, status, said)
        return struct.unpack("4l", self.file.read_bytes())
