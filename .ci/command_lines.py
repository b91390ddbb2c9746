"""Command lines of a file of rows through the built program.

A case has files, as named_games.py has them; and calls with their status, output and error, where a long output is told
by its size and its checksum."""
import hashlib
import pathlib
import tempfile

from checks import USAGE, call
from named_games import file_of


def expect_cases(checks, cases):
    """Each case with its files in a folder of its own."""
    for row in cases:
        with tempfile.TemporaryDirectory() as folder:
            for name, spec in row["files"].items():
                (pathlib.Path(folder) / name).write_bytes(file_of(spec))
            for number, step in enumerate(row["steps"], 1):
                expect_step(checks, f"{row['what']}, call {number}", step, folder)


def expect_step(checks, what, step, folder):
    if step.get("output") == "full":
        with open("/dev/full", "wb") as full:
            told = call(step["words"], cwd=folder, stdout=full)
        checks.expect(what, told, step["status"], None, step["stderr"].encode())
        return
    status, out, said = call(step["words"], cwd=folder)
    error = USAGE if step["stderr"] == "usage" else step["stderr"].encode()
    checks.expect(f"{what}, status and error", (status, said), step["status"], error)
    if "stdout" in step:
        checks.expect(f"{what}, output", (out,), step["stdout"].encode())
    else:
        wanted = step["stdout_size"], step["stdout_sha256"]
        checks.expect(f"{what}, output", (len(out), hashlib.sha256(out).hexdigest()), *wanted)
