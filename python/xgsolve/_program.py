"""Finds the built program, and calls it."""
import os
import pathlib
import shutil
import subprocess
import tempfile
from typing import Optional, Union

from . import _lib
from .faults import NoProgram, ProgramFailed, refused, wrong_call

Path = Union[str, "os.PathLike[str]"]
NAME, VARIABLE = "xg_solve", "XG_SOLVE"
# The names by which a call has the game file and the certificate.
GAME, CERTIFICATE = "game.efg", "certificate.xgcert"


def find(program: Optional[Path] = None) -> str:
    """The program: the one given, that of the variable XG_SOLVE, bin/xg_solve of the checkout in which this package
    lies, or one on the PATH. The launcher of a checkout proves and builds the program at its first call."""
    root = _lib.checkout()
    launcher = root / "bin" / NAME if root else None
    for found in (program, os.environ.get(VARIABLE)):
        if found:
            path = shutil.which(os.fspath(found))
            if path is None:
                raise NoProgram(f"there is no program {os.fspath(found)}")
            return path
    if launcher and launcher.is_file():
        return str(launcher)
    path = shutil.which(NAME)
    if path is None:
        raise NoProgram(f"there is no {NAME}: name it by program=.., by the variable {VARIABLE}, or put it on the PATH")
    return path


def call(words: list[str], files: dict[str, bytes], program: Optional[Path] = None) -> bytes:
    """What the program prints where these files are there by their names; what it refuses is an exception."""
    found = os.path.abspath(find(program))
    with tempfile.TemporaryDirectory(prefix="xgsolve-") as folder:
        for name, data in files.items():
            (pathlib.Path(folder) / name).write_bytes(data)
        ended = subprocess.run([found, *words], cwd=folder, stdin=subprocess.DEVNULL, capture_output=True)
    if ended.returncode == 0:
        return ended.stdout
    said = ended.stderr.decode("utf-8", "replace").rstrip("\n").rpartition("\n")[2]
    if ended.returncode == 1 and said.startswith("refused "):
        raise refused(said, files.get(GAME), files.get(CERTIFICATE))
    if ended.returncode == 2:
        raise wrong_call(words)
    raise ProgramFailed(ended.returncode, said)
