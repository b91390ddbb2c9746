"""The certificates of docs/vectors/ with their answers, and the bytes by which checks change such files."""
import os

from checks import ROOT

VECTORS = ROOT / "docs" / "vectors"
# One is too long to lie there, and is made.
LONG, LONG_BYTES = "21_long.xgcert", 268_435_457


def answers():
    """The certificate, its game and the line of each row."""
    return [tuple(line.split(" ", 2)) for line in (VECTORS / "answers.txt").read_text().splitlines()]


def long_certificate(folder):
    file = folder / LONG
    file.touch()
    os.truncate(file, LONG_BYTES)
    return file


def byte_for(at, given):
    """The byte of these that is put at a place."""
    return given[at % len(given) : at % len(given) + 1]
