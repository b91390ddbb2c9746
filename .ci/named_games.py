"""Games that checks and their cases call by name: the files of game_files/."""
import functools
import pathlib

FOLDER = pathlib.Path(__file__).resolve().parent / "game_files"


@functools.cache
def game(name):
    """The bytes of a named game."""
    return (FOLDER / f"{name}.efg").read_bytes()


def file_of(spec):
    """The bytes of a case's file: its text, or the name of a game, as it stands or, as a start, filled up to a size; or
    so many bytes 0."""
    if isinstance(spec, str):
        return spec.encode()
    if "sparse" in spec:
        return bytes(spec["sparse"])
    start = game(spec["game"]) if "game" in spec else spec.get("text", spec.get("start", "")).encode()
    return start + spec.get("fill", "\n").encode() * (spec.get("size", len(start)) - len(start))
