"""Game files: Gambit's `.efg` format, as docs/game_file.md has it."""
import os
from fractions import Fraction
from typing import Any, Optional, Union

from . import _lib
from .faults import Refused, WrongCall, refused

efg, made_games, sequence_form = _lib.load("efg", "made_games", "sequence_form")

Source = Union[str, "os.PathLike[str]", bytes, "Game"]


class Game:
    """A game of two players whose file has no fault.

    `data` are the bytes of the file, `title` and `players` its names, and `sum` is what both players' payoffs add up to
    at each leaf, in units of the file's payoffs. `form` is its sequence form (von Stengel, "Efficient computation of
    behavior strategies", 1996) in whole numbers: `form.weights[z]` is, at leaf z, the chance of reaching it times what
    player one is paid there times `form.unit`, and `form.at[k][z]` is the sequence of player k there; of player k's
    sets, in the order of their first nodes, `form.sets[k]` has what the file says, `form.first[k]` the set's first
    sequence and `form.before[k]` the sequence before it; sequence 0 is empty, and `form.counts[k]` says how many there
    are."""

    def __init__(self, data: bytes):
        self.data = bytes(data)
        try:
            self.read = efg.read_game(self.data)
            self.form = sequence_form.weigh(self.read)
        except efg.Fault as fault:
            raise refused(str(fault), self.data) from None
        self.title: str = efg.shown(self.read.title)
        self.players: tuple[str, str] = tuple(map(efg.shown, self.read.players))
        self.sum = Fraction(*self.form.total)

    @property
    def nodes(self) -> int:
        """How many nodes the tree has."""
        return len(self.read.nodes)

    @property
    def leaves(self) -> int:
        """How many of them are leaves."""
        return len(self.form.weights)

    def sets(self, player: int) -> list[Any]:
        """A player's information sets in the order of their first nodes: each has its `number`, its `name` as bytes or
        None, and its `actions` as bytes."""
        return list(self.form.sets[player])

    def __repr__(self) -> str:
        return f"<Game {self.title!r}: {self.nodes} nodes, {self.leaves} leaves>"


def read_game(source: Source) -> Game:
    """The game of a file: of this name, or of these bytes. A fault of it is the exception `Refused`."""
    if isinstance(source, Game):
        return source
    if isinstance(source, (bytes, bytearray, memoryview)):
        return Game(bytes(source))
    with open(source, "rb") as file:
        return Game(file.read(efg.MOST_BYTES + 1))


def make_game(name: str, size: Optional[int] = None) -> Game:
    """A game that papers report numbers on: "leduc", with its number of ranks (3; Southey and others, "Bayes' bluff",
    2005), "liars_dice", with its number of faces, or "goofspiel", with its number of cards."""
    kind = made_games.GAMES.get(name)
    if kind is None:
        raise WrongCall(f"there is no game {name!r}; there are {', '.join(sorted(made_games.GAMES))}")
    size = kind.USUAL if size is None else size
    if not kind.LEAST <= size <= kind.MOST:
        raise WrongCall(f"{name} takes {kind.LEAST} to {kind.MOST}, and not {size}")
    try:
        return Game(kind(size).writer.text().encode())
    except made_games.TooLarge:
        raise Refused(refused("refused 13 TooManyNodes").line, f"{name} {size} has too many nodes", 13) from None
