"""The games on which searches are measured: those of games/, those of `make_game`, and larger ones that are written
here."""
import random
import string

from closing import GAMES
from solving import Writer, streets

from made_games import Goofspiel, Leduc, LiarsDice
from made_games import Writer as NamedWriter


class SingleLeduc(Leduc):
    """Leduc poker with one card of each rank."""

    def __init__(self, ranks):
        self.writer = NamedWriter(f"Leduc poker of {ranks} single ranks", "One card of each rank.")
        self.names = string.ascii_uppercase[:ranks]
        self.deck = [(rank, "") for rank in range(ranks)]
        self.deal((), (), (1, 1))


def matrix(rows, columns):
    """A move of each player, neither of whom sees the other's, with payoffs of -9 to 9."""
    writer, chance = Writer(), random.Random(1)
    writer.move(1, "row", range(rows))
    for _ in range(rows):
        writer.move(2, "column", range(columns))
        for _ in range(columns):
            writer.leaf(chance.randint(-9, 9))
    return writer


def text_of(writer):
    return "\n".join(writer.lines) + "\n"


def made_games():
    """The games that are written here, each by its name."""
    yield "Leduc poker, 6 cards", lambda: Leduc(3).writer.text()
    yield "Leduc poker, 12 single ranks", lambda: SingleLeduc(12).writer.text()
    yield "Leduc poker, 24 single ranks", lambda: SingleLeduc(24).writer.text()
    yield "liar's dice, 4 sides", lambda: LiarsDice(4).writer.text()
    yield "liar's dice, 6 sides", lambda: LiarsDice(6).writer.text()
    yield "goofspiel, 4 cards", lambda: Goofspiel(4).writer.text()
    yield "goofspiel, 5 cards", lambda: Goofspiel(5).writer.text()
    yield "five streets, 9 cards", lambda: text_of(streets(9, 5))
    yield "matrix, 100 by 100", lambda: text_of(matrix(100, 100))
    yield "matrix, 1,000 by 1,000", lambda: text_of(matrix(1_000, 1_000))


def games(poker):
    """All games: a name and what gives the bytes of the file. `poker` gives the file of so many cards."""
    for path in sorted(GAMES.glob("*.efg")):
        yield f"`{path.stem}`", path.read_bytes
    for cards in (8, 64):
        yield f"`gen {cards}`", lambda cards=cards: poker(cards)
    for name, make in made_games():
        yield name, lambda make=make: make().encode()
