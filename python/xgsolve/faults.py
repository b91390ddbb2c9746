"""What can't be done, as exceptions. Each says it in words; `Refused` has the program's own line, too."""
from typing import Optional

from . import _lib

# The faults of docs/game_file.md and docs/certificate.md by their numbers, where no better words are there.
WORDS = {
    1: "the game file has more than 67,108,864 bytes",
    2: "a token that can't be taken stands at this byte of the game file, counted from 0",
    3: "the game file ends where more is needed, or a text in it isn't closed",
    4: "something stands behind the last entry of the tree, at this byte of the game file, counted from 0",
    5: "a number of the game file isn't of its form, is over 0 or passes a limit, at this byte, counted from 0",
    6: "the game file doesn't name two players",
    7: "the player of this node is neither 1 nor 2",
    8: "the set of this node is mentioned for the first time, and its actions aren't given",
    9: "the set of this node has another name or other actions than at its first mention",
    10: "the outcome of this node is mentioned for the first time, and its payoffs aren't given",
    11: "the outcome of this node has another name or other payoffs than at its first mention",
    12: "the outcome of this node has other than two payoffs",
    13: "the game file has more than 1,048,576 nodes",
    14: "the set of this node has no action, or more than 1,024",
    15: "a probability of the chance set of this node is below 0",
    16: "the probabilities of the chance set of this node don't add up to 1; tools/exact_chances mends decimals",
    17: "the payoffs of this leaf add up to another number than those of the first leaf",
    18: "the player of this node doesn't remember what it did: it chose otherwise before another node of the set",
    19: "a fraction, the unit, the sum or the mass of the game passes 2^62 at this node",
    21: "the certificate has more than 268,435,456 bytes",
    22: "another word or separator is needed at this byte of the certificate, counted from 0",
    23: "a number of the certificate isn't of its form or its range, at this byte, counted from 0",
    24: "the version of the certificate is neither 1 nor 2",
    25: "the certificate ends where more is needed",
    26: "something stands behind the certificate's last line, at this byte, counted from 0",
    27: "this line of the certificate isn't that of the game: it is of another game",
    28: "the weights of this set of the certificate are no plan",
    29: "an action of this set is worth more to its player than the certificate says",
    30: "the action chosen in this set isn't worth what the certificate says",
    31: "this end of the certificate's bracket isn't what its plan has",
    32: "this line of the certificate's trace widens the bracket",
    33: "the certificate's bracket of player two isn't the sum less that of player one",
}


class Fault(Exception):
    """Why something can't be done, in words."""


class Refused(Fault):
    """A game file, a certificate or a profile has a fault. `line` is what the program or the reader says of it, as
    `refused 17 NotConstantSum node 5`, and `number` its number, None for a profile."""

    def __init__(self, line: str, words: str, number: Optional[int] = None):
        super().__init__(f"{words} ({line})" if number else words)
        self.line, self.words, self.number = line, words, number


class WrongCall(Fault, ValueError):
    """An argument is none that is taken."""


class NoProgram(Fault, FileNotFoundError):
    """There is no built program."""


class ProgramFailed(Fault):
    """The program ended with another status than 0 to 2: it couldn't read or write, or memory ran out."""

    def __init__(self, status: int, said: str):
        super().__init__(f"the program ended with status {status}: {said or 'it said nothing'}")
        self.status, self.said = status, said


def refused(line: str, game: Optional[bytes] = None, cert: Optional[bytes] = None) -> Refused:
    """The exception for a line of a fault, with the words of tools/explain where they are there."""
    number = int(line.split()[1])
    return Refused(line, explained(line, game, cert) or WORDS.get(number, line), number)


def explained(line: str, game: Optional[bytes], cert: Optional[bytes]) -> Optional[str]:
    """What tools/explain says of the first fault of both files, where it finds the one of this line."""
    words = _lib.load_if_there("game_words")
    if words is None or game is None:
        return None
    data, (told, form) = game, words.first_fault(game)
    if told is None and cert is not None:
        data, told = cert, _lib.load("cert_words")[0].first_fault(cert, form)
    if told is None or told.line != line:
        return None
    (places,) = _lib.load("places")
    lines = [told.said]
    if told.at is not None:
        row, column = places.line_and_column(data, told.at)
        lines = [f"line {row}, column {column}: {told.said}", *places.excerpt(data, told.at)]
    lines += [f"expected: {told.expected}"] if told.expected else []
    lines += [f"to mend it: {told.mend}"] if told.mend else []
    return "\n".join(lines)


def wrong_call(words: list[str]) -> WrongCall:
    """The exception for words that the program doesn't take, with those of tools/explain where they are there."""
    found = _lib.load_if_there("call_words")
    told = found.faults(words) if found else []
    return WrongCall("; ".join(told) or f"the program takes no such call: {' '.join(words)}")
