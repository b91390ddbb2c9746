"""The calls: rounds of a game, and bounds of a strategy from elsewhere."""
import csv
import io
import os
from collections.abc import Iterable, Mapping
from fractions import Fraction
from typing import Any, Optional, Union

from . import _lib, _program
from .faults import Refused, WrongCall
from .game import Game, Source, read_game
from .result import Result

certifying, openspiel, profiles = _lib.load("certifying", "openspiel", "profiles")

# The command of each kind of rounds, with the most rounds and the greatest scale that it takes.
METHODS = {"cfr": ("solve", 65_536, 1_048_576), "cfr+": ("plus", 2_048, 16_384)}
Number = Union[int, float, str, Fraction]
# A strategy: a file's name, its bytes, a result, probabilities by player, set and action, or rows of all four.
Profile = Union[str, "os.PathLike[str]", bytes, Result, Mapping[Any, Any], Iterable[Any]]


def solve(
    game: Source,
    rounds: int = 1_000,
    every: Optional[int] = None,
    method: str = "cfr",
    *,
    scale: Optional[int] = None,
    workers: Optional[int] = None,
    program: Optional[_program.Path] = None,
) -> Result:
    """Plays rounds of a game, by the built program.

    `rounds` are 1 to 65,536, with "cfr+" at most 2,048. The plans are evaluated after each `every` rounds, and after
    the last one alone where it is None; the best of each side is kept. `method` is "cfr" for plain rounds, whose text
    is a certificate, or "cfr+". `scale` is into how many units a round's plan is cut, and `workers` how many threads
    add up. The text is a function of the game, `rounds`, `every`, `method` and `scale` alone."""
    if method not in METHODS:
        raise WrongCall(f"there is no method {method!r}; there are cfr and cfr+")
    command, most_rounds, most_scale = METHODS[method]
    words = [command, _program.GAME]
    for name, value, least, most in (
        ("rounds", rounds, 1, most_rounds),
        ("every", every, 1, 65_536),
        ("scale", scale, 1, most_scale),
        ("workers", workers, 1, 64),
    ):
        if value is not None:
            words.append(f"--{name}={number_in(name, value, least, most)}")
    found = read_game(game)
    return Result(found, _program.call(words, {_program.GAME: found.data}, program), program=program)


def number_in(name: str, value: int, least: int, most: int) -> int:
    if isinstance(value, bool) or not hasattr(value, "__index__"):
        raise WrongCall(f"{name} takes a whole number, and not {value!r}")
    if not least <= value.__index__() <= most:
        raise WrongCall(f"{name} takes {least:,} to {most:,}, and not {value:,}")
    return value.__index__()


def exploitability(
    game: Source, profile: Profile, player: Optional[int] = None, *, program: Optional[_program.Path] = None
) -> Result:
    """Bounds of a strategy: a certificate of it that the program has checked, as a result with `low`, `high` and
    `width`, in units of the game file's payoffs to player one. `width` is what both players together could gain by best
    responses: OpenSpiel's NashConv, twice what other papers call exploitability.

    `profile` is the name of a file or the bytes of it, as `tools/certify` takes them: a table of player, set, action
    and probability, or Gambit's line `NE,p,p,..`. Or it is a `Result`; or probabilities by player, set and action, as
    `plans` has them; or rows with these four, as `to_rows` has them. A float counts as the decimal that Python prints
    for it. Those of a set that add up to 1 only nearly are scaled, and `notes` say so.

    With `player` the strategy is of that player alone: 1, and then `low` is what it is sure of, or 2, and then `high`
    is what it concedes at most. The other end speaks of a best response, which is the other player's plan then."""
    found, players = read_game(game), (1, 2) if player is None else (player,)
    if player not in (None, 1, 2):
        raise WrongCall(f"player is 1 or 2, and not {player!r}")
    notes: list[str] = []
    if isinstance(profile, Result):
        told = certifying.told_by_text(found.form, profile.read, players)
    else:
        try:
            told, notes = certifying.told_by_profile(found.form, profile_data(profile), players)
        except profiles.Fault as fault:
            raise Refused(str(fault), str(fault)) from None
    made = certifying.Certified(found.form, told)
    result = Result(found, made.data(), (*notes, *made.notes()), program)
    checked = result.check()
    if (checked.low, checked.high) != (result.low, result.high):
        raise Refused("accepted", "the program accepts another bracket than was computed")
    return result


def profile_data(profile: Profile) -> bytes:
    """A profile as `certify` reads it."""
    if isinstance(profile, bytes):
        return profile
    if isinstance(profile, (str, os.PathLike)):
        with open(profile, "rb") as file:
            return file.read()
    out = io.StringIO()
    writer = csv.writer(out)
    writer.writerow(profiles.COLUMNS)
    writer.writerows(rows_of(profile))
    return out.getvalue().encode("utf-8", "surrogateescape")


def rows_of(profile: Union[Mapping[Any, Any], Iterable[Any]]) -> Iterable[list[Any]]:
    """A table's rows. A set without probabilities has none."""
    if not isinstance(profile, Mapping):
        for row in profile:
            fields = [row[it] for it in profiles.COLUMNS] if isinstance(row, Mapping) else list(row)
            if len(fields) != len(profiles.COLUMNS):
                raise WrongCall(f"a row has player, set, action and probability, and not {row!r}")
            if fields[3] is not None:
                yield [*fields[:3], spelled(fields[3])]
        return
    for player, sets in profile.items():
        for set_, actions in sets.items():
            for action, probability in actions.items():
                if probability is not None:
                    yield [player, set_, action, spelled(probability)]


def spelled(probability: Number) -> str:
    """A probability as text: a fraction exactly, and a float as the shortest decimal that means it."""
    if isinstance(probability, (str, int, Fraction)):
        return str(probability)
    if hasattr(probability, "is_signed"):
        return str(probability)
    return repr(float(probability))


def from_openspiel(game: Any, policy: Any = None) -> tuple[Game, bytes]:
    """A game of OpenSpiel, and the profile of a policy for it, each action as likely where none is given: what
    `tools/from_openspiel` writes. `policy` has `action_probabilities(state)`, as OpenSpiel's own policies have."""
    made = openspiel.Export(game, policy)
    return read_game(made.game_data()), made.profile_data()
