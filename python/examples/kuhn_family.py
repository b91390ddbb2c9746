"""The equilibria of Kuhn poker, each certified and checked.

Kuhn ("A simplified two-person poker", 1950) found that the first player has a best strategy for each number a from 0 to
1/3, and the second one alone. This prints LOW and HIGH for some of them, in antes, and what both give away together;
then the same where the first player bets with the Jack too often.
"""
import argparse
import pathlib
from fractions import Fraction

import xgsolve

GAME = pathlib.Path(__file__).resolve().parents[2] / "games" / "kuhn_poker.efg"
VALUE = Fraction(-1, 18)


def mixed(second):
    """A set's two actions, the second of which is taken with this probability."""
    return {1: 1 - second, 2: second}


def profile(a):
    """Both players' strategies, by the sets of games/kuhn_poker.efg: first the first player's with each card, and after
    a check and a bet; then the second one's after a check, and after a bet."""
    first = {
        "holds the Jack": a,
        "holds the Queen": 0,
        "holds the King": 3 * a,
        "holds the Jack after a check and a bet": 0,
        "holds the Queen after a check and a bet": a + Fraction(1, 3),
        "holds the King after a check and a bet": 1,
    }
    second = {
        "holds the Jack after a check": Fraction(1, 3),
        "holds the Queen after a check": 0,
        "holds the King after a check": 1,
        "holds the Jack after a bet": 0,
        "holds the Queen after a bet": Fraction(1, 3),
        "holds the King after a bet": 1,
    }
    plans = {1: first, 2: second}
    return {player: {set_: mixed(Fraction(it)) for set_, it in sets.items()} for player, sets in plans.items()}


def main():
    parser = argparse.ArgumentParser(description=__doc__, formatter_class=argparse.RawDescriptionHelpFormatter)
    parser.add_argument("--program", help="the built program")
    given = parser.parse_args()
    game = xgsolve.read_game(GAME)
    print("a     LOW    HIGH   given away")
    for twelfths in range(5):
        a = Fraction(twelfths, 12)
        found = xgsolve.exploitability(game, profile(a), program=given.program)
        print(f"{str(a):4}  {found.low}  {found.high}  {found.width}")
        assert found.low == found.high == VALUE
    bluffs = profile(Fraction(1, 3))
    bluffs[1]["holds the Jack"] = mixed(Fraction(1, 2))
    found = xgsolve.exploitability(game, bluffs, program=given.program)
    print(f"with a bet on every second Jack: {found.low}  {found.high}  {found.width}")


if __name__ == "__main__":
    main()
