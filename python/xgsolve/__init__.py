"""Solves two-player constant-sum games with hidden information, and bounds strategies from elsewhere, by `xg_solve`.

    >>> import xgsolve
    >>> game = xgsolve.read_game("games/kuhn_poker.efg")
    >>> result = xgsolve.solve(game, rounds=1000, every=10)
    >>> result.low, result.high                      # exact bounds of the value, in payoffs to player one
    >>> result.plans[1]["holds the Jack"]["bet"]     # an exact probability
    >>> result.check()                               # what is proved of both plans
    >>> xgsolve.exploitability(game, "strategy.csv") # bounds of a strategy from elsewhere, checked

The rounds are those of counterfactual regret minimisation (Zinkevich, Johanson, Bowling and Piccione, "Regret
minimization in games with incomplete information", 2007) or of CFR+ (Tammelin, "Solving large imperfect information
games using CFR+", 2014) in whole numbers; all numbers are exact fractions, in units of the game file's payoffs.

What is proved is the answer of `check` alone: that the printed plans are sure of the bracket in the game of the file.
This module finds and calls the built program, and no proof speaks of the module.
"""
from .faults import Fault, NoProgram, ProgramFailed, Refused, WrongCall
from .game import Game, make_game, read_game
from .result import Checked, Named, Result, TraceRow
from .solving import exploitability, from_openspiel, solve

__all__ = [
    "Checked",
    "Fault",
    "Game",
    "Named",
    "NoProgram",
    "ProgramFailed",
    "Refused",
    "Result",
    "TraceRow",
    "WrongCall",
    "exploitability",
    "from_openspiel",
    "make_game",
    "read_game",
    "solve",
]
