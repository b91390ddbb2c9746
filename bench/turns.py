#!/usr/bin/env python3
"""Measures what it costs that both players move at once: brackets of CFR+ as published beside those of `plus`.

Usage: python3 bench/turns.py [--every E] [--scale D] [FILE ..]

In a round of `plus` both players learn from the plans of that round. As published (Tammelin, Burch, Johanson and
Bowling 2015) they learn in turn: player two from the plan that player one has just made. Here both are played in
Python's whole numbers, with the same scale, roundings and weights of rounds, so turns are the one difference. For each
FILE, or each game of games/ and those of `make_game` that docs/closing.md has, a row has HIGH less LOW after 10, 100
and 1,000 rounds, rounded up, where the best plans of every E-th round are kept; E is 10 where nothing else is said, and
the scale the greatest of `plus`.
"""
import pathlib
import tempfile

from closing import GAMES, SAME_ROUNDS, decimal, paper_files

import command_line
import efg
import sequence_form
from played_again import Player, offered

MOST_SCALE = 16_384


def play_at_once(players, scale, number):
    for it in players:
        it.deal(scale)
        it.add(number)
    for it, other in zip(players, reversed(players)):
        it.learn(other, True)


def play_in_turn(players, scale, number):
    for it, other in zip(players, reversed(players)):
        it.learn(other, True)
        it.deal(scale)
        it.add(number)


def widths(form, play, every, scale):
    """HIGH less LOW after each number of rounds."""
    players, ends = [Player(form, player) for player in (1, 2)], None
    for it in players:
        it.deal(scale)
    for number in range(1, max(SAME_ROUNDS) + 1):
        play(players, scale, number)
        if number % every == 0 or number in SAME_ROUNDS:
            ends = offered(form, players, number, ends)
        if number in SAME_ROUNDS:
            low, high = ends
            yield (high.worth() - low.worth()) / form.unit


def row(name, path, given):
    form = sequence_form.weigh(efg.read_game(pathlib.Path(path).read_bytes()))
    both = [widths(form, play, given.every, given.scale) for play in (play_at_once, play_in_turn)]
    cells = [decimal(it, 6, True) for pair in zip(*both) for it in pair]
    print(f"| {name} | {' | '.join(cells)} |", flush=True)


def main():
    parser = command_line.parser(__doc__)
    parser.add_argument("files", metavar="FILE", nargs="*", help="game files")
    parser.add_argument("--every", metavar="E", type=int, default=10)
    parser.add_argument("--scale", metavar="D", type=int, default=MOST_SCALE)
    given = parser.parse_args()
    heads = [f"{what}, {rounds:,}" for rounds in SAME_ROUNDS for what in ("`plus`", "in turn")]
    print(f"| Game | {' | '.join(heads)} |")
    print("|---" * (len(heads) + 1) + "|")
    with tempfile.TemporaryDirectory() as folder:
        games = [(f"`{path.stem}`", path) for path in sorted(GAMES.glob("*.efg"))]
        asked = [(f"`{it}`", it) for it in given.files]
        for name, path in asked or [*games, *paper_files(folder)]:
            row(name, path, given)


if __name__ == "__main__":
    main()
