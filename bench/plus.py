#!/usr/bin/env python3
"""Measures a round of `plus` against a round of `solve`, each on one thread and with plans of one scale.

Usage: python3 bench/plus.py [PROGRAM] [--runs N] [--seconds S] [--only WORD]

PROGRAM is the built one where nothing else is given. Each game, of some 20,000 to 580,000 leaves, is played by `plus`
and by `solve`, both with `--workers 1 --scale 16384`, with one round and with many; the difference of the processor's
times is that of the rounds between, so that reading the game and writing the text drop out of it. There are so many
rounds that this is S seconds (0.5 where nothing else is said) and half of the run with one round, at most 2,048. In
each of N turns (9) both commands are run, in every other turn the other one first; what is compared with the bound is
the median of the turns' ratios. One thread's processor time is the same on a busy machine, but for what others take of
the caches.

A line says what was measured, the measure and its bound; the last line counts what passed and failed, and the status is
1 where something failed.
"""
import os
import pathlib
import statistics
import sys
import tempfile

from reading import PROGRAM, run
from solving import Failed, Report, poker, streets

import command_line

MOST_ROUNDS = 2_048
RATIO = 1.15
GAMES = [
    *((f"poker, {cards} cards", poker, (cards,)) for cards in (64, 110, 220, 341)),
    *((f"four streets, {cards} cards", streets, (cards, 4)) for cards in (5, 8, 15, 21)),
]


def work(program, command, path, rounds):
    """The processor's time of a run."""
    words = [command, path, "--rounds", str(rounds), "--scale", "16384", "--workers", "1"]
    _, _, status, used = run([program, *words])
    if status != 0:
        raise Failed(f"{command} ended with status {status} for --rounds {rounds}")
    return used


def of_a_round(program, command, path, many):
    """The processor's time of a round: that of many, less that of one."""
    one = work(program, command, path, 1)
    return max(work(program, command, path, many) - one, 1e-9) / (many - 1)


def choose_rounds(program, path, seconds):
    """So many rounds of `solve` that those beyond the first take the wanted time."""
    one, many = work(program, "solve", path, 1), 2
    while many < MOST_ROUNDS:
        took, wanted = work(program, "solve", path, many) - one, max(seconds, one / 2)
        if took >= wanted:
            break
        many = min(MOST_ROUNDS, int(many * min(8.0, max(2.0, 1.2 * wanted / max(took, 1e-3)))))
    return many


def measure(report, name, writer, path, given):
    path.write_text("\n".join(writer.lines) + "\n")
    program, turns = os.path.abspath(given.program), []
    try:
        many = choose_rounds(program, str(path), given.seconds)
        for turn in range(given.runs):
            order = ("plus", "solve") if turn % 2 else ("solve", "plus")
            turns.append({command: of_a_round(program, command, str(path), many) for command in order})
    except Failed as why:
        report.that(f"{name}: {why}", False)
        return
    ratio = statistics.median(turn["plus"] / turn["solve"] for turn in turns)
    solved = min(turn["solve"] for turn in turns)
    report.say(f"{name}, {writer.leaves} leaves, {many} rounds: {1e9 * solved / writer.leaves:.2f} ns a leaf by solve")
    report.judge(f"{name}: a round of plus over one of solve", ratio, RATIO, "times")


def main():
    parser = command_line.parser(__doc__)
    parser.add_argument("program", metavar="PROGRAM", nargs="?", default=str(PROGRAM))
    parser.add_argument("--runs", metavar="N", type=int, default=9)
    parser.add_argument("--seconds", metavar="S", type=float, default=0.5)
    parser.add_argument("--only", metavar="WORD", default="", help="only the games whose name has this")
    given = parser.parse_args()
    report = Report()
    with tempfile.TemporaryDirectory() as folder:
        for name, make, sizes in GAMES:
            if given.only in name:
                measure(report, name, make(*sizes), pathlib.Path(folder) / "game.efg", given)
    print(f"{report.passed} passed, {report.failed} failed")
    return 1 if report.failed else 0


if __name__ == "__main__":
    sys.exit(main())
