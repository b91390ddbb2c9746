#!/usr/bin/env python3
"""Measures how close the bracket comes and how long that takes, and prints the tables of docs/closing.md.

Usage: python3 bench/closing.py [PROGRAM] [--every E] [--runs N] [--folder FOLDER] [--only TABLES]

PROGRAM is the built one where nothing else is given. One-card poker with 3, 8, 16, 32 and 64 cards is solved by
`drill`, and each game of FOLDER (games/ where nothing else is said) by `solve`, with one worker. For each number of
rounds a row has both ends of the bracket, their distance, and the best of N runs' seconds, with all reading and
writing. Decimals are rounded outward, so what is printed is a bracket, too.

Two more tables have `plus` beside `solve`, on the games of FOLDER and on the files of `gen` for those cards: how wide
both brackets are after the same rounds, for each number of them, there of games of `make_game` too, and after the
same time: `plus` with 2,048 rounds, the most that it has, and `solve` with as many rounds as take that long. This
time is the processor's of the rounds behind the first, which tells the same on a busy machine: the best of N runs
with one round and with many (8,192 of `solve`). All evaluate after every E-th round, the tenth where nothing else is
said.

A last table has what tools/promise says of the games of FOLDER beside HIGH less LOW as it is printed, and the least
rounds that promise a hundredth of the range of payoffs. With --only some tables alone are printed: poker, games, plus
or promises.
"""
import os
import pathlib
import subprocess
import sys
import tempfile
from fractions import Fraction

from reading import PROGRAM, ROOT, run

import command_line
import efg
import promises
import sequence_form

CARDS = (3, 8, 16, 32, 64)
POKER_ROUNDS = (10, 100, 1_000, 10_000)
GAME_ROUNDS = (100, 10_000)
SAME_ROUNDS = (10, 100, 1_000)
PROMISED_ROUNDS = (100, 1_000, 65_536)
MOST_PLUS_ROUNDS, MOST_ROUNDS, TIMED_ROUNDS = 2_048, 65_536, 8_192
PAPER_GAMES = (("goofspiel", "4"), ("liars_dice", "3"), ("leduc",))
MAKE_GAME, GAMES = ROOT / "tools" / "make_game", ROOT / "games"


def decimal(value, places, is_upward):
    """The value with so many places, rounded to one side."""
    scaled = value * 10**places
    whole = -(-scaled.numerator // scaled.denominator) if is_upward else scaled.numerator // scaled.denominator
    sign, digits = ("-" if whole < 0 else ""), str(abs(whole)).rjust(places + 1, "0")
    return f"{sign}{digits[:-places]}.{digits[-places:]}"


def lines_of(command):
    done = subprocess.run(command, capture_output=True, text=True)
    if done.returncode != 0:
        sys.exit(f"{' '.join(command)}: status {done.returncode}: {done.stderr.strip()}")
    return done.stdout.splitlines()


def numbers(lines):
    """The number of nodes and both ends of the bracket of a text."""
    nodes = next(line.split()[1] for line in lines if line.startswith("nodes "))
    low, high = next(map(Fraction, line.split()[1:]) for line in lines if line.startswith("bracket "))
    return int(nodes), low, high


def asked(command, rounds, every):
    return [*command, "--rounds", str(rounds), "--every", str(every), "--workers", "1"]


def seconds_of(words, runs):
    return min(run(words)[0] for _ in range(runs))


def row(name, command, rounds, every, runs):
    words = asked(command, rounds, every)
    nodes, low, high = numbers(lines_of(words))
    ends = f"{decimal(low, 6, False)} | {decimal(high, 6, True)} | {decimal(high - low, 6, True)}"
    return f"| {name} | {nodes:,} | {rounds:,} | {ends} | {seconds_of(words, runs):.3f} |"


def table(games, all_rounds, given):
    print("| Game | Nodes | Rounds | LOW | HIGH | HIGH less LOW | Seconds |")
    print("|---|---|---|---|---|---|---|")
    for name, command in games:
        for rounds in all_rounds:
            print(row(name, command, rounds, given.every, given.runs), flush=True)


def width(program, command, file, rounds, every):
    """HIGH less LOW, rounded up."""
    _, low, high = numbers(lines_of(asked([program, command, file], rounds, every)))
    return decimal(high - low, 6, True)


def time_of_rounds(command, rounds, given):
    """The processor's time of so many rounds more than one, by the best of the runs of each."""
    words = [asked(command, count, given.every) for count in (1, rounds)]
    one, many = (min(run(it)[3] for _ in range(given.runs)) for it in words)
    return max(many - one, 1e-6)


def same_rounds(program, files, given):
    """How wide the brackets of `solve` and `plus` are after the same rounds."""
    heads = [f"{command}, {rounds:,}" for rounds in SAME_ROUNDS for command in ("`solve`", "`plus`")]
    print(f"| Game | {' | '.join(heads)} |")
    print("|---" * (len(heads) + 1) + "|")
    for name, file in files:
        cells = [
            width(program, command, str(file), rounds, given.every)
            for rounds in SAME_ROUNDS
            for command in ("solve", "plus")
        ]
        print(f"| {name} | {' | '.join(cells)} |", flush=True)


def same_time(program, files, given):
    """How wide they are after the time that the most rounds of `plus` take."""
    print("| Game | Milliseconds | Rounds of `plus` | HIGH less LOW | Rounds of `solve` | HIGH less LOW |")
    print("|---|---|---|---|---|---|")
    for name, path in files:
        file = str(path)
        seconds = time_of_rounds([program, "plus", file], MOST_PLUS_ROUNDS, given)
        of_a_round = time_of_rounds([program, "solve", file], TIMED_ROUNDS, given) / (TIMED_ROUNDS - 1)
        rounds = min(MOST_ROUNDS, 1 + round(seconds / of_a_round))
        by_plus = width(program, "plus", file, MOST_PLUS_ROUNDS, given.every)
        cells = [f"{1000 * seconds:.1f}", f"{MOST_PLUS_ROUNDS:,}", by_plus]
        cells += [f"{rounds:,}", width(program, "solve", file, rounds, given.every)]
        print(f"| {name} | {' | '.join(cells)} |", flush=True)


def promised(program, files, given):
    """How wide brackets are beside what was promised of them."""
    heads = [f"{what}, {rounds:,}" for rounds in PROMISED_ROUNDS for what in ("printed", "promised")]
    print(f"| Game | Range | {' | '.join(heads)} | 0.01 of the range |")
    print("|---" * (len(heads) + 3) + "|")
    for name, path in files:
        form = sequence_form.weigh(efg.read_game(path.read_bytes()))
        span = payoff_span(form)
        found = promises.Promise(form, promises.MOST_SCALE[False], False)
        cells = [str(span)]
        for rounds in PROMISED_ROUNDS:
            cells += [width(program, "solve", str(path), rounds, given.every), decimal(found.after(rounds), 6, True)]
        least = found.rounds_for(span / 100)
        print(f"| {name} | {' | '.join(cells)} | {'none' if least is None else format(least, ',')} |", flush=True)


def payoff_span(form):
    """The greatest payoff of player one at a leaf less the least."""
    pays = [Fraction(*place.pays[0]) for place in sequence_form.places(form) if place.node.set is None]
    return max(pays) - min(pays)


def made_files(program, folder):
    """The files of one-card poker."""
    for cards in CARDS:
        path = pathlib.Path(folder) / f"gen_{cards}.efg"
        path.write_text("\n".join(lines_of([program, "gen", str(cards)])) + "\n")
        yield f"`gen {cards}`", path


def paper_files(folder):
    """The files of games that papers report numbers on."""
    for words in PAPER_GAMES:
        path = pathlib.Path(folder) / f"{'_'.join(words)}.efg"
        path.write_text("\n".join(lines_of([str(MAKE_GAME), *words])) + "\n")
        yield f"`make_game {' '.join(words)}`", path


def main():
    parser = command_line.parser(__doc__)
    parser.add_argument("program", metavar="PROGRAM", nargs="?", default=str(PROGRAM))
    parser.add_argument("--every", metavar="E", type=int, default=10)
    parser.add_argument("--runs", metavar="N", type=int, default=5)
    parser.add_argument("--folder", default=str(GAMES))
    parser.add_argument("--only", choices=("poker", "games", "plus", "promises"), help="print these tables alone")
    given = parser.parse_args()
    program = os.path.abspath(given.program)
    files = [(f"`{path.stem}`", path) for path in sorted(pathlib.Path(given.folder).glob("*.efg"))]
    if given.only in (None, "poker"):
        table([(f"`drill {cards}`", [program, "drill", str(cards)]) for cards in CARDS], POKER_ROUNDS, given)
        print()
    if given.only in (None, "games"):
        table([(name, [program, "solve", str(path)]) for name, path in files], GAME_ROUNDS, given)
        print()
    if given.only in (None, "plus"):
        with tempfile.TemporaryDirectory() as folder:
            compared = [*made_files(program, folder), *files]
            same_rounds(program, [*compared, *paper_files(folder)], given)
            print()
            same_time(program, compared, given)
            print()
    if given.only in (None, "promises"):
        promised(program, files, given)


if __name__ == "__main__":
    main()
