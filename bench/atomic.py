#!/usr/bin/env python3
"""Measures rounds of four workers whose rows are words (`--atomic 1`) against rounds of four whose rows are locked.

Usage: python3 bench/atomic.py [PROGRAM] [--runs N] [--seconds S] [--only WORD] [--work]

PROGRAM is the built one where nothing else is given. Each game is solved with `--workers 4` by both kinds of rows, with
one round and with many, and the difference of the times is that of the rounds between: reading the game and writing the
text drop out of it. There are so many rounds that those of the quicker kind are S seconds (0.5 where nothing else is
said) and half of its run with one round. In each of N turns (9) both kinds are run, in every other turn the other one
first; what is compared with the bound is the median of the turns' ratios: how many times as many rounds a second there
are by words as by locks. The same ratio to the rounds of one thread, which is run in the same turns, has no bound.

Times are those that pass, on an idle machine with four processors: where others take them, a round waits until its
threads are given one, by either kind. With --work they are the processor's, of all threads together, which a busy
machine changes less; they count what a worker does at a lock and while it waits awake, and not what it waits asleep.

Poker with one card each is the game of `drill`; Leduc poker is played with so many cards, each of a rank of its own, or
two of each rank. A line says what was measured, the measure and its bound; the last line counts what passed and failed,
and the status is 1 where something failed.
"""
import functools
import os
import pathlib
import statistics
import subprocess
import sys
import tempfile

from reading import PROGRAM
from solving import MOST_ROUNDS, SLOWER, Failed, Report, Solver, Writer, poker, streets

import command_line

KINDS = {"words": ["4", "--atomic", "1"], "locks": ["4", "--atomic", "0"], "one": ["1"]}
# What has never fewer rounds a second is given a tenth, as two measurements of one program differ.
NEVER_FEWER = 1 / SLOWER
BETS, MOST_BETS = (2, 4), 2


class Leduc:
    """A card each and one that is laid open, with betting before and after that; a pair with it wins, else the rank."""

    def __init__(self, cards, of_a_rank):
        self.writer, self.cards, self.of_a_rank = Writer(), range(cards), of_a_rank
        self.deal(())

    def rank(self, card):
        return card // self.of_a_rank

    def deal(self, cards, said="", put_in=(1, 1)):
        left = [it for it in self.cards if it not in cards]
        self.writer.chance(cards, [(it, f"1/{len(left)}") for it in left])
        for card in left:
            if cards:
                self.bet((*cards, card), said + "/", 0, put_in, 0)
            else:
                self.deal((card,))

    def bet(self, cards, said, mover, put_in, bets):
        other, facing = 1 - mover, put_in[mover] < put_in[1 - mover]
        actions = (["fold", "call"] if facing else ["check"]) + (["bet"] if bets < MOST_BETS else [])
        self.writer.move(mover + 1, (*map(self.rank, (cards[mover], *cards[2:])), said), actions)
        for action in actions:
            if action == "fold":
                self.writer.leaf(put_in[1] if mover else -put_in[0])
            elif action == "bet":
                more = put_in[other] + BETS[len(cards) - 2]
                self.bet(cards, said + "b", other, (put_in[0], more) if mover else (more, put_in[1]), bets + 1)
            elif action == "check" and not said.endswith("k"):
                self.bet(cards, said + "k", other, put_in, bets)
            elif len(cards) == 2:
                self.deal(cards, said + action, (put_in[other],) * 2)
            else:
                self.writer.leaf(put_in[other] * self.winner(cards))

    def winner(self, cards):
        one, two, laid_open = map(self.rank, cards)
        one, two = (one == laid_open, one), (two == laid_open, two)
        return (one > two) - (one < two)


def leduc(cards, of_a_rank=1):
    return Leduc(cards, of_a_rank).writer


def games():
    """Each game, and how many times as many rounds a second are wanted of it."""
    for cards in (3, 8, 16, 32):
        yield f"poker, {cards} cards", functools.partial(poker, cards), NEVER_FEWER
    yield "poker, 64 cards", functools.partial(poker, 64), 2
    yield "poker, 317 cards", functools.partial(poker, 317), NEVER_FEWER
    yield "Leduc poker, 3 pairs", functools.partial(leduc, 6, 2), NEVER_FEWER
    yield "Leduc poker, 12 cards", functools.partial(leduc, 12), 2
    yield "Leduc poker, 24 cards", functools.partial(leduc, 24), 1.3
    for cards in (5, 11, 21):
        yield f"four streets, {cards} cards", functools.partial(streets, cards, 4), NEVER_FEWER


def choose_rounds(solvers, seconds):
    """So many rounds that they take the wanted time, the same for each solver, by the quickest of them. Each number is
    tried three times, and one round each time, too: what else the machine does makes a run longer, and none shorter."""
    for solver in solvers:
        solver.solve(1)
    while solvers[0].many < MOST_ROUNDS:
        for solver in solvers * 3:
            solver.solve(solver.many)
            solver.solve(1)
        took, wanted = min((it.times[it.many] - it.times[1], max(seconds, it.times[1] / 2)) for it in solvers)
        if took >= wanted:
            return
        factor = min(8.0, max(2.0, 1.2 * wanted / max(took, wanted / 100)))
        for solver in solvers:
            solver.many = min(MOST_ROUNDS, int(solver.many * factor) + 1)


def measured(path, given):
    """The solvers of a game after their turns."""
    solvers = {kind: Solver(os.path.abspath(given.program), None, path) for kind in KINDS}
    for kind, solver in solvers.items():
        solver.words = ["--workers", *KINDS[kind]]
    choose_rounds([solvers["words"], solvers["locks"]], given.seconds)
    choose_rounds([solvers["one"]], given.seconds)
    for turn in range(given.runs):
        for solver in reversed(solvers.values()) if turn % 2 else solvers.values():
            solver.turn()
    return solvers


def measure(report, name, make, bound, path, given):
    writer = make()
    path.write_text("\n".join(writer.lines) + "\n")
    try:
        solvers = measured(str(path), given)
    except Failed as why:
        report.that(f"{name}: {why}", False)
        return
    told = ", ".join(f"{1 / it.of_a_round(given.work):.1f} by {kind}" for kind, it in solvers.items())
    report.say(f"{name}, {writer.leaves} leaves, {solvers['words'].many} rounds; rounds a second: {told}")
    over_one = ratio(solvers, "one", given.work)
    report.say(f"{name}: {over_one:.3f} times as many as by one thread")
    over_locks = ratio(solvers, "locks", given.work)
    report.that(f"{name}: {over_locks:.2f} times as many as by locks, at least {bound:.2f}", over_locks >= bound)
    report.that(f"{name}: the texts are the same", is_same_text(given.program, str(path)))


def ratio(solvers, kind, is_work):
    """How many times as many rounds a second there are by words: the median of the turns."""
    turns = zip(solvers[kind].turns, solvers["words"].turns)
    return statistics.median(other[is_work] / ours[is_work] for other, ours in turns)


def is_same_text(program, path):
    words = [program, "solve", path, "--rounds", "4", "--every", "3", "--workers"]
    texts = [subprocess.run([*words, *it], capture_output=True) for it in KINDS.values()]
    return all(it.returncode == 0 and it.stdout == texts[0].stdout for it in texts)


def main():
    parser = command_line.parser(__doc__)
    parser.add_argument("program", metavar="PROGRAM", nargs="?", default=str(PROGRAM))
    parser.add_argument("--runs", metavar="N", type=int, default=9)
    parser.add_argument("--seconds", metavar="S", type=float, default=0.5)
    parser.add_argument("--only", metavar="WORD", default="", help="only the games whose name has this")
    parser.add_argument("--work", action="store_true")
    given = parser.parse_args()
    report = Report()
    with tempfile.TemporaryDirectory() as folder:
        for name, make, bound in games():
            if given.only in name:
                measure(report, name, make, bound, pathlib.Path(folder) / "game.efg", given)
    print(f"{report.passed} passed, {report.failed} failed")
    return 1 if report.failed else 0


if __name__ == "__main__":
    sys.exit(main())
