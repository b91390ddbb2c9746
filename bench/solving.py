#!/usr/bin/env python3
"""Measures how rounds are played: rounds a second, memory, and how a round's time grows with the leaves.

Usage: python3 bench/solving.py [PROGRAM] [--runs N] [--seconds S] [--work] [--chain NODES] [--only WORD]
       [--workers N] [--beside OTHER]

PROGRAM is the built one where nothing else is given. Each game is solved twice, with one round and with many, and the
difference of the times is that of the rounds between: reading the game and writing the text drop out of it. There are
so many rounds that this is S seconds (0.3 where nothing else is said) and half of the run with one round, or as many as
there can be. Rates are by the best time of N runs (9, and four times as many of small games), in which all sizes of a
kind and all programs take turns; what is compared with a bound is the median of the ratios of these turns, as a machine
may have two speeds. With --work times are the processor's and not those that pass, which is right for one thread on a
busy machine; a bound is kept where either keeps it. Memory is the greatest that was resident; less than the 8 MB of the
process that starts the program can't be seen.

Each game is solved without a number of workers, as it is for those who ask for nothing, and in turn with `--workers 1`,
which may not be faster. Those with so many leaves that threads may pay are solved so once more beside a load: as many
busy processes as there are processors. With --workers N a game is solved with this number alone, by OTHER too.

A line says what was measured, the measure and its bound, where it has one; the last line counts what passed and failed,
and the status is 1 where something failed.

With OTHER, which takes the same words, each game is also solved with it, in turn, and the ratio of the rounds a second
is printed, ours over the other's: it has no bound. The text of each game is to be the same byte for byte, and of the
largest games the first round with its text is to take at most twice the other's time.
"""
import os
import pathlib
import statistics
import subprocess
import sys
import tempfile

from reading import PROGRAM, run

import command_line

MOST_ROUNDS = 65_536
# What is never slower is given a tenth, as two measurements of one program differ.
GROWTH, TEXT_RATIO, SLOWER = 2.3, 2.0, 1.1
# From so many leaves on threads may pay, which beside a load may cost a fifth of the rounds.
THREADS_PAY, SLOWER_LOADED = 200_000, 1.25
# Runs of games with fewer leaves are short, so there are more of them.
SMALL, SMALL_TURNS = 10_000, 4


class Writer:
    """Writes a game node by node; a set and an outcome are described where they come first."""

    def __init__(self):
        self.lines, self.sets, self.outcomes, self.leaves = ['EFG 2 R "" { "One" "Two" }'], {}, {}, 0

    def chance(self, key, chances):
        actions = " ".join(f'"{name}" {chance}' for name, chance in chances)
        self.inner('c ""', (0, key), actions)

    def move(self, player, key, actions):
        self.inner(f'p "" {player}', (player, key), " ".join(f'"{it}"' for it in actions))

    def inner(self, begin, key, actions):
        known = key in self.sets
        number = self.sets.setdefault(key, len(self.sets) + 1)
        self.lines.append(f"{begin} {number} 0" if known else f"{begin} {number} {{ {actions} }} 0")

    def leaf(self, payoff):
        self.leaves += 1
        known = payoff in self.outcomes
        number = self.outcomes.setdefault(payoff, len(self.outcomes) + 1)
        self.lines.append(f't "" {number}' if known else f't "" {number} {{ {payoff}, {-payoff} }}')

    def deals(self, cards):
        """Each pair of cards for the two players, with the nodes of chance before it."""
        self.chance("first", [(i, f"1/{cards}") for i in range(cards)])
        for i in range(cards):
            others = [j for j in range(cards) if j != i]
            self.chance(("second", i), [(j, f"1/{cards - 1}") for j in others])
            for j in others:
                yield i, j

    def street(self, i, j, seen, pot, bet, go_on):
        """One round of betting with the cards i and j after what was seen; it goes on where nobody folds."""
        self.move(1, (i, seen), ("check", "bet"))
        self.move(2, (j, seen + "c"), ("check", "bet"))
        go_on(seen + "cc", pot)
        self.move(1, (i, seen + "cb"), ("fold", "call"))
        self.leaf(-pot)
        go_on(seen + "cbc", pot + bet)
        self.move(2, (j, seen + "b"), ("fold", "call"))
        self.leaf(pot)
        go_on(seen + "bc", pot + bet)


def poker(cards):
    """Poker with one card each and one street: few sets, each with many leaves below."""
    writer = Writer()
    for i, j in writer.deals(cards):
        writer.street(i, j, "", 1, 1, lambda _, pot: writer.leaf(pot if i > j else -pot))
    return writer


def streets(cards, count):
    """One card each and several streets, between which a coin that all see turns the order of the cards: many sets."""
    writer = Writer()

    def play(i, j, k, seen, pot, is_turned):
        def go_on(now, larger):
            if k == count:
                writer.leaf(larger if (i > j) != is_turned else -larger)
                return
            writer.chance("coin", [("turn", "1/3"), ("stay", "2/3")])
            play(i, j, k + 1, now + "t", larger, not is_turned)
            play(i, j, k + 1, now + "s", larger, is_turned)

        writer.street(i, j, seen, pot, k, go_on)

    for i, j in writer.deals(cards):
        play(i, j, 1, "", 1, False)
    return writer


def chain(nodes):
    """So many nodes below one another, each in a set of its own with one action, and then the one leaf."""
    writer = Writer()
    for k in range(nodes - 1):
        writer.move(1 + k % 2, k, ("on",))
    writer.leaf(1)
    return writer


def games(chain_nodes):
    """The kinds of games, each from small to large; of the kinds that have a growth the leaves double."""
    yield "small poker", False, [(f"poker, {cards} cards", lambda cards=cards: poker(cards)) for cards in (3, 8, 16)]
    yield "poker", True, [(f"poker, {cards} cards", lambda cards=cards: poker(cards)) for cards in (110, 156, 220, 317)]
    yield "streets", True, [
        (f"four streets, {cards} cards", lambda cards=cards: streets(cards, 4)) for cards in (8, 11, 15, 21)
    ]
    yield "chain", False, [(f"a chain of {chain_nodes} nodes", lambda: chain(chain_nodes))]


class Failed(Exception):
    """A run that didn't end with status 0."""


class Solver:
    """A program, with what was measured of it on one game: of each number of rounds the best time that passed and the
    best processor's time, and of each turn both times of a round."""

    def __init__(self, program, workers, path):
        self.program, self.path, self.many = program, path, 2
        self.words = ["--workers", str(workers)] if workers else []
        self.memory, self.times, self.works, self.turns = 0, {}, {}, []

    def solve(self, rounds):
        words = ["solve", self.path, "--rounds", str(rounds), *self.words]
        seconds, memory, status, work = run([self.program, *words])
        if status != 0:
            raise Failed(f"{self.program} ended with status {status} for --rounds {rounds}")
        self.memory = max(self.memory, memory)
        self.times[rounds] = min(seconds, self.times.get(rounds, seconds))
        self.works[rounds] = min(work, self.works.get(rounds, work))
        return seconds, work

    def choose_rounds(self, seconds):
        """So many rounds that those beyond the first take the wanted time."""
        self.solve(1)
        while self.many < MOST_ROUNDS:
            # The first run of a program may be slow, so the one round is timed again each time.
            self.solve(self.many)
            self.solve(1)
            took, wanted = self.times[self.many] - self.times[1], max(seconds, self.times[1] / 2)
            if took >= wanted:
                return
            factor = min(8.0, max(2.0, 1.2 * wanted / took)) if took > wanted / 100 else 8.0
            self.many = min(MOST_ROUNDS, int(self.many * factor) + 1)

    def turn(self):
        one, many = self.solve(1), self.solve(self.many)
        self.turns.append([max(b - a, 1e-9) / (self.many - 1) for a, b in zip(one, many)])

    def of_a_round(self, is_work):
        """The time of a round."""
        times = self.works if is_work else self.times
        return max(times[self.many] - times[1], 1e-9) / (self.many - 1)

    def over(self, other):
        """The time of a round over another's in the middle one of their turns, by the time that passes or the
        processor's, whichever is better: what is slower is so by both, and what else the machine does changes them
        apart."""
        return min(
            statistics.median(ours[clock] / theirs[clock] for ours, theirs in zip(self.turns, other.turns))
            for clock in (0, 1)
        )


class Load:
    """As many busy processes as there are processors, as long as it is entered."""

    def __enter__(self):
        self.processes = [subprocess.Popen([sys.executable, "-c", "while True: pass"]) for _ in range(os.cpu_count())]

    def __exit__(self, *_):
        for it in self.processes:
            it.kill()
            it.wait()


class Game:
    """A game in a file of its own, with the solvers that play it."""

    def __init__(self, name, writer, path, programs):
        self.name, self.leaves, self.lines, self.path = name, writer.leaves, len(writer.lines), str(path)
        path.write_text("\n".join(writer.lines) + "\n")
        self.solvers = [Solver(program, workers, self.path) for program, workers in programs]
        self.why = None

    def attempt(self, act):
        """Does it, unless something failed before."""
        try:
            if self.why is None:
                act()
        except Failed as why:
            self.why = why

    def choose_rounds(self, seconds):
        for solver in self.solvers:
            solver.choose_rounds(seconds)
        # As many for each, so that what is measured differs in the program alone.
        many = max(solver.many for solver in self.solvers)
        for solver in self.solvers:
            solver.many = many

    def turn(self, is_back):
        for solver in reversed(self.solvers) if is_back else self.solvers:
            solver.turn()


def measured(sizes, programs, folder, given):
    """The games of a kind after their runs. All sizes and all programs take turns, and in every other turn they go
    backwards, so that a change of the machine's speed meets all of them."""
    games = [Game(name, make(), folder / f"game_{i}.efg", programs) for i, (name, make) in enumerate(sizes)]
    for game in games:
        game.attempt(lambda: game.choose_rounds(given.seconds))
    for turn in range(given.runs * (SMALL_TURNS if all(game.leaves < SMALL for game in games) else 1)):
        for game in reversed(games) if turn % 2 else games:
            game.attempt(lambda: game.turn(turn % 2 == 1))
    return games


def text_times(programs, path, given):
    """For each program the best time of one round with its text, less that of reading alone."""
    solvers = [Solver(program, workers, path) for program, workers in programs]
    for _ in range(given.runs):
        for solver in solvers:
            solver.solve(0)
            solver.solve(1)
    times = [it.works if given.work else it.times for it in solvers]
    return [max(it[1] - it[0], 0.01) for it in times]


class Report:
    def __init__(self):
        self.passed = self.failed = 0

    def say(self, what):
        print(f"     {what}", flush=True)

    def judge(self, what, measure, bound, unit):
        self.that(f"{what}: {measure:.2f} {unit}, at most {bound:g}", measure <= bound)

    def that(self, what, holds):
        self.passed, self.failed = self.passed + bool(holds), self.failed + (not holds)
        print(f"{'ok  ' if holds else 'FAIL'} {what}", flush=True)


def same_text(programs, path):
    words = ["solve", path, "--rounds", "4", "--every", "3"]
    texts = [subprocess.run([it, *words], capture_output=True) for it, _ in programs]
    return all(it.returncode == 0 and it.stdout == texts[0].stdout for it in texts)


def measure_kind(report, sizes, has_growth, programs, folder, given):
    alone = [] if given.workers else [(programs[0][0], 1)]
    games = measured(sizes, [*programs, *alone], folder, given)
    before = None
    for game in games:
        game.attempt(lambda: tell_game(report, game, programs, given))
        if game.why is not None:
            report.that(f"{game.name}: {game.why}", False)
        elif has_growth and before:
            growth = 2 * game.solvers[0].over(before.solvers[0]) / (game.leaves / before.leaves)
            report.judge(f"{game.name}: a round's time for twice the leaves", growth, GROWTH, "times")
        before = game if game.why is None else None
    if games[-1].why is None:
        games[-1].attempt(lambda: tell_text(report, games[-1], programs, given))


def tell_game(report, game, programs, given):
    ours, name = game.solvers[0], game.name
    rate = 1 / ours.of_a_round(given.work)
    report.say(
        f"{name}, {game.lines - 1} nodes, {game.leaves} leaves: {rate:.1f} rounds a second, "
        f"{1e9 / rate / game.leaves:.2f} ns a leaf, {ours.memory / 2**20:.1f} MB"
    )
    if not given.workers:
        slower = ours.over(game.solvers[-1])
        report.judge(f"{name}: a round without a number of workers, over one worker's", slower, SLOWER, "times")
        if game.leaves >= THREADS_PAY:
            slower = over_loaded(game, given)
            report.judge(f"{name}: the same beside a load", slower, SLOWER_LOADED, "times")
    if len(programs) > 1:
        other = 1 / game.solvers[1].of_a_round(given.work)
        report.say(f"{name}, beside: {other:.1f} rounds a second; ours over it {rate / other:.2f}")
        report.that(f"{name}: the texts are the same", same_text(programs, game.path))


def over_loaded(game, given):
    """The time of a round without a number of workers over that with one worker, in turns beside a load."""
    ours = game.solvers[0]
    pair = [Solver(ours.program, workers, ours.path) for workers in (None, 1)]
    with Load():
        for turn in range(given.runs):
            for solver in reversed(pair) if turn % 2 else pair:
                solver.many = ours.many
                solver.turn()
    return pair[0].over(pair[1])


def tell_text(report, game, programs, given):
    times = text_times(programs, game.path, given)
    report.say(f"{game.name}: the first round, its replies and the text take {times[0]:.3f} s")
    if len(times) > 1 and game.lines > 500_000:
        report.judge(f"{game.name}: that time beside", times[0] / times[1], TEXT_RATIO, "times")


def main():
    parser = command_line.parser(__doc__)
    parser.add_argument("program", metavar="PROGRAM", nargs="?", default=str(PROGRAM))
    parser.add_argument("--runs", metavar="N", type=int, default=9)
    parser.add_argument("--seconds", metavar="S", type=float, default=0.3)
    parser.add_argument("--work", action="store_true")
    parser.add_argument("--chain", metavar="NODES", type=int, default=1_000)
    parser.add_argument("--only", metavar="WORD", default="", help="only the kinds whose name has this")
    parser.add_argument("--workers", metavar="N", type=int)
    parser.add_argument("--beside", metavar="OTHER")
    given = parser.parse_args()
    programs = [(os.path.abspath(it), given.workers) for it in (given.program, given.beside) if it]
    report = Report()
    with tempfile.TemporaryDirectory() as folder:
        for name, has_growth, sizes in games(given.chain):
            if given.only in name:
                measure_kind(report, sizes, has_growth, programs, pathlib.Path(folder), given)
    print(f"{report.passed} passed, {report.failed} failed")
    return 1 if report.failed else 0


if __name__ == "__main__":
    sys.exit(main())
