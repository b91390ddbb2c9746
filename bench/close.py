#!/usr/bin/env python3
"""Measures how long `xg_close` takes to a width, beside `solve`, `plus`, another program and a linear program, and
prints the tables of docs/closing.md.

All of it is one run on one machine, the calls one after the other. The games are those of games/, one-card poker with 8
and 64 cards, Leduc poker, liar's dice, goofspiel, a game of five streets and matrices. Widths are parts of the range of
player one's payoffs. Times are the processor's, of whole calls with all reading and writing, the best of N runs, fewer
where one takes over a second. The second table has the width that each has after the time that 1,000 rounds of `solve`
take: of `xg_close` with the most rounds whose call takes no longer, and of `plus` after 1,000 rounds of its own. Widths
of `solve` and `plus` are those with --every 10, after the rounds that first have the width.

OTHER are sources in C++ of a program with the words `--width PART -s SECONDS -q -c CERT FILE`, which g++ makes in a
folder that is removed. HiGHS is called where SciPy is there, as in Debian's python3 beside python3-scipy: `linprog`
alone, by both of its methods, of which the faster one counts; its width is that of its own plans, in doubles, which are
no certificate. The third table has no times: after how many rounds each first has a width, of `xg_close` those of both
lanes together, each as both players' learning once. A dash stands where nothing was there, or the width wasn't reached
in the seconds or the rounds. With --table one table alone is printed.
"""
import os
import pathlib
import re
import subprocess
import sys
import tempfile
import threading
from fractions import Fraction

sys.dont_write_bytecode = True
from reading import PROGRAM, ROOT  # noqa: E402

import certificate  # noqa: E402
import command_line  # noqa: E402
import efg  # noqa: E402
import linear_program  # noqa: E402
import sequence_form  # noqa: E402
from close_games import games  # noqa: E402
from closing import payoff_span  # noqa: E402

CLOSE = ROOT / "crates" / "xg_close" / "out" / "xg_close"
PARTS = (Fraction(1, 10**3), Fraction(1, 10**6), Fraction(1, 10**9))
LEAST_WIDTH, MOST_ROUNDS = f"1/{2**62}", {"solve": 65_536, "plus": 2_048}
PLAIN_ROUNDS, EVERY = 1_000, 10
LINE = re.compile(rb"xg_close: (\d+) rounds, width .*\n")
# What is asked: of the time beside the other program, and of the width beside that of `solve`.
MOST_RATIO, LEAST_GAIN, GAINS = Fraction(13, 10), 20, Fraction(9, 10)
# How many runs there are where one takes over a second.
FEW_RUNS = 2


class Ended:
    """What a call came to: its status, the processor's seconds, and what it wrote. It is ended after some seconds."""

    def __init__(self, words, seconds):
        process = subprocess.Popen(words, stdout=subprocess.PIPE, stderr=subprocess.PIPE)
        ends = threading.Timer(seconds, process.kill)
        ends.start()
        said = []
        reader = threading.Thread(target=lambda: said.append(process.stderr.read()))
        reader.start()
        self.out = process.stdout.read()
        reader.join()
        _, status, usage = os.wait4(process.pid, 0)
        ends.cancel()
        process.returncode = os.waitstatus_to_exitcode(status)
        self.status, self.seconds, self.said = process.returncode, usage.ru_utime + usage.ru_stime, said[0]


class Game:
    """A game in its file, and its numbers. The form is there while the first table is made."""

    def __init__(self, name, data, path):
        self.name, self.path = name, str(path)
        path.write_bytes(data)
        self.form = sequence_form.weigh(efg.read_game(data))
        self.nodes, self.span = len(self.form.game.nodes), payoff_span(self.form)


class Games:
    """The games that are asked for, each of which is made and read once."""

    def __init__(self, given, folder):
        self.given, self.folder, self.made = given, folder, None

    def poker(self, cards):
        return subprocess.run([self.given.solver, "gen", str(cards)], capture_output=True, check=True).stdout

    def __iter__(self):
        if self.made is not None:
            yield from self.made
            return
        self.made = []
        for name, data_of in games(self.poker):
            data = data_of() if self.given.only in name else b""
            if 0 < entries_of(data) <= self.given.most_nodes:
                self.made.append(Game(name, data, self.folder / f"{len(self.made)}.efg"))
                yield self.made[-1]
                self.made[-1].form = None


def entries_of(data):
    """How many nodes a file has in which each begins a line."""
    return sum(line[:2] in (b"c ", b"p ", b"t ") for line in data.splitlines())


class Bench:
    def __init__(self, given, other):
        self.given, self.other = given, other

    def best(self, words, is_enough):
        """The least of the processor's seconds of some calls, or None where one isn't enough."""
        times = []
        while len(times) < (self.given.runs if min(times, default=0) < 1 else FEW_RUNS):
            ended = Ended(words, self.given.seconds)
            if not is_enough(ended):
                return None
            times.append(ended.seconds)
        return min(times)

    def by_close(self, game, part):
        width = game.span * part
        asked = [f"--width={width}"] if width else []
        words = [self.given.close, game.path, *asked, "--rounds=4194304", "--quiet"]
        return self.best(words, lambda ended: ended.status == 0)

    def by_other(self, game, part):
        if not self.other:
            return None
        told = ["--width", repr(float(part)), "-s", str(self.given.seconds), "-q", "-c", os.devnull]
        wide = lambda ended: float(re.search(rb" END .* width (\S+) ", ended.out)[1])
        return self.best([self.other, *told, game.path], lambda ended: ended.status == 0 and wide(ended) <= part)

    def rounds_to(self, game, command, wanted):
        """The rounds after which `solve` or `plus` first has each of these widths, as far as the time goes."""
        found, rounds = {}, PLAIN_ROUNDS
        while True:
            ended = Ended(self.words_of(game, command, rounds), self.given.seconds)
            if ended.status != 0:
                return found
            text = certificate.read_text(ended.out)
            for row in text.trace:
                low, high = text.bracket_after(row)
                for it in wanted:
                    if high - low <= it:
                        found.setdefault(it, row[0])
            if len(found) == len(wanted) or rounds == MOST_ROUNDS[command] or ended.seconds > self.given.seconds / 8:
                return found
            rounds = min(4 * rounds, MOST_ROUNDS[command])

    def words_of(self, game, command, rounds):
        return [self.given.solver, command, game.path, "--rounds", str(rounds), "--every", str(EVERY)]

    def by_rounds(self, game, command, width):
        rounds = self.rounds_to(game, command, [width]).get(width)
        if rounds is None:
            return None
        return self.best(self.words_of(game, command, rounds), lambda ended: ended.status == 0)

    def rounds_of_close(self, game, part):
        """The rounds after which `xg_close` has a width, 0 where it plays none, or None."""
        width = game.span * part
        asked = [f"--width={width}"] if width else []
        ended = Ended([self.given.close, game.path, *asked, "--rounds=4194304"], self.given.seconds)
        rounds = [int(it) for it in LINE.findall(ended.said)]
        return max(rounds, default=0) if ended.status == 0 else None

    def by_program(self, game):
        """The seconds and the width of the faster method of the linear program."""
        if not linear_program.is_there():
            return None, None
        program = linear_program.Program(game.form)
        found = [program.solved(method, self.given.seconds) for method in linear_program.METHODS]
        return min((it for it in found if it[1] is not None), default=(None, None))

    def in_plain_time(self, game):
        """The time of the plain rounds, and the widths after it of `solve`, `plus` and `xg_close`."""
        words = {it: self.words_of(game, it, PLAIN_ROUNDS) for it in MOST_ROUNDS}
        plain = self.best(words["solve"], lambda ended: ended.status == 0)
        if plain is None:
            return None, [None, None, None]
        widths = [width_of(Ended(words[it], self.given.seconds)) for it in MOST_ROUNDS]
        return plain, [*widths, self.closed_within(game, plain)]

    def closed_within(self, game, most):
        """The width of `xg_close` with the most rounds, of those after which it evaluates, that take no longer."""
        asked = [self.given.close, game.path, f"--width={LEAST_WIDTH}", "--rounds"]
        said = Ended([*asked, "4194304"], min(self.given.seconds, 4 * most + 1)).said
        rounds, low = [line[1].decode() for line in LINE.finditer(said)], -1
        high = len(rounds)
        while low + 1 < high:
            middle = (low + high) // 2
            took = self.best([*asked, rounds[middle], "--quiet"], lambda ended: ended.status in (0, 6))
            low, high = (middle, high) if took is not None and took <= most else (low, middle)
        return width_of(Ended([*asked, rounds[low], "--quiet"], self.given.seconds)) if low >= 0 else None


def width_of(ended):
    if ended.status not in (0, 6):
        return None
    text = certificate.read_text(ended.out)
    return text.high - text.low


def told(number, form="{:.2g}"):
    return "-" if number is None else form.format(float(number))


def seconds_of(number):
    return told(number, "{:.3f}" if number is None or number < 10 else "{:.0f}")


def row(*cells):
    print("| " + " | ".join(cells) + " |", flush=True)


def head(*cells):
    row(*cells)
    print("|---" * len(cells) + "|", flush=True)


def times(bench, chosen):
    """The first table: seconds to widths. Answers the ratios beside the other program."""
    heads = [cell for part in PARTS for cell in (f"`xg_close`, {told(part, '{:.0e}')}", "beside C++")]
    head("Game", "Nodes", *heads, "`solve`, 1e-03", "`plus`, 1e-03", "HiGHS", "its width")
    ratios = []
    for game in chosen:
        cells = []
        for part in PARTS:
            ours, other = bench.by_close(game, part), bench.by_other(game, part)
            ratio = ours / max(other, 1e-4) if ours is not None and other is not None else None
            ratios += [ratio] if other is not None else []
            cells += [seconds_of(ours), told(ratio)]
        plain = [seconds_of(bench.by_rounds(game, it, game.span * PARTS[0])) for it in MOST_ROUNDS]
        took, width = bench.by_program(game)
        part = None if width is None else max(0, width) / float(game.span or 1)
        row(game.name, f"{game.nodes:,}", *cells, *plain, seconds_of(took), told(part))
    return ratios


def widths(bench, chosen):
    """The second table: widths after the time of plain rounds. Answers by how much ours is narrower than that of
    `solve`."""
    head("Game", "Milliseconds", "`solve`", "`plus`", "`xg_close`", "`solve` over `xg_close`")
    gains = []
    for game in chosen:
        plain, found = bench.in_plain_time(game)
        parts = [None if it is None else it / (game.span or 1) for it in found]
        solve, ours = parts[0], parts[2]
        gain = None if None in (solve, ours) else solve / ours if ours else float("inf")
        gains += [gain] if solve else []
        row(game.name, told(plain and 1000 * plain, "{:.1f}"), *map(told, parts), told(gain if solve else None))
    return gains


def rounds(bench, chosen):
    """The third table: rounds to widths."""
    ours = [f"`xg_close`, {told(part, '{:.0e}')}" for part in PARTS]
    head("Game", "Nodes", *ours, "`solve`, 1e-03", "`plus`, 1e-03")
    for game in chosen:
        width = game.span * PARTS[0]
        found = [bench.rounds_of_close(game, part) for part in PARTS]
        found += [bench.rounds_to(game, it, [width]).get(width) for it in MOST_ROUNDS]
        row(game.name, f"{game.nodes:,}", *("-" if it is None else f"{it:,}" for it in found))


def judge(ratios, gains):
    """Compares what was measured with what is asked; the status."""
    slow = [it for it in ratios if it is None or it > MOST_RATIO]
    few = [it for it in gains if it is None or it < LEAST_GAIN]
    wider = [it for it in gains if it is None or it < 1]
    print(f"at most {float(MOST_RATIO)} times the other's time: {len(ratios) - len(slow)} of {len(ratios)}")
    print(f"at most 1/{LEAST_GAIN} of the width of solve: {len(gains) - len(few)} of {len(gains)}; wider: {len(wider)}")
    return 1 if slow or wider or len(gains) - len(few) < GAINS * len(gains) else 0


def built(sources, folder):
    program = folder / "other"
    subprocess.run(["g++", "-O2", "-std=c++20", "-o", program, *sources], check=True)
    return str(program)


def options():
    parser = command_line.parser(__doc__)
    parser.add_argument("other", metavar="OTHER", nargs="*", help="the sources of another program, in C++")
    parser.add_argument("--close", metavar="FILE", default=str(CLOSE), help="xg_close, the built one else")
    parser.add_argument("--solver", metavar="FILE", default=str(PROGRAM), help="xg_solve, the built one else")
    parser.add_argument("--runs", metavar="N", type=int, default=5, help="so many runs of each call (5)")
    parser.add_argument("--seconds", metavar="S", type=float, default=60, help="the most seconds of a call (60)")
    parser.add_argument("--only", metavar="WORD", default="", help="only the games whose name has this")
    parser.add_argument("--table", choices=("times", "widths", "rounds"), help="print this table alone")
    parser.add_argument("--most-nodes", metavar="N", type=int, default=1_048_576, help="no games of more nodes")
    return parser.parse_intermixed_args()


def main():
    given = options()
    given.close, given.solver = os.path.abspath(given.close), os.path.abspath(given.solver)
    with tempfile.TemporaryDirectory() as name:
        folder = pathlib.Path(name)
        bench = Bench(given, built(given.other, folder) if given.other else None)
        chosen, found = Games(given, folder), {}
        for table in (times, widths, rounds):
            if given.table in (None, table.__name__):
                found[table] = table(bench, chosen)
                print()
        return judge(found[times], found[widths]) if given.table is None else 0


if __name__ == "__main__":
    sys.exit(main())
