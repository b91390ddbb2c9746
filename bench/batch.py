#!/usr/bin/env python3
"""Measures `batch` on eight files of equal work, solved four at a time, against as many calls of `solve`.

Usage: python3 bench/batch.py [PROGRAM] [--runs N] [--seconds S]

PROGRAM is the built one where nothing else is given. Of two games, poker with one card each and one with many sets,
eight files are solved in one call of `batch` with four workers; in turn, by eight calls of `solve` with one worker,
four at a time; and by these calls one after the other. There are so many rounds that one call of `solve` takes S
seconds (0.6 where nothing else is said). What is compared with the bound is the median of the ratios of N turns (9),
each of times that pass, from the start of the first process to the end of the last. How much faster `batch` is than the
calls one after the other has no bound: it is what the processors are worth, four times where four are idle. So run it
with nothing else at work.

The memory of `batch`, the greatest that was resident, is to be at most that of the eight calls together.

A line says what was measured, the measure and its bound; the last line counts what passed and failed, and the status is
1 where something failed.
"""
import concurrent.futures
import os
import pathlib
import statistics
import subprocess
import sys
import tempfile
import time

from reading import PROGRAM, run
from solving import MOST_ROUNDS, Failed, Report, poker, streets

import command_line

FILES, AT_A_TIME = 8, 4
TIME_RATIO, MEMORY_RATIO = 1.1, 1.0
GAMES = [("poker, 64 cards", lambda: poker(64)), ("four streets, 4 cards", lambda: streets(4, 4))]


def done(words):
    """A call that has to succeed; what it writes is dropped."""
    ended = subprocess.run(words, stdout=subprocess.DEVNULL, stderr=subprocess.PIPE)
    if ended.returncode != 0:
        raise Failed(f"{' '.join(words[:2])} ended with status {ended.returncode}: {ended.stderr.decode().strip()}")


def timed(act):
    begun = time.perf_counter()
    act()
    return time.perf_counter() - begun


class Calls:
    """The calls on files with so many rounds."""

    def __init__(self, program, files, rounds):
        asked = ["--rounds", str(rounds), "--workers"]
        self.batch = [program, "batch", *files, *asked, str(AT_A_TIME)]
        self.alone = [[program, "solve", file, *asked, "1"] for file in files]

    def at_once(self):
        return timed(lambda: done(self.batch))

    def by_processes(self, at_a_time):
        with concurrent.futures.ThreadPoolExecutor(at_a_time) as pool:
            return timed(lambda: list(pool.map(done, self.alone)))

    def same_text(self):
        """A batch has for each file what `solve` writes of it."""
        parts = [subprocess.run(words, capture_output=True).stdout for words in self.alone]
        whole = subprocess.run(self.batch, capture_output=True).stdout
        return whole == b"".join(b"file %d\n" % number + part for number, part in enumerate(parts, 1))


def choose_rounds(program, file, seconds):
    """So many rounds that one call takes the wanted time."""
    rounds, took = 1, timed(lambda: done(Calls(program, [file], 1).alone[0]))
    while took < seconds and rounds < MOST_ROUNDS:
        rounds = min(MOST_ROUNDS, int(rounds * min(8.0, max(2.0, 1.1 * seconds / took))))
        took = timed(lambda: done(Calls(program, [file], rounds).alone[0]))
    return rounds


def measure(report, name, writer, folder, given):
    files = [str(folder / f"game_{number}.efg") for number in range(FILES)]
    for file in files:
        pathlib.Path(file).write_text("\n".join(writer.lines) + "\n")
    program = os.path.abspath(given.program)
    rounds = choose_rounds(program, files[0], given.seconds)
    calls, turns = Calls(program, files, rounds), []
    for turn in range(given.runs):
        ways = [calls.at_once, lambda: calls.by_processes(AT_A_TIME), lambda: calls.by_processes(1)]
        order = range(3) if turn % 2 else reversed(range(3))
        told = {way: ways[way]() for way in order}
        turns.append([told[way] for way in range(3)])
    best = [min(times) for times in zip(*turns)]
    report.say(
        f"{name}, {writer.leaves} leaves, {rounds} rounds: {best[0]:.2f} s as a batch, {best[1]:.2f} s by eight calls,"
        f" four at a time, {best[2]:.2f} s one after the other"
    )
    ratio = statistics.median(ours / theirs for ours, theirs, _ in turns)
    report.judge(f"{name}: a batch over eight calls, four at a time", ratio, TIME_RATIO, "times")
    gain = statistics.median(alone / ours for ours, _, alone in turns)
    report.say(f"{name}: eight calls one after the other take {gain:.2f} times as long as the batch")
    memory, together = run(calls.batch)[1], sum(run(words)[1] for words in calls.alone)
    report.say(f"{name}: {memory / 2**20:.1f} MB as a batch, {together / 2**20:.1f} MB by eight calls together")
    report.judge(f"{name}: memory of a batch over that of its calls", memory / together, MEMORY_RATIO, "times")
    report.that(f"{name}: the parts are the texts of the calls", calls.same_text())


def main():
    parser = command_line.parser(__doc__)
    parser.add_argument("program", metavar="PROGRAM", nargs="?", default=str(PROGRAM))
    parser.add_argument("--runs", metavar="N", type=int, default=9)
    parser.add_argument("--seconds", metavar="S", type=float, default=0.6)
    given = parser.parse_args()
    report = Report()
    for name, make in GAMES:
        with tempfile.TemporaryDirectory() as folder:
            try:
                measure(report, name, make(), pathlib.Path(folder), given)
            except Failed as why:
                report.that(f"{name}: {why}", False)
    print(f"{report.passed} passed, {report.failed} failed")
    return 1 if report.failed else 0


if __name__ == "__main__":
    sys.exit(main())
