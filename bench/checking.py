#!/usr/bin/env python3
"""Measures on the built program how certificates are checked and upgraded: time and memory as they and their games
grow.

Usage: python3 bench/checking.py [PROGRAM] [--runs N] [--work] [--only WORD] [--beside OTHER]

PROGRAM is the built one where nothing else is given. It solves games of several kinds, each from small to large, and
then checks what it wrote. Certificates that are made to hurt follow, each whole and at half its length. Each line says
what was measured, the measure and its bound; the last line counts what passed and failed, and the status is 1 where
something failed. Times are the best of N runs (5 where nothing else is said); with --work they are the processor's
times and not those that pass, which is right on a busy machine. Memory is the greatest that was resident; less than
the 8 MB of the process that starts the program can't be seen. Of each kind the largest certificate is also put into
version 1 and upgraded, in turn with checking it.

With OTHER, which takes the same words, each kind's largest certificate is also checked with it, in turn, and the ratio
of the times is printed, ours over the other's: it has no bound. Both are to print the same line.
"""
import os
import pathlib
import re
import resource
import subprocess
import sys
import tempfile

from reading import MOST_NODES, PROGRAM, file_of, run, wide
from solving import Report, poker, streets

import command_line

MOST_CERT_BYTES = 268_435_456
GROWTH, MEMORY, WORDS, UPGRADE = 2.3, 6.0, 10.0, 2.0
# Below this a time is that of the program's start.
SEEN = 0.02

PENNIES = b"""EFG 2 R "Pennies" { "A" "B" }
p "" 1 1 { "H" "T" } 0
p "" 2 1 { "h" "t" } 0
t "" 1 { 1, -1 }
t "" 2 { -1, 1 }
p "" 2 1 0
t "" 2
t "" 1
"""


def head(rounds, sets_one=1):
    """The head of that game's certificate, with these numbers in place of its own."""
    return (
        f"XGCERT 2\nnodes 7 leaves 4\nsets {sets_one} 1\nsequences 3 3\nunit 1\nmass 4\nsum 0\n"
        f"rounds {rounds} every 1 scale 1048576\n"
    ).encode()


def traced(rounds, lines):
    """A certificate that asks for so many rounds and begins with so many lines of its trace."""
    return head(rounds) + "".join(f"trace {k} 1 0 1 0\n" for k in range(1, lines + 1)).encode()


def weighed(length, numbers):
    """The first plan of a certificate of a million sets, so many bytes of lines with so many numbers each."""
    lines, left, number = [head(1, MOST_NODES) + b"trace 1 1 0 1 0\nplan 1 1048576\n"], length, 1
    while left > 0:
        lines.append(f"weights {number}".encode() + b" 0" * numbers + b"\n")
        left, number = left - len(lines[-1]), number + 1
    return b"".join(lines)


def hurtful():
    """Certificates that are made to hurt: what they are, how one is made at a part of its length, and the answer."""
    number = b"XGCERT 2\nnodes "
    one_line = head(1) + b"trace 1 1 0 1 0\nplan 1 1048576\nweights 1"
    late = len(one_line) + 2 * 1_024
    past = len(traced(65_536, 65_536))
    yield "268,435,456 bytes of one digit", lambda part: b"7" * int(MOST_CERT_BYTES * part), "25 CertShort"
    yield "268,435,456 line feeds", lambda part: b"\n" * int(MOST_CERT_BYTES * part), "22 CertSyntax at 0"
    yield "a million empty lines", lambda part: b"\n" * int(1_000_000 * part), "22 CertSyntax at 0"
    yield (
        "a number of 268 million digits",
        lambda part: number + b"7" * (int(MOST_CERT_BYTES * part) - 30) + b" leaves 4\n",
        f"23 CertNumber at {len(number)}",
    )
    yield (
        "a number of 268 million zeros",
        lambda part: number + b"0" * (int(MOST_CERT_BYTES * part) - 30) + b" leaves 4\n",
        f"23 CertNumber at {len(number)}",
    )
    yield "a line of 1,025 numbers", lambda part: one_line + b" 0" * 1_025 + b"\n", f"22 CertSyntax at {late}"
    yield (
        "a line of 134 million numbers",
        lambda part: (one_line + b" 0" * int(2**27 * part))[: int(MOST_CERT_BYTES * part)],
        f"22 CertSyntax at {late}",
    )
    yield "65,536 trace lines and no plan", lambda part: traced(int(65_536 * part), int(65_536 * part)), "25 CertShort"
    yield "800,000 trace lines", lambda part: traced(65_536, int(800_000 * part)), f"22 CertSyntax at {past}"
    yield "sets of 1,024 numbers, 128 MB", lambda part: weighed(2**27 * part, 1_024), "25 CertShort"
    yield "a million sets of one number", lambda part: weighed(16 * 2**20 * part, 1), "25 CertShort"
    yield "268,435,457 bytes", lambda part: b"\n" * (MOST_CERT_BYTES + 1), "21 CertLong"


def balanced(levels):
    """So many levels of moves, the players in turn: each node in a set of its own, with two actions."""
    lines, sets, leaves = [], [0, 0], 0

    def below(level):
        nonlocal leaves
        if level == levels:
            leaves += 1
            lines.append(f't "" {leaves} {{ {leaves % 9}, -{leaves % 9} }}')
            return
        player = level % 2
        sets[player] += 1
        lines.append(f'p "" {player + 1} {sets[player]} {{ "left" "right" }} 0')
        below(level + 1)
        below(level + 1)

    below(0)
    return file_of(lines)


def of_writer(writer):
    return ("\n".join(writer.lines) + "\n").encode()


def kinds():
    """The kinds of games and their rounds, each from small to large."""
    one = ["--rounds", "1"]
    few = ["--rounds", "3", "--every", "1"]
    nodes = [MOST_NODES // 8, MOST_NODES // 4, MOST_NODES // 2, MOST_NODES]
    yield "two actions a set", [(lambda n=n: balanced(n), few) for n in (16, 17, 18, 19)]
    yield "wide sets", [(lambda n=n: wide(n), one) for n in nodes]
    yield "poker", [(lambda n=n: of_writer(poker(n)), one) for n in (110, 156, 220, 317)]
    yield "streets", [(lambda n=n: of_writer(streets(n, 4)), few) for n in (8, 11, 15, 21)]
    lines = (8_192, 16_384, 32_768, 65_536)
    yield "a long trace", [(lambda: PENNIES, ["--rounds", str(n), "--every", "1"]) for n in lines]


def line_of(program, words):
    """What a call prints on either of its two ways out."""
    ended = subprocess.run([program, *words], capture_output=True)
    return (ended.stdout + ended.stderr).decode()


def measured(calls, given):
    """For each call the best time and the greatest memory, where the calls take turns."""
    times, memory = [None] * len(calls), [0] * len(calls)
    for _ in range(given.runs):
        for place, words in enumerate(calls):
            passed, resident, _, work = run(words)
            took = work if given.work else passed
            times[place] = took if times[place] is None else min(took, times[place])
            memory[place] = max(memory[place], resident)
    return times, memory


def first_version(text):
    """A text of a game whose payoffs add up to 0 in version 1, without reading its lines one by one."""
    return re.sub(rb"^(sum|second) .*\n", b"", text.replace(b"XGCERT 2", b"XGCERT 1", 1), flags=re.MULTILINE)


class Bench:
    def __init__(self, folder, given):
        self.folder, self.given, self.report = pathlib.Path(folder), given, Report()
        self.program = os.path.abspath(given.program)
        self.game, self.certificate = str(self.folder / "game.efg"), str(self.folder / "certificate")

    def size(self):
        return os.path.getsize(self.game) + os.path.getsize(self.certificate)

    def check(self):
        """The best time of a check and of counting the words of both files, and the check's memory."""
        files = [self.game, self.certificate]
        (ours, words), (memory, _) = measured([[self.program, "check", *files], ["wc", "-w", *files]], self.given)
        return ours, max(words, 0.001), memory

    def kind(self, name, sizes):
        before = None
        for make, rounds in sizes:
            pathlib.Path(self.game).write_bytes(make())
            with open(self.certificate, "wb") as out:
                subprocess.run([self.program, "solve", self.game, *rounds], stdout=out, check=True)
            line = line_of(self.program, ["check", self.game, self.certificate])
            took, words, memory = self.check()
            game, certificate = os.path.getsize(self.game), os.path.getsize(self.certificate)
            self.report.say(f"{name}, {game} and {certificate} bytes: {took:.3f} s, {memory} bytes of memory")
            self.report.that(f"{name}: {line.strip()}", line.startswith("accepted "))
            if before and before[1] > SEEN:
                growth = 2 * (took / before[1]) / (self.size() / before[0])
                self.report.judge(f"{name}: the time for twice the bytes", growth, GROWTH, "times")
            before = (self.size(), took)
        if memory > 16 * 2**20:
            self.report.judge(f"{name}: memory beside both files", memory / self.size(), MEMORY, "times")
        self.report.judge(f"{name}: {took:.3f} s against wc -w, {words:.3f} s", took / words, WORDS, "times")
        self.beside(name)
        self.upgrade(name)

    def upgrade(self, name):
        """Upgrades the certificate from version 1, in turn with checking it there."""
        file = pathlib.Path(self.certificate)
        text = file.read_bytes()
        file.write_bytes(first_version(text))
        words = ["upgrade", self.game, self.certificate]
        calls = [[self.program, *words], [self.program, "check", *words[1:]]]
        (ours, check), (memory, _) = measured(calls, self.given)
        written = subprocess.run([self.program, *words], capture_output=True).stdout
        self.report.that(f"{name}: the upgrade is the text of solve", written == text)
        self.report.say(f"{name}, upgraded: {ours:.3f} s, {memory} bytes of memory")
        if check > SEEN:
            self.report.judge(f"{name}: {ours:.3f} s against check, {check:.3f} s", ours / check, UPGRADE, "times")
        if memory > 16 * 2**20:
            self.report.judge(f"{name}: memory of upgrade beside both files", memory / self.size(), MEMORY, "times")

    def beside(self, name):
        if not self.given.beside:
            return
        words = ["check", self.game, self.certificate]
        programs = [self.program, os.path.abspath(self.given.beside)]
        (ours, other), (our_memory, other_memory) = measured([[it, *words] for it in programs], self.given)
        lines = [line_of(it, words) for it in programs]
        self.report.say(
            f"{name}, beside: {ours:.3f} s and {other:.3f} s, {ours / other:.2f} times the time;"
            f" {our_memory / 2**20:.1f} MB and {other_memory / 2**20:.1f} MB"
        )
        self.report.that(f"{name}: the lines are the same", lines[0] == lines[1])

    def hurt(self, name, make, answer):
        pathlib.Path(self.game).write_bytes(PENNIES)
        halves = []
        for part in (0.5, 1):
            pathlib.Path(self.certificate).write_bytes(make(part))
            halves.append((*self.check(), self.size()))
        line = line_of(self.program, ["check", self.game, self.certificate])
        self.report.that(f"{name}: {line.strip()}", line == f"refused {answer}\n")
        (half, _, _, less), (took, words, memory, size) = halves
        if half > SEEN and size > less:
            growth = 2 * (took / half) / (size / less)
            self.report.judge(f"{name}: the time for twice the bytes", growth, GROWTH, "times")
        if memory > 16 * 2**20:
            self.report.judge(f"{name}: memory beside both files", memory / size, MEMORY, "times")
        self.report.say(f"{name}, {size} bytes: {took:.3f} s, {took / words:.2f} times wc -w, {memory} bytes of memory")


def main():
    parser = command_line.parser(__doc__)
    parser.add_argument("program", metavar="PROGRAM", nargs="?", default=str(PROGRAM))
    parser.add_argument("--runs", metavar="N", type=int, default=5)
    parser.add_argument("--work", action="store_true")
    parser.add_argument("--only", metavar="WORD", default="", help="only those whose name has this")
    parser.add_argument("--beside", metavar="OTHER")
    given = parser.parse_args()
    os.environ["LC_ALL"] = "C"
    with tempfile.TemporaryDirectory() as folder:
        bench = Bench(folder, given)
        for name, sizes in kinds():
            if given.only in name:
                bench.kind(name, sizes)
        for name, make, answer in hurtful():
            if given.only in name:
                bench.hurt(name, make, answer)
    print(f"{bench.report.passed} passed, {bench.report.failed} failed")
    return 1 if bench.report.failed else 0


if __name__ == "__main__":
    resource.setrlimit(resource.RLIMIT_CORE, (0, 0))
    sys.exit(main())
