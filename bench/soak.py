#!/usr/bin/env python3
"""Runs the program on games, texts and words that are made from a seed, for a time that is given, and tests what must
hold of every answer whatever the input was. No other solver is asked.

Usage: python3 bench/soak.py [PROGRAM] [--close FILE] [--seconds N] [--seed N]

PROGRAM is the built one where nothing else is given, FILE is run as `xg_close`, N is 60 seconds, and the seed is 1.
Where no `xg_close` is there, its cases are left out. Half of the inputs are valid ones; the others have a byte, a word
or a line that is changed, cut away or there twice. Each case is made from the seed and its number alone.

What is tested: the status, standard output and standard error agree with one another; a text of `solve` or `drill` is
read by tools/certificate.py, comes back byte for byte, and `check` accepts it in both versions with its bracket; a
changed text is refused, or its bracket meets the bracket of the text that it was made from; `upgrade` is refused as
`check` is, or writes version 2; `plus` is refused as `solve` is, or its text, which `check` refuses, has a bracket that
meets that of `solve`; no bracket is wider than tools/promise says of its game; a batch has for each file what `solve`
says of it; more workers print the same; `info` prints the numbers of the text; what `gen` writes is solved as `drill`
does; `xg_close` refuses what `info` refuses, with its line, or its text is accepted in both versions, as narrow as is
asked or not by its status, with true lines of progress, and its bracket meets that of `solve`; no call takes more
memory or time than its bytes allow.

A finding is shown with its case, and its files are kept. The last line counts what passed and failed, and the status is
1 where something failed.
"""
import collections
import itertools
import os
import pathlib
import random
import re
import shutil
import subprocess
import sys
import tempfile
import time

sys.dont_write_bytecode = True

from reading import PROGRAM, ROOT  # noqa: E402

from checks import NO_MEMORY, READ_FAULT, USAGE, WRITE_FAULT  # noqa: E402
from close_calls import ENOUGH, USUAL_PART, WIDE, Answer as ClosedAnswer, Closing, payoff_span  # noqa: E402
from close_calls import PROGRAM as CLOSE  # noqa: E402
from small_games import SmallGame  # noqa: E402
from tool_calls import in_version  # noqa: E402
import certificate  # noqa: E402
import command_line  # noqa: E402
import efg  # noqa: E402
from promises import promise  # noqa: E402

REFUSED = re.compile(rb"refused ([1-9]|1[0-9]|2[1-9]|3[0-3]) [A-Z][A-Za-z]+( [a-z0-9A-Z ]+)?\n")
ACCEPTED = re.compile(rb"accepted (no bounds|-?\d+(?:/\d+)? -?\d+(?:/\d+)?)\n")
LINES = {2: USAGE, 3: READ_FAULT, 4: WRITE_FAULT, 5: NO_MEMORY}
# What a call may take: so many bytes and seconds, and so many for each byte that it reads and writes, in each round.
MEMORY, MEMORY_OF_A_BYTE = 64 << 20, 2_000
SECONDS, SECONDS_OF_A_BYTE = 5.0, 2e-5

Answer = collections.namedtuple("Answer", "status out err memory seconds")


class Soak:
    def __init__(self, program, close, folder):
        self.program, self.close, self.folder = program, close, folder
        self.case, self.passed, self.findings = None, 0, []
        self.statuses = collections.Counter()

    def that(self, what, holds, told):
        self.passed += bool(holds)
        if not holds:
            self.findings.append(f"case {self.case}: {what}: {str(told)[:300]}")
            print(self.findings[-1], flush=True)

    def call(self, *words, read=()):
        """The answer to a call, of which all is tested that holds of every one. `read` has the bytes of its files."""
        answer = self.answer(self.program, words, read)
        self.agrees(words, answer)
        return answer

    def closed(self, *words, read=()):
        """The same of `xg_close`."""
        answer = self.answer(self.close, words, read)
        self.agrees_closing(words, answer)
        return answer

    def answer(self, program, words, read):
        out, err = self.folder / "out", self.folder / "err"
        begun = time.monotonic()
        with open(out, "wb") as written, open(err, "wb") as said:
            process = subprocess.Popen([program, *words], stdin=subprocess.DEVNULL, stdout=written, stderr=said)
            _, ended, usage = os.wait4(process.pid, 0)
        process.returncode = os.waitstatus_to_exitcode(ended)
        answer = Answer(
            process.returncode, out.read_bytes(), err.read_bytes(), usage.ru_maxrss << 10, time.monotonic() - begun
        )
        self.statuses[answer.status] += 1
        self.within(words, answer, sum(map(len, read)) + len(answer.out))
        return answer

    def agrees(self, words, answer):
        if answer.status == 0:
            holds = answer.out.endswith(b"\n") and answer.err == b""
        elif answer.status == 1:
            holds = answer.out == b"" and REFUSED.fullmatch(answer.err)
        else:
            holds = answer.out == b"" and answer.err == LINES.get(answer.status)
        self.that(f"status, output and error of {words}", holds, answer)

    def agrees_closing(self, words, answer):
        if answer.status in (ENOUGH, WIDE):
            is_help = answer.status == ENOUGH and answer.err == b"" and not answer.out.startswith(b"XGCERT")
            holds = is_help or answer.out.endswith(b"\nend\n")
        elif answer.status == 2:
            holds = answer.out == b"" and (answer.err == b"" or answer.err.startswith(b"error: "))
        elif answer.status == 1:
            holds = answer.out == b"" and REFUSED.fullmatch(answer.err)
        else:
            holds = answer.out == b"" and answer.err == LINES.get(answer.status)
        self.that(f"status, output and error of xg_close {words}", holds, answer)

    def within(self, words, answer, count):
        self.that(f"memory of {words}", answer.memory <= MEMORY + MEMORY_OF_A_BYTE * count, answer.memory)
        self.that(f"time of {words}", answer.seconds <= SECONDS + SECONDS_OF_A_BYTE * count, answer.seconds)

    def file(self, name, data):
        path = self.folder / name
        path.write_bytes(data)
        return str(path)


def changed(chance, data):
    """The bytes with one change: a byte, a word or a line that is another one, is cut away, is there twice, or all from
    there on cut."""
    parts = {
        "byte": lambda: [data[i : i + 1] for i in range(len(data))],
        "word": lambda: re.findall(rb"\s+|[^\s]+", data),
        "line": lambda: data.splitlines(keepends=True),
    }[chance.choice(("byte", "word", "word", "line"))]()
    if not parts:
        return b"x"
    at, other = chance.randrange(len(parts)), chance.choice(parts)
    number = re.fullmatch(rb"-?\d+", parts[at])
    if number and chance.random() < 0.6:
        other = str(int(number[0]) + chance.choice((-2, -1, 1, 2, 2**62, -(2**62)))).encode()
    kept = {
        "other": [other],
        "byte": [bytes([chance.randrange(256)])],
        "away": [],
        "twice": [parts[at], parts[at]],
    }
    how = chance.choice((*kept, "other", "cut"))
    return b"".join(parts[:at] if how == "cut" else [*parts[:at], *kept[how], *parts[at + 1 :]])


def options(chance, scales=(1, 2, 3, 1_000, 65_537, 1_048_575, 1_048_576)):
    rounds = chance.choice((0, 1, 1, 2, 3, 7, 20))
    words = ["--rounds", str(rounds)]
    if chance.random() < 0.6:
        words += ["--every", str(chance.choice((1, 2, 3, 65_536)))]
    if chance.random() < 0.5:
        words += ["--scale", str(chance.choice(scales))]
    return words


def bracket_of(soak, data):
    """The bracket of a text, None where it has none; it is read, and comes back as it was."""
    try:
        text = certificate.read_text(data)
    except certificate.Fault as fault:
        soak.that("the text is read", False, fault)
        return None
    soak.that("the text comes back", certificate.text_of(text) == data, data)
    return None if text.low is None else (text.low, text.high)


def told_bracket(out):
    said = ACCEPTED.fullmatch(out)[1]
    return None if said == b"no bounds" else tuple(map(certificate.Fraction, said.decode().split()))


def keeps_promise(soak, data, out):
    """The text's bracket is no wider than what is promised of its game."""
    text = certificate.read_text(out)
    if text.rounds:
        promised = promise(efg.read_game(data), text.scale, text.form == certificate.FORM_OF_PLUS).after(text.rounds)
        soak.that("the bracket is within its promise", text.high - text.low <= promised, (promised, out))


def is_accepted(soak, file, data, text, bracket):
    """`check` accepts the text in both versions with its bracket."""
    for written in (text, in_version(1, text)):
        answer = checked(soak, file, data, written, text)
        soak.that("the text is accepted", answer.status == 0 and ACCEPTED.fullmatch(answer.out), answer)
        if answer.status == 0:
            soak.that("with its bracket", told_bracket(answer.out) == bracket, answer.out)


def checked(soak, file, data, text, upgraded=None):
    """What `check` says of a text. `upgrade` is refused alike, or writes version 2 of it, which is accepted alike."""
    told, again = (soak.call(it, file, soak.file("text", text), read=(data, text)) for it in ("check", "upgrade"))
    if told.status:
        soak.that("upgrade is refused as check is", (again.status, again.err) == (told.status, told.err), (told, again))
    else:
        soak.that("the upgrade", again.out == (upgraded or in_version(2, text)), (text, again))
        other = soak.call("check", file, soak.file("upgraded", again.out), read=(data, again.out))
        soak.that("the upgrade is accepted alike", other[:3] == told[:3], (told, other))
    return told


def changed_texts(soak, chance, file, data, text, bracket):
    """Changed texts are refused, or they have bounds that hold too."""
    for _ in range(6):
        other = changed(chance, in_version(chance.choice((1, 2)), text))
        answer = checked(soak, file, data, other)
        if answer.status == 0:
            told = told_bracket(answer.out)
            holds = (told is None) == (b"bracket" not in other) and (
                told is None or bracket is None or (told[0] <= bracket[1] and bracket[0] <= told[1])
            )
            soak.that("an accepted change has bounds that meet the text's", holds, (other, answer.out))
        else:
            soak.that("a changed text is refused", answer.status == 1, answer)


def numbers_of(text):
    """What `info` prints of a text's numbers: the lines that version 1 has of them."""
    return b"".join(in_version(1, text).splitlines(keepends=True)[1:6])


def workers(chance):
    """A number of workers, whose rows are locked or are words."""
    return ["--workers", str(chance.choice((1, 2, 3, 7, 64))), "--atomic", chance.choice("01")]


def solved(soak, chance, file, data):
    """All that must hold of a game that is solved, or refused."""
    words = options(chance)
    answer = soak.call("solve", file, *words, read=(data,))
    told = soak.call("info", file, read=(data,))
    soak.that("info takes what solve takes", told.status == answer.status and told.err == answer.err, (told, answer))
    others = soak.call("solve", file, *words, *workers(chance), read=(data,))
    soak.that("more workers print the same", others[:3] == answer[:3], (words, others.out))
    if answer.status == 0:
        soak.that("info prints the numbers", told.out.endswith(numbers_of(answer.out)), told.out)
        bracket = bracket_of(soak, answer.out)
        keeps_promise(soak, data, answer.out)
        is_accepted(soak, file, data, answer.out, bracket)
        changed_texts(soak, chance, file, data, answer.out, bracket)
    by_plus(soak, chance, file, data, answer)


def by_plus(soak, chance, file, data, solved):
    """What must hold of rounds of CFR+ on a game, beside the answer of `solve`."""
    words = options(chance, (1, 2, 3, 1_000, 16_383, 16_384))
    answer = soak.call("plus", file, *words, read=(data,))
    others = soak.call("plus", file, *words, *workers(chance), read=(data,))
    soak.that("more workers print the same of CFR+", others[:3] == answer[:3], (words, others.out))
    soak.that("plus takes what solve takes", (answer.status, answer.err) == (solved.status, solved.err), answer)
    if answer.status == 0:
        soak.that("the first line of CFR+", answer.out.startswith(b"XGPLUS 1\n"), answer.out)
        refused = soak.call("check", file, soak.file("text", answer.out), read=(data, answer.out))
        keeps_promise(soak, data, answer.out)
        soak.that("it is no certificate", refused.err == b"refused 22 CertSyntax at 0\n", refused)
        one, two = bracket_of(soak, answer.out), bracket_of(soak, solved.out)
        holds = None in (one, two) or (one[0] <= two[1] and two[0] <= one[1])
        soak.that("both brackets meet", holds, (answer.out, solved.out))


def batch_case(soak, chance):
    """A batch of small games, valid or changed: each part is what `solve` says of its file alone."""
    files, words, wanted, read = [], options(chance), b"", []
    for number in range(1, chance.choice((1, 2, 3, 16)) + 1):
        data = SmallGame(chance.randrange(1 << 40)).data()
        for _ in range(chance.choice((0, 0, 1))):
            data = changed(chance, data)
        files.append(soak.file(f"game_{number}.efg", data))
        read.append(data)
        answer = soak.call("solve", files[-1], *words, read=(data,))
        wanted += b"file %d\n" % number + (answer.out or answer.err)
    for given in ([], ["--workers", str(chance.choice((1, 2, 3, 64)))]):
        told = soak.call("batch", *files, *words, *given, read=read)
        soak.that("a batch has the parts of its files", told[:3] == (0, wanted, b""), (words, told))


def game_case(soak, chance):
    """A small game, valid or changed."""
    data = SmallGame(chance.randrange(1 << 40)).data()
    for _ in range(chance.choice((0, 0, 1, 1, 2))):
        data = changed(chance, data)
    solved(soak, chance, soak.file("game.efg", data), data)


def stored_case(soak, chance):
    """A game of games/, valid or changed."""
    data = chance.choice(sorted((ROOT / "games").glob("*.efg"))).read_bytes()
    if chance.random() < 0.7:
        data = changed(chance, data)
    solved(soak, chance, soak.file("game.efg", data), data)


def poker_case(soak, chance):
    """`drill` prints what `solve` prints of the game that `gen` writes."""
    cards, words = str(chance.choice((2, 3, 3, 4, 5, 9))), options(chance)
    written = soak.call("gen", cards)
    answer = soak.call("drill", cards, *words)
    file = soak.file("game.efg", written.out)
    again = soak.call("solve", file, *words, read=(written.out,))
    soak.that("gen and drill have a game", written.status == answer.status == 0, (written, answer))
    soak.that("drill is solve of what gen writes", again[:3] == answer[:3], (cards, words))
    keeps_promise(soak, written.out, answer.out)
    is_accepted(soak, file, written.out, answer.out, bracket_of(soak, answer.out))


def words_case(soak, chance):
    """Words of a command, with one of them another, away or twice."""
    game = str(ROOT / "games" / "kuhn_poker.efg")
    words = chance.choice(
        (
            ["solve", game, *options(chance)],
            ["check", game, game],
            ["upgrade", game, game],
            ["info", game],
            ["gen", "2"],
            ["drill", "2", *options(chance)],
            ["plus", game, *options(chance, (1, 16_384))],
            ["batch", game, game, *options(chance)],
        )
    )
    at = chance.randrange(len(words))
    options_alone = ("--rounds", "--rounds=1", "--every=", "--workers=00", "--atomic=2")
    strange = chance.choice(("", "-", "--", *options_alone, "0", "65", "-1", "é", "plus"))
    words[at : at + 1] = chance.choice(([], [strange], [words[at], strange], [words[at], words[at]]))
    answer = soak.call(*words, read=(pathlib.Path(game).read_bytes() * 2,))
    soak.that("words have a status", answer.status in (0, 1, 2, 3), answer)


def asked_of_close(chance):
    """A width, or None, and the words of a call beside the file."""
    parts = (None, "1", "1/3", "0.01", "1e-6", f"1/{2**62}", f"{chance.randrange(1, 10**6)}/{10**9}")
    width, rounds = chance.choice(parts), chance.choice((1, 2, 9, 10, 11, 30, 300))
    return width, rounds, ([] if width is None else ["--width", width]) + [f"--rounds={rounds}"]


def close_case(soak, chance):
    """A small game or one of games/, valid or changed, whose bracket is closed to a width."""
    stored = sorted((ROOT / "games").glob("*.efg"))
    data = chance.choice(stored).read_bytes() if chance.random() < 0.3 else SmallGame(chance.randrange(1 << 40)).data()
    for _ in range(chance.choice((0, 0, 1))):
        data = changed(chance, data)
    file = soak.file("game.efg", data)
    width, rounds, words = asked_of_close(chance)
    told = soak.closed(file, *words, read=(data,))
    quiet = soak.closed("--quiet", *words, file, read=(data,))
    soak.that("the same without progress", (quiet.status, quiet.out) == (told.status, told.out), (told, quiet))
    info = soak.call("info", file, read=(data,))
    if told.status not in (ENOUGH, WIDE):
        soak.that("xg_close is refused as info is", told[:3] == quiet[:3] == info[:3], (told, quiet, info))
        return
    soak.that("xg_close takes what info takes", info.status == 0 and quiet.err == b"", (info, quiet.err))
    answer, closing = ClosedAnswer(told[:3]), Closing(soak, soak.folder)
    wanted = payoff_span(data) / USUAL_PART if width is None else certificate.Fraction(width)
    closing.narrow("xg_close", answer, wanted)
    closing.laid_out("xg_close", answer)
    closing.progress("xg_close", answer, wanted, rounds, is_given=width is not None)
    closed_bracket(soak, chance, file, data, told.out)


def closed_bracket(soak, chance, file, data, text):
    """The text of `xg_close` is accepted, and meets the bracket of plain rounds."""
    bracket = bracket_of(soak, text)
    is_accepted(soak, file, data, text, bracket)
    changed_texts(soak, chance, file, data, text, bracket)
    solved = soak.call("solve", file, "--rounds=20", "--every=3", read=(data,))
    low, high = bracket_of(soak, solved.out)
    soak.that("both brackets meet", bracket[0] <= high and low <= bracket[1], (text, solved.out))


def close_words_case(soak, chance):
    """Words of `xg_close`, with one of them another, away or twice."""
    game = str(ROOT / "games" / "kuhn_poker.efg")
    words = [game, *asked_of_close(chance)[2], *chance.choice(([], ["--quiet"]))]
    at = chance.randrange(len(words))
    options_alone = ("--rounds", "--rounds=x", "--width=", "--width=0", "--quiet=1", "--help", "--version", "--rond=5")
    strange = chance.choice(("", "-", "--", *options_alone, "0", "-1", "é", "solve"))
    words[at : at + 1] = chance.choice(([], [strange], [words[at], strange], [words[at], words[at]]))
    answer = soak.closed(*words, read=(pathlib.Path(game).read_bytes(),))
    soak.that("words of xg_close have a status", answer.status in (0, 1, 2, 3, 6), answer)


CASES = (game_case, game_case, game_case, stored_case, poker_case, batch_case, words_case)
CLOSE_CASES = (close_case, close_case, close_words_case)


def keep(folder, number):
    """Keeps the files of a finding."""
    kept = pathlib.Path(tempfile.gettempdir()) / f"soak_case_{number}"
    shutil.copytree(folder, kept, dirs_exist_ok=True)
    print(f"its files are in {kept}", flush=True)


def run(soak, seed, seconds):
    """The number of cases that were run in this time."""
    ends = time.monotonic() + seconds
    cases = CASES + (CLOSE_CASES if os.access(soak.close, os.X_OK) else ())
    for number in itertools.count(1):
        if time.monotonic() >= ends:
            return number - 1
        soak.case, before = number, len(soak.findings)
        chance = random.Random(f"{seed} {number}")
        chance.choice(cases)(soak, chance)
        if len(soak.findings) > before:
            keep(soak.folder, number)


def main():
    parser = command_line.parser(__doc__)
    parser.add_argument("program", metavar="PROGRAM", nargs="?", default=str(PROGRAM))
    parser.add_argument("--close", metavar="FILE", default=str(CLOSE))
    parser.add_argument("--seconds", metavar="N", type=int, default=60)
    parser.add_argument("--seed", metavar="N", type=int, default=1)
    given = parser.parse_args()
    with tempfile.TemporaryDirectory() as folder:
        soak = Soak(given.program, given.close, pathlib.Path(folder))
        cases = run(soak, given.seed, given.seconds)
    statuses = ", ".join(f"{count} of status {status}" for status, count in sorted(soak.statuses.items()))
    print(f"{cases} cases, calls: {statuses}")
    print(f"soak: {soak.passed} passed, {len(soak.findings)} failed")
    return 1 if soak.findings else 0


if __name__ == "__main__":
    sys.exit(main())
