"""Calls of `xg_close`, and all that must hold of each answer: its text by both checkers, its width, and each line of
its progress."""
import re
from fractions import Fraction

from checks import built_program, call
from tool_calls import accepted, expect_both, tool

import certificate
import closing
import efg
import sequence_form

PROGRAM = built_program("xg_close")
WIDE, ENOUGH = 6, 0
MOST_ROUNDS, MOST_SCALE, ROOT_OF_PLANS = 65_536, 2**20, 2**36
USUAL_PART = 100_000
NUMBER = r"-?[0-9]+(?:\.[0-9]+|/[0-9]+)?"
LINE = re.compile(
    rf"xg_close: ([1-9][0-9]*) rounds, width ([0-9]+\.[0-9]+) of ({NUMBER}), low ({NUMBER}), high ({NUMBER})\n"
)
# So many digits of a width are said, behind so many places at the most.
DIGITS, PLACES = 3, 18
NEARLY = Fraction(1, 10**6)


def payoff_span(data):
    """The greatest payoff of player one at a leaf less the least."""
    return closing.payoff_span(sequence_form.weigh(efg.read_game(data)))


def rounded_up(value):
    """A width as a line says it: rounded up to so many digits, with one place at least."""
    places = 1
    while places < PLACES and value * 10**places < 10 ** (DIGITS - 1) and (value * 10**places).denominator > 1:
        places += 1
    units = -(-value * 10**places // 1)
    return f"{units // 10**places}.{units % 10**places:0{places}}"


class Answer:
    """What a call said, with its text where there is one."""

    def __init__(self, told):
        self.status, self.out, self.said = told
        self.text = certificate.read_text(self.out) if self.status in (ENOUGH, WIDE) else None

    def width(self):
        return self.text.high - self.text.low


class Closing:
    """Calls on a game file, and what must hold of every answer."""

    def __init__(self, checks, folder, program=PROGRAM):
        self.checks, self.program = checks, program
        self.game, self.certificate = folder / "game.efg", folder / "certificate"

    def call(self, words, **options):
        return call(words, "xg_close", self.program, **options)

    def rounds(self, what, data, width, rounds=MOST_ROUNDS, *words):
        """The answer for a game, which isn't refused. `width` is the number as a word, or nothing."""
        self.game.write_bytes(data)
        asked = [f"--width={width}"] if width else []
        told = self.call([str(self.game), *asked, "--rounds", str(rounds), *words])
        self.checks.that(f"{what}: the status", told[0] in (ENOUGH, WIDE), told)
        if told[0] not in (ENOUGH, WIDE):
            return None
        answer = Answer(told)
        wanted = Fraction(width) if width else payoff_span(data) / USUAL_PART
        self.narrow(what, answer, wanted)
        self.laid_out(what, answer)
        self.accepted(what, answer)
        if "--quiet" in words:
            self.checks.expect(f"{what}: nothing is said", (told[2],), b"")
        else:
            self.progress(what, answer, wanted, rounds, is_given=bool(width))
        return answer

    def narrow(self, what, answer, width):
        is_narrow = answer.width() <= width
        why = f"{answer.width()} of {width} at status {answer.status}"
        self.checks.that(f"{what}: the width", is_narrow == (answer.status == ENOUGH), why)

    def laid_out(self, what, answer):
        """The text is one of version 2 with one line of trace, and both plans have the greatest root."""
        text = answer.text
        (row,) = text.trace
        one, two = text.ends
        told = [text.form, text.rounds, text.every, text.scale, row, one.root, two.root]
        line = (MOST_ROUNDS, MOST_ROUNDS, one.total, MOST_ROUNDS, two.total)
        wanted = [certificate.FORM_OF_SOLVE, MOST_ROUNDS, MOST_ROUNDS, MOST_SCALE, line, ROOT_OF_PLANS, ROOT_OF_PLANS]
        self.checks.that(f"{what}: its lines", told == wanted, f"{told}")
        self.checks.that(f"{what}: read", certificate.text_of(text) == answer.out, "it comes back otherwise")

    def accepted(self, what, answer):
        """Both checkers accept the text with its bracket, and `upgrade` leaves it as it is."""
        self.certificate.write_bytes(answer.out)
        expect_both(self.checks, f"{what}: checked", self.game, self.certificate, accepted(answer.text))

    def progress(self, what, answer, width, rounds, is_given=True):
        """Each line is true of the bracket then, which never widens, and the last one is on the bracket that is
        printed. The width that is given is said exactly, and another one nearly."""
        said = answer.said.decode()
        lines = LINE.findall(said)
        whole = "".join(match[0] for match in LINE.finditer(said)) == said
        self.checks.that(f"{what}: lines of progress", whole, said[:300])
        played = [int(it[0]) for it in lines]
        rising = played == sorted(set(played)) and all(it <= rounds for it in played)
        self.checks.that(f"{what}: the rounds of its progress", rising, f"{played}")
        if answer.status == WIDE:
            self.checks.that(f"{what}: all rounds", played[-1:] == [rounds], f"{played[-1:]} of {rounds}")
        last = answer.text.low, answer.text.high
        brackets = [tuple(map(Fraction, line[3:])) for line in lines] + [last]
        self.checks.that(f"{what}: the last line", brackets[-2:] == [last] * len(brackets[-2:]), f"{brackets[-2:]}")
        for line, (low, high), (later_low, later_high) in zip(lines, brackets, brackets[1:]):
            closes = low <= later_low and later_high <= high and width < high - low or (low, high) == last
            asked = Fraction(line[2])
            is_asked = asked == width or not is_given and abs(asked - width) < width * NEARLY
            holds = line[1] == rounded_up(high - low) and is_asked
            self.checks.that(f"{what}: a line of progress", holds and closes, line)

    def certified(self, what, answer):
        """The tool makes the same certificate of the text's plans, byte for byte."""
        told = tool("certify", self.game, "--text", self.certificate)
        self.checks.that(f"{what}: certified", told[:2] == (0, answer.out), f"{told[0]} {told[2]}")
