"""Reads and writes the text that `solve` or `plus` prints: its head, the trace of the bracket, both plans, both
replies, the bracket and player two's bracket.

The form of each line is tested, and that there are as many lines as the head says. Whether the text is true isn't
looked at. What the first line says decides which lines follow: FORMS has who reads and who writes them.
"""
import re
from fractions import Fraction

import files

WHOLE = r"(?:0|-?[1-9][0-9]{0,39})"
COUNT = r"(?:0|[1-9][0-9]{0,39})"
FRACTION = rf"{WHOLE}(?:/[1-9][0-9]{{0,39}})?"


class Fault(files.Fault):
    """Why a text can't be read."""


class End:
    """One end of the bracket: a plan with its root and the weights of each set, and the reply to it with its total and,
    for each set, its value and its choice."""

    def __init__(self, root, weights, total, replies):
        self.root, self.weights, self.total, self.replies = root, weights, total, replies


class Text:
    """A text. `form` is its first line, and `sum` what each leaf pays both players together. `ends` has the plan of
    player one and of player two, each with the other's reply; without rounds it is None, as are `low` and `high`.
    `second` is the bracket in player two's payoff, None where the text has no line of it."""

    def __init__(self, form):
        self.form = form
        self.nodes = self.leaves = self.sets = self.sequences = self.unit = self.sum = self.mass = None
        self.rounds = self.every = self.scale = None
        self.trace, self.ends, self.low, self.high, self.second = [], None, None, None, None

    def is_certificate(self):
        """Whether `check` may accept it: the text of rounds of CFR+ it never does."""
        return self.form != FORM_OF_PLUS

    def weight(self, played):
        """What so many rounds weigh together in the sums of plans: a round of CFR+ weighs its number, others 1."""
        return played if self.is_certificate() else played * (played + 1) // 2

    def bracket_after(self, row):
        """The bracket of a trace line in units of payoff."""
        _, low_round, low, high_round, high = row
        each = self.unit * self.scale
        return Fraction(low, each * self.weight(low_round)), Fraction(high, each * self.weight(high_round))

    def bracket_of_two(self):
        """The bracket in player two's payoff."""
        return self.sum - self.high, self.sum - self.low


class Lines:
    def __init__(self, data):
        self.rest, self.number = data.decode("ascii", "replace").split("\n"), 0
        if self.rest.pop() != "":
            raise Fault("the text doesn't end with a line feed")
        self.rest.reverse()

    def take(self, form, what):
        """The numbers of the next line, which must be of this form."""
        self.number += 1
        found = re.fullmatch(form, self.rest.pop()) if self.rest else None
        if not found:
            raise Fault(f"line {self.number} isn't {what}")
        return found.groups()

    def counts(self, words, what):
        return [int(it) for it in self.take(words.replace("N", f"({COUNT})"), what)]


def read_text(data):
    lines, (*others, last) = Lines(data), FORMS
    told = f"{', '.join(others)} or {last}"
    (form,) = lines.take(f"({'|'.join(FORMS)})", f"the first line of a text, {told}")
    return FORMS[form][0](lines, Text(form))


def text_of(text):
    """The bytes of a text."""
    return "".join(line + "\n" for line in FORMS[text.form][1](text)).encode()


def read_version_1(lines, text):
    read_counts(lines, text)
    what = "the line of the unit"
    unit, told = lines.take(rf"unit ({COUNT})(?: sum ({FRACTION}))?", what)
    text.unit, text.sum = int(unit), Fraction(0) if told is None else lowest(lines, told, what)
    if told is not None and text.sum == 0:
        raise Fault(f"line {lines.number} isn't {what}")
    (text.mass,) = lines.counts("mass N", "the line of the mass")
    return read_rounds(lines, text)


def read_version_2(lines, text):
    read_counts(lines, text)
    (text.unit,) = lines.counts("unit N", "the line of the unit")
    (text.mass,) = lines.counts("mass N", "the line of the mass")
    what = "the line of the sum"
    (told,) = lines.take(f"sum ({FRACTION})", what)
    text.sum = lowest(lines, told, what)
    return read_rounds(lines, text, has_second=True)


def read_counts(lines, text):
    text.nodes, text.leaves = lines.counts("nodes N leaves N", "the line of nodes and leaves")
    text.sets = lines.counts("sets N N", "the line of sets")
    text.sequences = lines.counts("sequences N N", "the line of sequences")


def lowest(lines, told, what):
    """The fraction of a line, which must be written in lowest terms."""
    value = Fraction(told)
    if str(value) != told:
        raise Fault(f"line {lines.number} isn't {what}")
    return value


def read_rounds(lines, text, has_second=False):
    """The line of the rounds, and what follows it."""
    text.rounds, text.every, text.scale = lines.counts("rounds N every N scale N", "the line of the rounds")
    if 0 in (text.unit, text.every, text.scale):
        raise Fault("the unit, the rounds between evaluations or the scale is 0")
    if text.rounds:
        read_outcome(lines, text)
    if text.rounds and has_second:
        text.second = fractions(lines, "second", "player two's bracket")
    lines.take("end", "the last line, end")
    if lines.rest:
        raise Fault(f"line {lines.number + 1} comes after the end")
    return text


def read_outcome(lines, text):
    for k in range(1, -(-text.rounds // text.every) + 1):
        row = lines.take(rf"trace ({COUNT}) ({COUNT}) ({WHOLE}) ({COUNT}) ({WHOLE})", "a line of the trace")
        row = tuple(map(int, row))
        if row[0] != min(k * text.every, text.rounds) or not (1 <= row[1] <= row[0] and 1 <= row[3] <= row[0]):
            raise Fault(f"line {lines.number} isn't the trace of round {min(k * text.every, text.rounds)}")
        text.trace.append(row)
    text.ends = (read_end(lines, text, 1), read_end(lines, text, 2))
    text.low, text.high = fractions(lines, "bracket", "the bracket")


def fractions(lines, word, what):
    """The two fractions of a line."""
    return tuple(map(Fraction, lines.take(rf"{word} ({FRACTION}) ({FRACTION})", what)))


def read_end(lines, text, player):
    other = 3 - player
    (root,) = lines.counts(f"plan {player} N", f"the line of player {player}'s plan")
    weights = []
    for k in range(1, text.sets[player - 1] + 1):
        found = lines.take(rf"weights {k}((?: {COUNT})+)", f"the weights of set {k}")[0]
        weights.append([int(it) for it in found.split()])
    (total,) = lines.take(rf"reply {other} ({WHOLE})", f"the line of player {other}'s reply")
    replies = []
    for k in range(1, text.sets[other - 1] + 1):
        value, choice = lines.take(rf"value {k} ({WHOLE}) ({COUNT})", f"the value of set {k}")
        replies.append((int(value), int(choice)))
    return End(root, weights, int(total), replies)


def lines_of_version_1(text):
    unit = f"unit {text.unit} sum {text.sum}" if text.sum else f"unit {text.unit}"
    yield from lines_of(text, unit, f"mass {text.mass}")


def lines_of_version_2(text):
    payoffs = f"unit {text.unit}", f"mass {text.mass}", f"sum {text.sum}"
    yield from lines_of(text, *payoffs, second=["second {} {}".format(*text.second)] if text.rounds else [])


def lines_of(text, *payoffs, second=()):
    """The lines of a text, with these on its payoffs, and of player two's bracket."""
    yield from (
        text.form,
        f"nodes {text.nodes} leaves {text.leaves}",
        "sets {} {}".format(*text.sets),
        "sequences {} {}".format(*text.sequences),
        *payoffs,
        f"rounds {text.rounds} every {text.every} scale {text.scale}",
    )
    if text.rounds:
        yield from lines_of_outcome(text)
    yield from second
    yield "end"


def lines_of_outcome(text):
    for row in text.trace:
        yield "trace {} {} {} {} {}".format(*row)
    yield from lines_of_end(text.ends[0], 1)
    yield from lines_of_end(text.ends[1], 2)
    yield f"bracket {text.low} {text.high}"


def lines_of_end(end, player):
    yield f"plan {player} {end.root}"
    yield from (f"weights {k} {' '.join(map(str, weights))}" for k, weights in enumerate(end.weights, 1))
    yield f"reply {3 - player} {end.total}"
    yield from (f"value {k} {value} {choice}" for k, (value, choice) in enumerate(end.replies, 1))


FORMS = {
    "XGCERT 1": (read_version_1, lines_of_version_1),
    "XGCERT 2": (read_version_2, lines_of_version_2),
    "XGPLUS 1": (read_version_2, lines_of_version_2),
}
# The forms of what `solve` and `plus` print; below the first line both have the same lines.
FORM_OF_SOLVE, FORM_OF_PLUS = "XGCERT 2", "XGPLUS 1"
