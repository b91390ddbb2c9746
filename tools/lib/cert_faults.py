"""Finds the first fault of a certificate by docs/certificate.md: the faults of its bytes, 21 to 26, and those that the
tests find beside the game, 27 to 33."""
import re
from fractions import Fraction

import efg
import files
from places import start_of_line

MOST_BYTES = 268_435_456
MOST_NODES, MOST_ACTIONS, MOST_ROUNDS, MOST_SCALE = 2**20, 1_024, 65_536, 2**20
MOST_ROOT, MOST_TOTAL = 2**36, 2**100
MOST_DIGITS = 40

FIELD = re.compile(rb"[^ \n]*")
WHOLE = re.compile(rb"0|[1-9][0-9]*")
SIGNED = re.compile(rb"0|-?[1-9][0-9]*")
RATIO = re.compile(rb"(0|-?[1-9][0-9]*)(?:/([1-9][0-9]*))?")
BLANK, LINE_FEED = b" ", b"\n"
NAMES = {BLANK: "a space", LINE_FEED: "a line feed"}


class Fault(files.Fault):
    """The first fault; its text is the line of docs/certificate.md. `at` is its place, `wanted` what may stand there,
    and `why` what a test found."""

    def __init__(self, line, at=None, wanted="", why=""):
        super().__init__(line)
        self.at, self.wanted, self.why = at, wanted, why


def size(digits):
    """The number that these digits are, or one past every range."""
    return int(digits) if len(digits) <= MOST_DIGITS else 10**MOST_DIGITS


def shown(bound):
    """A bound of a range: large ones are powers of two."""
    power = abs(bound).bit_length() - 1
    return f"{bound:,}" if power < 31 else f"{'-' if bound < 0 else ''}2^{power}"


class Fields:
    """Takes one field and the byte behind it after the other; `line` counts from 1."""

    def __init__(self, data):
        self.data, self.at, self.line = data, 0, 1

    def field(self, what):
        start, end = self.at, FIELD.match(self.data, self.at).end()
        if end == len(self.data):
            raise Fault("refused 25 CertShort", end, what)
        self.at = end
        return start, self.data[start:end]

    def behind(self, *separators):
        found = self.data[self.at : self.at + 1]
        if found not in separators:
            raise Fault(f"refused 22 CertSyntax at {self.at}", self.at, " or ".join(NAMES[it] for it in separators))
        self.at += 1
        self.line += found == LINE_FEED
        return found

    def word(self, word, *separators):
        start, field = self.field(f"the word {word}")
        if field != word.encode():
            raise Fault(f"refused 22 CertSyntax at {start}", start, f"the word {word}")
        return self.behind(*separators)

    def number(self, what, least, most, *separators, form=WHOLE):
        """A number within its range, and what stands behind it."""
        wanted = f"{what}, {least}" if least == most else f"{what}, {shown(least)} to {shown(most)}"
        start, field = self.field(wanted)
        value = None
        if form.fullmatch(field):
            value = size(field.lstrip(b"-")) * (-1 if field.startswith(b"-") else 1)
        if value is None or not least <= value <= most:
            raise Fault(f"refused 23 CertNumber at {start}", start, wanted)
        return value, self.behind(*separators)

    def whole(self, what, least, most, separator):
        return self.number(what, least, most, separator)[0]

    def total(self, what, separator):
        return self.number(what, -MOST_TOTAL, MOST_TOTAL, separator, form=SIGNED)[0]

    def ratio(self, what, most, separator, may_be_zero=True):
        wanted = f"{what}, a whole number or a fraction in lowest terms with parts of at most {shown(most)}"
        start, field = self.field(wanted)
        found = RATIO.fullmatch(field)
        value = None
        if found and max(size(found[1].lstrip(b"-")), size(found[2] or b"1")) <= most:
            value = Fraction(int(found[1]), int(found[2] or 1))
        if value is None or str(value).encode() != field or value == 0 and not may_be_zero:
            raise Fault(f"refused 23 CertNumber at {start}", start, wanted)
        self.behind(separator)
        return value


class Certificate:
    """What a certificate says. `lines` has the number of the first line of each part."""

    def __init__(self, data):
        fields, self.lines = Fields(data), {}
        fields.word("XGCERT", BLANK)
        start, version = fields.field("the version, 1 or 2")
        if version not in (b"1", b"2"):
            raise Fault("refused 24 CertVersion", start, "the version, 1 or 2")
        fields.behind(LINE_FEED)
        self.version = int(version)
        self.read_head(fields)
        fields.word("rounds", BLANK)
        self.rounds = fields.whole("the rounds", 0, MOST_ROUNDS, BLANK)
        fields.word("every", BLANK)
        self.every = fields.whole("the rounds between evaluations", 1, MOST_ROUNDS, BLANK)
        fields.word("scale", BLANK)
        self.scale = fields.whole("the scale", 1, MOST_SCALE, LINE_FEED)
        if self.rounds:
            self.read_outcome(fields)
        fields.word("end", LINE_FEED)
        if fields.at < len(data):
            raise Fault(f"refused 26 CertTrailing at {fields.at}", fields.at, "the end of the file")

    def read_head(self, fields):
        def pair(words, whats, least):
            found = []
            for word, what, separator in zip(words, whats, (BLANK, LINE_FEED)):
                if word:
                    fields.word(word, BLANK)
                found.append(fields.whole(what, least, MOST_NODES, separator))
            return tuple(found)

        self.counts = [
            pair(("nodes", "leaves"), ("the number of nodes", "the number of leaves"), 1),
            pair(("sets", None), ("player one's number of sets", "player two's number of sets"), 0),
            pair(("sequences", None), ("player one's number of sequences", "player two's number of sequences"), 1),
        ]
        fields.word("unit", BLANK)
        separators = (BLANK, LINE_FEED) if self.version == 1 else (LINE_FEED,)
        self.unit, behind = fields.number("the unit", 1, efg.LIMIT, *separators)
        self.sum = Fraction(0)
        if behind == BLANK:
            fields.word("sum", BLANK)
            self.sum = fields.ratio("the sum, which isn't 0 here", efg.LIMIT, LINE_FEED, may_be_zero=False)
        fields.word("mass", BLANK)
        self.mass = fields.whole("the mass", 0, efg.LIMIT, LINE_FEED)
        if self.version == 2:
            fields.word("sum", BLANK)
            self.sum = fields.ratio("the sum", efg.LIMIT, LINE_FEED)

    def read_outcome(self, fields):
        self.lines["trace"], self.trace = fields.line, []
        for k in range(1, -(-self.rounds // self.every) + 1):
            self.trace.append(trace_line(fields, min(k * self.every, self.rounds)))
        sets = self.counts[1]
        self.plans, self.replies = {}, {}
        for player in (1, 2):
            other = 3 - player
            self.lines["plan", player] = fields.line
            self.plans[player] = plan_lines(fields, player, sets[player - 1])
            self.lines["reply", other] = fields.line
            self.replies[other] = reply_lines(fields, other, sets[other - 1])
        self.lines["bracket"] = fields.line
        self.bracket = bracket_line(fields, "bracket")
        self.lines["second"] = fields.line
        self.second = bracket_line(fields, "second") if self.version == 2 else None


def trace_line(fields, played):
    fields.word("trace", BLANK)
    fields.whole("the round that was evaluated", played, played, BLANK)
    low_round, low = fields.whole("the round of the lower end", 1, played, BLANK), fields.total("its total", BLANK)
    high_round = fields.whole("the round of the upper end", 1, played, BLANK)
    return low_round, low, high_round, fields.total("its total", LINE_FEED)


def plan_lines(fields, player, sets):
    """A plan's root, and the numbers of each of its lines."""
    fields.word("plan", BLANK)
    fields.word(str(player), BLANK)
    root, lines = fields.whole("the plan's root", 1, MOST_ROOT, LINE_FEED), []
    for k in range(1, sets + 1):
        fields.word("weights", BLANK)
        fields.whole("the set's place", k, k, BLANK)
        numbers, behind = [], BLANK
        while behind == BLANK:
            separators = (BLANK, LINE_FEED) if len(numbers) < MOST_ACTIONS - 1 else (LINE_FEED,)
            number, behind = fields.number("a sequence's number", 0, MOST_ROOT, *separators)
            numbers.append(number)
        lines.append(numbers)
    return root, lines


def reply_lines(fields, player, sets):
    """A reply's total, and the value and the choice of each set."""
    fields.word("reply", BLANK)
    fields.word(str(player), BLANK)
    total, lines = fields.total("the reply's total", LINE_FEED), []
    for k in range(1, sets + 1):
        fields.word("value", BLANK)
        fields.whole("the set's place", k, k, BLANK)
        value = fields.total("the set's value", BLANK)
        lines.append((value, fields.whole("the chosen action", 1, MOST_ACTIONS, LINE_FEED)))
    return total, lines


def bracket_line(fields, word):
    fields.word(word, BLANK)
    return fields.ratio("the lower end", MOST_TOTAL, BLANK), fields.ratio("the upper end", MOST_TOTAL, LINE_FEED)


class Tests:
    """The tests of a certificate that was read beside the form of a game."""

    def __init__(self, form, told, data):
        self.form, self.told, self.data = form, told, data

    def refuse(self, line, number, why):
        """The fault at a line of the certificate."""
        return Fault(f"refused {line}", start_of_line(self.data, number), why=why)

    def run(self):
        self.test_head()
        if self.told.rounds == 0:
            return
        low_round, low, high_round, high = self.told.trace[-1]
        for player, played in ((1, low_round), (2, high_round)):
            self.test_plan(player, played)
        self.test_end("lower", 1, low, self.told.bracket[0])
        self.test_end("upper", 2, high, self.told.bracket[1])
        self.test_trace()
        if self.told.version == 2:
            self.test_second()

    def test_head(self):
        form, told = self.form, self.told
        sets = [len(form.sets[player]) for player in (1, 2)]
        total = Fraction(*form.total)
        wanted = [
            (f"nodes {len(form.game.nodes)} leaves {len(form.weights)}", "nodes {} leaves {}".format(*told.counts[0])),
            ("sets {} {}".format(*sets), "sets {} {}".format(*told.counts[1])),
            ("sequences {} {}".format(*form.counts[1:]), "sequences {} {}".format(*told.counts[2])),
        ]
        if told.version == 1:
            wanted.append((f"unit {form.unit} sum {total}", f"unit {told.unit} sum {told.sum}"))
            wanted.append((f"mass {form.mass}", f"mass {told.mass}"))
        else:
            wanted.append((f"unit {form.unit}", f"unit {told.unit}"))
            wanted.append((f"mass {form.mass}", f"mass {told.mass}"))
            wanted.append((f"sum {total}", f"sum {told.sum}"))
        for number, (ours, theirs) in enumerate(wanted, 2):
            if ours != theirs:
                why = f"the game file has {ours}, and the certificate {theirs}"
                raise self.refuse(f"27 HeadDiffers line {number}", number, why)

    def test_plan(self, player, played):
        root, lines = self.told.plans[player]
        first, sets = self.told.lines["plan", player], self.form.sets[player]
        where = f"28 NotAPlan player {player} set"
        wanted = played * self.told.scale
        if root != wanted:
            why = f"the root of player {player}'s plan is {root}, and round {played} times the scale is {wanted}"
            raise self.refuse(f"{where} 0", first, why)
        for k, (line, set_) in enumerate(zip(lines, sets), 1):
            if len(line) != len(set_.actions):
                why = f"{named(set_)} has {len(set_.actions)} actions, and its line {len(line)} numbers"
                raise self.refuse(f"{where} {k}", first + k, why)
        numbers = self.numbers(player)
        for k, (line, before) in enumerate(zip(lines, self.form.before[player]), 1):
            if sum(line) != numbers[before]:
                why = f"the numbers of {named(sets[k - 1])} add up to {sum(line)},"
                why += f" and {numbers[before]} stands before it"
                raise self.refuse(f"{where} {k}", first + k, why)

    def numbers(self, player):
        root, lines = self.told.plans[player]
        return [root, *(number for line in lines for number in line)]

    def test_end(self, name, player, traced, printed):
        """The reply to a player's plan, its total and the end of the bracket."""
        root, other = self.told.plans[player][0], 3 - player
        total, _ = self.told.replies[other]
        worth = self.test_reply(other)
        exact = Fraction(total, self.form.unit * root)
        line = self.told.lines["reply", other]
        if total != worth:
            why = f"the total of player {other}'s reply is {total}, and its sets and leaves come to {worth}"
        elif total != traced:
            why = f"the total of player {other}'s reply is {total}, and the last line trace has {traced}"
        elif printed != exact:
            line = self.told.lines["bracket"]
            why = f"the {name} end is {printed}, and the total over the unit and the plan's root is {exact}"
        else:
            return
        raise self.refuse(f"31 TotalDiffers {name}", line, why)

    def test_reply(self, player):
        """The worth of sequence 0, where each set's value is the best worth of its sequences."""
        form, first = self.form, self.told.lines["reply", player]
        lines, worths, sign = self.told.replies[player][1], self.worths(player), 1 if player == 1 else -1
        best = "over" if player == 1 else "below"
        for k, ((value, choice), set_) in enumerate(zip(lines, form.sets[player]), 1):
            own = worths[form.first[player][k - 1] :][: len(set_.actions)]
            for action, worth in enumerate(own, 1):
                if sign * (worth - value) > 0:
                    why = f"{shown_action(set_, action)} of {named(set_)} is worth {worth}, {best} the value {value}"
                    line = f"29 ValueTooGood player {player} set {k} action {action}"
                    raise self.refuse(line, first + k, why)
            if choice > len(own) or own[choice - 1] != value:
                why = f"{named(set_)} has no action {choice}"
                if choice <= len(own):
                    why = f"{shown_action(set_, choice)} of {named(set_)} is worth {own[choice - 1]},"
                    why += f" not the value {value}"
                raise self.refuse(f"30 ReplyNotTight player {player} set {k}", first + k, why)
        return worths[0]

    def worths(self, player):
        """The worth of each sequence: its leaf sum and the printed values of the sets directly after it."""
        form, against = self.form, self.numbers(3 - player)
        worths = [0] * form.counts[player]
        for weight, own, other in zip(form.weights, form.at[player], form.at[3 - player]):
            worths[own] += weight * against[other]
        for before, (value, _) in zip(form.before[player], self.told.replies[player][1]):
            worths[before] += value
        return worths

    def test_trace(self):
        trace, first = self.told.trace, self.told.lines["trace"]
        for k in range(1, len(trace)):
            (round_a, low, round_b, high), (next_a, next_low, next_b, next_high) = trace[k - 1 : k + 1]
            if next_low * round_a < low * next_a or next_high * round_b > high * next_b:
                why = "the bracket of this line is wider than that of the line before it"
                raise self.refuse(f"32 TraceWidens line {first + k}", first + k, why)

    def test_second(self):
        low, high = self.told.bracket
        wanted = self.form_sum() - high, self.form_sum() - low
        if self.told.second != wanted:
            why = "the line second isn't the sum less HIGH and the sum less LOW, {} {}".format(*wanted)
            raise self.refuse("33 SecondDiffers", self.told.lines["second"], why)

    def form_sum(self):
        return Fraction(*self.form.total)


def named(set_):
    name = f' "{efg.shown(set_.name)}"' if set_.name else ""
    return f"player {set_.player}'s set {set_.number}{name}"


def shown_action(set_, place):
    name = efg.shown(set_.actions[place - 1])
    return f'action {place} "{name}"' if name else f"action {place}"
