"""Reads a game file by docs/game_file.md: its tree, its sets and outcomes, and where its probabilities stand.

The faults are those of that page up to ActionCount, with the same lines. What comes of the numbers (sums of
probabilities and of payoffs) isn't looked at; whether each player remembers what it did is noted.
"""
import re
from fractions import Fraction

import files

MOST_BYTES = 67_108_864
MOST_NODES = 1_048_576
MOST_ACTIONS = 1_024
LIMIT = 2**62
# What a literal's parts may come to before it is reduced. More digits than these pass it, whatever they are.
WIDE_LIMIT = 2**127 - 1
WIDE_DIGITS = 39

WHITE = re.compile(rb"[\x09-\x0d ]*")
RUN = re.compile(rb'[^\x09-\x0d "{},]+')
MARK = re.compile(rb'(?<!\\)"')
DIGITS = re.compile(rb"[0-9]+")
RATIO = re.compile(rb"([+-]?)([0-9]+)/([0-9]+)")
DECIMAL = re.compile(rb"([+-]?)(?=\.?[0-9])([0-9]*)\.?([0-9]*)(?:[eE]([+-]?[0-9]{1,2}))?")
# An entry without descriptions, up to the letter of the next one: most entries of a large file.
SHORT_ENTRY = re.compile(
    rb'[\x09-\x0d ]*([cpt])[\x09-\x0d ]*"([^"\\]*)"[\x09-\x0d ]*((?:[0-9]{1,18}[\x09-\x0d ]+)+)(?=[cpt])'
)
NUMBERS_OF_ENTRY = {b"c": 2, b"p": 3, b"t": 1}
# What tokens are, where one can't be taken.
VERSION, ENTRY, SET_NUMBER = "the version 2", "the next node, which begins with c, p or t", "the set's number"
ACTIONS, ACTION, PROBABILITY = "the set's actions", "an action's name", "the action's probability"
PAYOFFS, PAYOFF = "the outcome's payoffs", "a payoff"


class Fault(files.Fault):
    """The file's first fault; its text is the line of docs/game_file.md. Where a token can't be taken, `at` is its
    place and `wanted` says what may stand there. Of a fault that more than one thing can have, `why` says which it
    is."""

    def __init__(self, line, at=None, wanted=(), why=""):
        super().__init__(line)
        self.at, self.wanted, self.why = at, list(wanted), why
        # The game as far as it was read, and how many nodes are still to come.
        self.game, self.missing = None, 0


def count_of(digits):
    """The number that these digits are, or one past every limit where there are too many of them."""
    digits = digits.lstrip(b"0")
    return int(digits or b"0") if len(digits) <= WIDE_DIGITS else WIDE_LIMIT + 1


def decimals(literal):
    """How many digits a decimal has after the point, its exponent counted; None where it is a fraction or whole."""
    found = DECIMAL.fullmatch(literal)
    if not found or not re.search(rb"[.eE]", literal):
        return None
    return max(0, len(found[3]) - int(found[4] or 0))


def literal_value(literal):
    """The exact value of a literal; where it has none, what the fault of its number is."""
    ratio, decimal = RATIO.fullmatch(literal), DECIMAL.fullmatch(literal)
    if ratio:
        top, bottom = count_of(ratio[2]), count_of(ratio[3])
        if bottom == 0:
            return "ZeroDenominator"
    elif decimal:
        digits, power = decimal[2] + decimal[3], int(decimal[4] or 0) - len(decimal[3])
        if power < -WIDE_DIGITS:
            return "Range"
        top, bottom = count_of(digits) * 10 ** max(0, power), 10 ** max(0, -power)
    else:
        return "Form"
    if top > WIDE_LIMIT or bottom > WIDE_LIMIT:
        return "Range"
    value = Fraction(top, bottom)
    if value.numerator > LIMIT or value.denominator > LIMIT:
        return "Range"
    return -value if literal.startswith(b"-") else value


def shown(name):
    """A name as a line can show it."""
    text = (name or b"").decode("utf-8", "backslashreplace")
    return "".join(it if it.isprintable() else it.encode("unicode_escape").decode() for it in text)


class ActionSet:
    """A set of chance (player 0) or of a player: its number and name in the file, its actions, and its first node.

    Chance has the values of its `chances`, and for each mention with a list their `spans` in the file. A player's set
    has its player's last choice `before` it, a pair of a set and the place of an action, or None."""

    __slots__ = ("player", "number", "name", "actions", "chances", "spans", "first", "before")

    def __init__(self, player, number, first):
        self.player, self.number, self.first = player, number, first
        self.name, self.actions, self.chances, self.spans, self.before = None, None, None, [], None


class Outcome:
    __slots__ = ("name", "payoffs")

    def __init__(self):
        self.name, self.payoffs = None, None


class Node:
    """A node: its name; its set, None at a leaf; its outcome, None for outcome 0; and the nodes below it, from 0 on."""

    __slots__ = ("name", "set", "outcome", "children")

    def __init__(self, name, set_, outcome):
        self.name, self.set, self.outcome, self.children = name, set_, outcome, []


class Game:
    """What a file says. `sets` has the sets of chance, player one and player two by their numbers, in the order of
    their first nodes. `break_of_recall` is None, or the first node that differs in what its player did from its set's
    first node, with that node; both count from 1."""

    def __init__(self, title, players, comment):
        self.title, self.players, self.comment = title, players, comment
        self.nodes, self.sets, self.outcomes = [], ({}, {}, {}), {}
        self.break_of_recall = None

    def leaves(self):
        return sum(1 for node in self.nodes if node.set is None)

    def sequences(self, player):
        """How many sequences a player has, the empty one included."""
        return 1 + sum(len(it.actions) for it in self.sets[player].values())


class Reader:
    """Takes one token after the other. `others` says what else may stand at the next one's place."""

    def __init__(self, data):
        self.data, self.at, self.others = data, 0, ()

    def next_byte(self):
        self.at = WHITE.match(self.data, self.at).end()
        return self.data[self.at : self.at + 1]

    def take(self, kind, what):
        """The start and the end of the next token, which must be of this kind; `what` says what it is."""
        first = self.next_byte()
        start = self.at
        if not first:
            raise Fault("refused 3 UnexpectedEnd", start, self.wanted(what))
        if first == b'"':
            mark = MARK.search(self.data, start + 1)
            if not mark:
                raise Fault("refused 3 UnexpectedEnd", start, ['the quotation mark that ends this text'])
            found, end = "text", mark.end()
        elif first in b"{},":
            found, end = first.decode(), start + 1
        else:
            end = RUN.match(self.data, start).end()
            found = "word" if first.isalpha() else "number" if first in b"0123456789+-." else None
        if found != kind:
            raise Fault(f"refused 2 Syntax at {start}", start, self.wanted(what))
        self.at, self.others = end, ()
        return start, end

    def wanted(self, what):
        return [*self.others, what]

    def word(self, what, *wanted):
        others = self.wanted(what)
        start, end = self.take("word", what)
        if self.data[start:end] not in wanted:
            raise Fault(f"refused 2 Syntax at {start}", start, others)
        return self.data[start:end]

    def text(self, what):
        start, end = self.take("text", what)
        return self.data[start + 1 : end - 1].replace(b'\\"', b'"')

    def whole(self, what, least=0):
        start, end = self.take("number", what)
        if not DIGITS.fullmatch(self.data, start, end):
            raise Fault(f"refused 5 Number at {start} Form", start, [what])
        number = count_of(self.data[start:end])
        if not least <= number <= LIMIT:
            raise Fault(f"refused 5 Number at {start} Range", start, [what])
        return number

    def literal(self, what):
        """The value of a literal, and its span."""
        start, end = self.take("number", what)
        value = literal_value(self.data[start:end])
        if isinstance(value, str):
            raise Fault(f"refused 5 Number at {start} {value}", start, [what])
        return value, (start, end)

    def optional(self, mark, read, what):
        if self.next_byte() == mark:
            return read()
        self.others = (*self.others, what)
        return None

    def optional_text(self, what):
        return self.optional(b'"', lambda: self.text(what), what)

    def list_of(self, read_item, what):
        self.take("{", f'the "{{" before {what}')
        items, end = [], f'the "}}" behind {what}'
        while self.next_byte() != b"}":
            self.others = (end,)
            items.append(read_item(len(items)))
        self.take("}", end)
        return items

    def actions(self, of_chance):
        def action(_):
            return self.text(ACTION), *(self.literal(PROBABILITY) if of_chance else (None, None))

        return self.list_of(action, ACTIONS)

    def payoffs(self):
        def payoff(place):
            if place and self.next_byte() == b",":
                self.take(",", "a comma")
            return self.literal(PAYOFF)[0]

        return self.list_of(payoff, PAYOFFS)


def read_prologue(reader):
    reader.word("the first word EFG", b"EFG")
    start, end = reader.take("number", VERSION)
    if reader.data[start:end] != b"2":
        raise Fault(f"refused 2 Syntax at {start}", start, [VERSION])
    reader.word("the word R or D", b"R", b"D")
    title = reader.text("the title")
    players = reader.list_of(lambda _: reader.text("a player's name"), "the players' names")
    if len(players) != 2:
        raise Fault(f"refused 6 Players count {len(players)}", reader.at - 1)
    return Game(title, players, reader.optional_text("a comment") or b"")


def read_short_entry(reader):
    """What `read_told` reads, where it is an entry without descriptions that has no fault of its own; else None."""
    found = SHORT_ENTRY.match(reader.data, reader.at)
    if not found:
        return None
    kind, numbers = found[1], [int(it) for it in found[3].split()]
    if len(numbers) != NUMBERS_OF_ENTRY[kind] or kind != b"t" and numbers[-2] == 0:
        return None
    reader.at, reader.others = found.end(), ()
    told_set = None if kind == b"t" else (numbers[-2], None, None)
    return found[2], numbers[0] if kind == b"p" else 0, told_set, (numbers[-1], None, None)


def read_told(reader):
    """The next entry: its name, its player, 0 for none, and what it tells of its set, None at a leaf, and of its
    outcome."""
    kind = reader.word(ENTRY, b"c", b"p", b"t")
    node_name = reader.text("the node's name")
    player = reader.whole("the player's number") if kind == b"p" else 0
    told_set = None
    if kind != b"t":
        number = reader.whole(SET_NUMBER, least=1)
        name = reader.optional_text("the set's name")
        told_set = (number, name, reader.optional(b"{", lambda: reader.actions(kind == b"c"), ACTIONS))
        if kind == b"p" and player not in (1, 2):
            player = None
    number = reader.whole("the outcome's number")
    name = reader.optional_text("the outcome's name")
    return node_name, player, told_set, (number, name, reader.optional(b"{", reader.payoffs, PAYOFFS))


def read_entry(reader, game):
    """The next entry as a node, which is judged and put into the game's tables."""
    place = len(game.nodes) + 1
    name, player, told_set, told_outcome = read_short_entry(reader) or read_told(reader)
    if player not in (0, 1, 2):
        raise Fault(f"refused 7 PlayerNumber node {place}")
    set_ = kept_set(game, player, told_set, place) if told_set else None
    outcome = kept_outcome(game, told_outcome, place)
    if place > MOST_NODES:
        raise Fault("refused 13 TooManyNodes")
    if set_ and not 1 <= len(set_.actions) <= MOST_ACTIONS:
        raise Fault(f"refused 14 ActionCount node {place}")
    return Node(name, set_, outcome)


def kept_set(game, player, told, place):
    number, name, items = told
    set_ = game.sets[player].get(number)
    if set_ is None:
        if items is None:
            raise Fault(f"refused 8 SetUndefined node {place}")
        set_ = game.sets[player][number] = ActionSet(player, number, place)
        set_.actions = [it[0] for it in items]
        set_.chances = None if player else [it[1] for it in items]
    elif name is not None and set_.name not in (None, name) or items is not None and (
        [it[0] for it in items] != set_.actions or not player and [it[1] for it in items] != set_.chances
    ):
        raise Fault(f"refused 9 SetMismatch node {place}")
    set_.name = name if set_.name is None else set_.name
    if items is not None and not player:
        set_.spans.append([it[2] for it in items])
    return set_


def kept_outcome(game, told, place):
    number, name, payoffs = told
    if number == 0:
        if payoffs not in (None, [0, 0]):
            raise Fault(f"refused 11 OutcomeMismatch node {place}")
        return None
    outcome = game.outcomes.get(number)
    if outcome is None:
        if payoffs is None:
            raise Fault(f"refused 10 OutcomeUndefined node {place}")
        if len(payoffs) != 2:
            raise Fault(f"refused 12 PayoffCount node {place}")
        outcome = game.outcomes[number] = Outcome()
        outcome.payoffs = payoffs
    elif name is not None and outcome.name not in (None, name) or payoffs not in (None, outcome.payoffs):
        raise Fault(f"refused 11 OutcomeMismatch node {place}")
    outcome.name = name if outcome.name is None else outcome.name
    return outcome


def note_choices(game, node, own):
    """Keeps or compares what the node's player did before it."""
    place, set_ = len(game.nodes), node.set
    if set_.first == place:
        set_.before = own[set_.player]
    elif set_.before != own[set_.player] and game.break_of_recall is None:
        game.break_of_recall = (place, set_.first)


def read_game(data):
    if len(data) > MOST_BYTES:
        raise Fault("refused 1 TooLong")
    reader = Reader(data)
    game = read_prologue(reader)
    # For each child that is still to come: its parent, and each player's last choice on the way to it.
    wanted = [(None, (None, None, None))]
    while wanted:
        parent, own = wanted.pop()
        try:
            node = read_entry(reader, game)
        except Fault as fault:
            fault.game, fault.missing = game, len(wanted) + 1
            raise
        game.nodes.append(node)
        if parent is not None:
            parent.children.append(len(game.nodes) - 1)
        if node.set is None:
            continue
        player = node.set.player
        if player:
            note_choices(game, node, own)
        for action in reversed(range(len(node.set.actions))):
            choice = (node.set, action)
            below = (own, (None, choice, own[2]), (None, own[1], choice))[player]
            wanted.append((node, below))
    if reader.next_byte():
        raise Fault(f"refused 4 TrailingText at {reader.at}", reader.at, ["the end of the file"])
    return game
