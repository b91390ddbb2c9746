"""Reads a strategy from elsewhere: Gambit's line `NE,p,p,..`, or a CSV table of player, set, action, probability."""
import csv
import io
import re
from fractions import Fraction
from math import lcm

import efg
import files

COLUMNS = ["player", "set", "action", "probability"]
# With these begins the text that `solve` or `plus` prints.
TEXTS = ("XGCERT ", "XGPLUS ")
PROBABILITY = re.compile(
    r"[+-]?(?:[0-9]{1,1000}/[0-9]{1,1000}|(?=\.?[0-9])[0-9]{0,1000}\.?[0-9]{0,1000}(?:[eE][+-]?[0-9]{1,3})?)"
)
# How far a sum may be from 1: always so far; as far as rounding of the last digits explains, where decimals have
# enough of them; and never farther.
NEAR, LEAST_DIGITS, FARTHEST = Fraction(1, 10**6), 2, Fraction(1, 20)


class Fault(files.Fault):
    """Why a profile can't be taken, and where."""


class Told:
    """A probability as it stands: its value, its spelling, and its line with its place there, None in a table."""

    __slots__ = ("value", "spelled", "line", "place")

    def __init__(self, spelled, line, place=None):
        self.spelled, self.line, self.place = spelled, line, place
        if not PROBABILITY.fullmatch(spelled) or re.search("/0+$", spelled):
            raise Fault(f"{quoted(spelled)} isn't a probability")
        self.value = Fraction(spelled)
        if not 0 <= self.value <= 1:
            raise Fault(f"the probability {spelled} is {'below 0' if self.value < 0 else 'above 1'}")


class Row:
    """A row of a table: its line, and its fields as bytes, but for the player and the probability."""

    __slots__ = ("line", "player", "set", "action", "told")

    def __init__(self, line, player, set_, action, told):
        self.line, self.player, self.set, self.action, self.told = line, player, set_, action, told


def quoted(name):
    """A name from the game file, or a field of the profile, as a line can show it."""
    return '"' + efg.shown(name if isinstance(name, bytes) else bytes_of(name)).replace('"', '\\"') + '"'


def bytes_of(field):
    return field.encode("utf-8", "surrogateescape")


def named(set_):
    name = f" {quoted(set_.name)}" if set_.name else ""
    return f"player {set_.player}'s set {set_.number}{name}"


def read_profile(data, game, players):
    """For each of these players its sets with what is told of their actions, None where nothing is."""
    text = data.decode("utf-8-sig", "surrogateescape")
    if not text.strip():
        raise Fault("the profile is empty")
    if text.startswith(TEXTS):
        raise Fault("this is a text of solve or plus, and no profile; --text takes it")
    if text.split(",")[0].strip() == "NE":
        return read_line(text, game, players)
    return read_table(text, game, players)


def read_line(text, game, players):
    """The line `NE,p,p,..`: numbers of both players or, where one is asked for, of that one alone."""
    lines = [(number, line) for number, line in enumerate(text.splitlines(), 1) if line.strip()]
    if len(lines) > 1:
        raise Fault(f"line {lines[1][0]}: a profile is one line, and another one follows it")
    number, fields = lines[0][0], lines[0][1].strip().split(",")[1:]
    counts = {player: game.sequences(player) - 1 for player in (1, 2)}
    given = players if len(fields) == sum(counts[it] for it in players) else (1, 2)
    if len(fields) != sum(counts[it] for it in given):
        raise Fault(
            f"line {number}: it has {len(fields)} numbers, and the game has {counts[1]} actions of player 1 and"
            f" {counts[2]} of player 2"
        )
    places = [(set_, action) for it in given for set_ in game.sets[it].values() for action in range(len(set_.actions))]
    told = {it: {} for it in (1, 2)}
    for place, (field, (set_, action)) in enumerate(zip(fields, places), 1):
        try:
            told[set_.player].setdefault(set_, []).append(Told(field.strip(), number, place))
        except Fault as fault:
            where = f"line {number}, number {place}, {named(set_)}, action {quoted(set_.actions[action])}"
            raise Fault(f"{where}: {fault}") from None
    return {it: told[it] for it in players}


def read_table(text, game, players):
    rows = rows_of(text, game)
    return {player: sets_of([it for it in rows if it.player == player], game, player) for player in players}


def rows_of(text, game):
    csv.field_size_limit(efg.MOST_BYTES)
    reader = csv.reader(io.StringIO(text, newline=""), strict=True)
    order, rows, start = COLUMNS, [], 1
    try:
        for fields in reader:
            line, start = start, reader.line_num + 1
            heads = [it.strip().casefold() for it in fields]
            if not rows and order is COLUMNS and is_header(fields):
                order = whole_header(line, fields)
            elif any(heads):
                rows.append(row_of(line, fields, order, game))
    except csv.Error as fault:
        raise Fault(f"line {start}: {fault}") from None
    if not rows:
        raise Fault("the profile has a header, and no line behind it")
    return rows


def is_header(fields):
    """Whether a first row is meant as a header: a column's word stands there, and nothing that is a probability."""
    words = re.findall(r"\w+", " ".join(fields).casefold())
    return not set(words).isdisjoint(COLUMNS) and not any(PROBABILITY.fullmatch(it.strip()) for it in fields)


def whole_header(line, fields):
    """The order of the columns that a header names."""
    heads = [it.strip().casefold() for it in fields]
    if sorted(heads) == sorted(COLUMNS):
        return heads
    missing = [it for it in COLUMNS if it not in heads]
    others = [quoted(it.strip()) for it, head in zip(fields, heads) if head not in COLUMNS]
    told = [f"lacks {' and '.join(missing)}"] * bool(missing) + [f"has {' and '.join(others)}"] * bool(others)
    raise Fault(
        f"line {line}: a header has the columns player, set, action and probability, in any order; this one"
        f" {' and '.join(told) or 'has one of them twice'}"
    )


def row_of(line, fields, order, game):
    if len(fields) != len(COLUMNS):
        what = "1 field" if len(fields) == 1 else f"{len(fields)} fields"
        raise Fault(f"line {line}: it has {what} in place of 4: player, set, action, probability")
    field = dict(zip(order, fields))
    player = player_of(line, field["player"].strip(), game)
    try:
        told = Told(field["probability"].strip(), line)
    except Fault as fault:
        raise Fault(f"line {line}: {fault}") from None
    return Row(line, player, bytes_of(field["set"]), bytes_of(field["action"]), told)


def player_of(line, field, game):
    if field in ("1", "2"):
        return int(field)
    found = [player for player in (1, 2) if game.players[player - 1] == bytes_of(field)]
    if len(found) != 1:
        raise Fault(f"line {line}: {quoted(field)} is no player: 1, 2 or one of their names is needed")
    return found[0]


def sets_of(rows, game, player):
    """What a player's rows tell of each set."""
    found = {}
    by_number = {set_.number: set_ for set_ in game.sets[player].values()}
    by_name = {}
    for set_ in by_number.values():
        by_name.setdefault(set_.name or b"", []).append(set_)
    are_numbers = all(number_of(row.set) in by_number for row in rows)
    for row in rows:
        found.setdefault(set_of(row, by_number, {} if are_numbers else by_name), []).append(row)
    return {set_: actions_of(set_, own) for set_, own in found.items()}


def number_of(field):
    """The number that a field is, or None."""
    return int(field) if re.fullmatch(rb"\s*[0-9]{1,30}\s*", field) else None


def set_of(row, by_number, by_name):
    """A row's set. Where all of a player's rows have numbers of its sets, names don't count; else they come first."""
    sets = by_name.get(row.set) or by_name.get(row.set.strip()) or []
    if len(sets) > 1:
        numbers = ", ".join(str(it.number) for it in sets)
        raise Fault(
            f"line {row.line}: player {row.player} has {len(sets)} sets of the name {quoted(row.set)}; name the set by"
            f" its number, one of {numbers}"
        )
    set_ = sets[0] if sets else by_number.get(number_of(row.set))
    if set_ is None:
        raise Fault(f"line {row.line}: player {row.player} has no set {quoted(row.set)}")
    return set_


def actions_of(set_, rows):
    """What a set's rows tell of its actions. All rows name them, or all give their places."""
    told, names = [None for _ in set_.actions], [row.action for row in rows]
    if not all(it in set_.actions for it in names):
        names = [it.strip() for it in names]
    are_names = all(set_.actions.count(it) == 1 for it in names)
    for row, name in zip(rows, names):
        place = set_.actions.index(name) if are_names else place_of(set_, row, name)
        if told[place] is not None:
            action = quoted(set_.actions[place])
            raise Fault(f"line {row.line}: {named(set_)}, action {action} stands in line {told[place].line} already")
        told[place] = row.told
    return told


def place_of(set_, row, name):
    number = number_of(row.action)
    if number is not None and 1 <= number <= len(set_.actions):
        return number - 1
    if set_.actions.count(name) > 1:
        raise Fault(f"line {row.line}: {named(set_)} has the action {quoted(name)} twice; give the places of actions")
    if name in set_.actions:
        raise Fault(f"line {row.line}: {named(set_)}: other lines give places in place of names, or no action of it")
    raise Fault(f"line {row.line}: {named(set_)} has no action {quoted(row.action)}")


def chances_of(game, player, sets):
    """Each set's probabilities as whole numbers in proportion, in the order of the sets, and a line for each set that
    was scaled. A set that the player's own plan never reaches may be missing."""
    chances, notes, reached = [], [], {None}
    for set_ in game.sets[player].values():
        told = sets.get(set_, [])
        is_reached = set_.before in reached
        if is_reached and not told:
            hint = "" if sets else f"; --player {3 - player} takes a profile of player {3 - player} alone"
            raise Fault(f"the profile has no line for {named(set_)}, which its own plan reaches{hint}")
        values = [it.value if it else Fraction(0) for it in told]
        if sum(values) == 0 and not is_reached:
            values = [Fraction(1) for _ in set_.actions]
        else:
            notes += scaled(set_, told, values)
        reached.update((set_, place) for place, value in enumerate(values) if value and is_reached)
        common = lcm(*(it.denominator for it in values))
        chances.append([it.numerator * (common // it.denominator) for it in values])
    return chances, notes


def scaled(set_, told, values):
    """What is said of a set whose probabilities add up to 1 only nearly."""
    if sum(values) == 1:
        return []
    used = [it for it in told if it and it.value]
    spelled = " and ".join(it.spelled for it in used[:4]) + (" and so on" if len(used) > 4 else "")
    first = next(it for it in told if it)
    where = f"line {first.line}{f', number {first.place}' if first.place else ''}, {named(set_)}"
    if abs(sum(values) - 1) > tolerance(used):
        raise Fault(f"{where}: the probabilities of the set add up to {decimal(sum(values))}, and not to 1")
    return [f"{where}: {spelled} add up to {decimal(sum(values))}, and are scaled"]


def tolerance(used):
    digits = max((efg.decimals(it.spelled.encode()) or 0 for it in used), default=0)
    explained = Fraction(len(used), 10**digits) if digits >= LEAST_DIGITS else 0
    return min(max(NEAR, explained), FARTHEST)


def decimal(value):
    """A sum that isn't 1, so that it doesn't look like 1."""
    shown = f"{float(value):.15g}"
    return shown if shown != "1" else f"1 {'+' if value > 1 else '-'} {float(abs(value - 1)):.0e}"
