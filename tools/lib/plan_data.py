"""What a text says as data: its plans as a table with the columns that `certify` takes, and all of it as one object.

In the object each bound and probability has its exact fraction and the nearest decimal; totals, values, the unit and
the mass are texts, as they may pass 2^53, the whole numbers that other readers of JSON have.
"""
import csv
import io
from fractions import Fraction

import efg
import profiles
from plans import lines_of


def is_plain(name):
    """Whether a name reads the same in a table: letters that can be seen, and blanks only between them."""
    try:
        text = (name or b"").decode()
    except UnicodeDecodeError:
        return False
    return text.isprintable() and text == text.strip() != ""


def are_plain(names):
    """Whether these names are plain, and each can be told from the others."""
    return len(set(names)) == len(names) and all(map(is_plain, names))


def set_labels(game, player):
    """What stands for each set of a player: all have their names, or all have their numbers. A name that is a number
    could be taken for that of another set."""
    sets = list(game.sets[player].values())
    names = [it.name for it in sets]
    is_named = are_plain(names) and not any(it.decode().isdigit() for it in names)
    return {it: it.name.decode() if is_named else str(it.number) for it in sets}


def action_labels(set_):
    """What stands for each action of a set: all have their names, or all have their places from 1 on."""
    if are_plain(set_.actions):
        return [it.decode() for it in set_.actions]
    return [str(place) for place in range(1, len(set_.actions) + 1)]


class Choice:
    """An action of a plan: its player, its set with its label, its place from 1 on with its label, its weight and that
    before its set, and its probability, None where the plan never reaches the set."""

    __slots__ = ("player", "set", "set_label", "place", "label", "weight", "before", "probability")

    def __init__(self, player, line, set_label, place, label):
        self.player, self.set, self.set_label, self.place, self.label = player, line.set, set_label, place, label
        self.weight, self.before, self.probability = line.weight, line.before, line.probability()


def choices_of(game, text):
    """Each action of both plans, in the order of the sets in the file."""
    for player in (1, 2):
        named, place, set_ = set_labels(game, player), 0, None
        for line in lines_of(game, player, text.ends[player - 1]):
            if line.set is not set_:
                set_, place, own = line.set, 0, action_labels(line.set)
            place += 1
            yield Choice(player, line, named[set_], place, own[place - 1])


def table_of(game, text, spelled=str):
    """The plans as CSV. A set that its own player's plan never reaches has no lines."""
    out = io.StringIO()
    writer = csv.writer(out, lineterminator="\n")
    writer.writerow(profiles.COLUMNS)
    for it in choices_of(game, text):
        if it.before:
            writer.writerow([it.player, it.set_label, it.label, spelled(it.probability)])
    return out.getvalue()


def number(value):
    """A bound or a probability."""
    return None if value is None else {"fraction": str(value), "decimal": float(value)}


def shown(name):
    return None if name is None else efg.shown(name)


def object_of(game, text):
    """All that the text says, with the names of the game file."""
    names = list(map(shown, game.players))
    return {
        "text": text.form,
        "game": {"title": shown(game.title), "players": names},
        "head": head_of(text),
        "trace": [row_of(text, row) for row in text.trace],
        "plans": plans_of(game, text),
        "replies": [reply_of(game, text, player) for player in (2, 1)],
        "bracket": bracket((text.low, text.high)),
        "second": bracket(text.bracket_of_two()),
    }


def head_of(text):
    return {
        "nodes": text.nodes,
        "leaves": text.leaves,
        "sets": list(text.sets),
        "sequences": list(text.sequences),
        "unit": str(text.unit),
        "mass": str(text.mass),
        "sum": number(text.sum),
        "rounds": text.rounds,
        "every": text.every,
        "scale": text.scale,
    }


def bracket(ends):
    return {name: number(value) for name, value in zip(("low", "high"), ends)}


def row_of(text, row):
    played, low_round, low_total, high_round, high_total = row
    rounds = {"round": played, "low_round": low_round, "high_round": high_round}
    totals = {"low_total": str(low_total), "high_total": str(high_total)}
    return {**rounds, **totals, **bracket(text.bracket_after(row))}


def plans_of(game, text):
    plans = [
        {"player": player, "name": shown(game.players[player - 1]), "root": text.ends[player - 1].root, "sets": []}
        for player in (1, 2)
    ]
    for it in choices_of(game, text):
        sets = plans[it.player - 1]["sets"]
        if it.place == 1:
            head = {"set": it.set.number, "name": shown(it.set.name), "reached": it.before > 0}
            sets.append({**head, "weight": it.before, "actions": []})
        action = {"action": it.place, "name": shown(it.set.actions[it.place - 1]), "weight": it.weight}
        sets[-1]["actions"].append({**action, "probability": number(it.probability)})
    return plans


def reply_of(game, text, player):
    """A player's reply to the other one's plan. Its total and values are player one's payoffs times the unit and the
    root of that plan."""
    end = text.ends[2 - player]
    sets = [
        {
            "set": set_.number,
            "name": shown(set_.name),
            "value": str(value),
            "choice": choice,
            "action": shown(set_.actions[choice - 1]) if 1 <= choice <= len(set_.actions) else None,
        }
        for set_, (value, choice) in zip(game.sets[player].values(), end.replies)
    ]
    total = {"total": str(end.total), "payoff": number(Fraction(end.total, text.unit * end.root))}
    return {"player": player, "name": shown(game.players[player - 1]), **total, "sets": sets}
