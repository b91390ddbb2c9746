"""What both plans of a text do at each set, what a best response does there, and what is given away there: `lost` is
what the set's own plan misses against the other one, for which the other player's plan can be exploited.

All numbers are exact and in the file's units of payoff to player one. The text is tested against the game first: its
head, its plans, the values and choices of both replies, the totals and the bracket, in both players' payoffs.
"""
from fractions import Fraction

import sequence_form
from plans import Differs, compare_head, lines_of


BEST, AS_GOOD, WORSE = "best", "as good", ""


class ActionLine:
    """An action: its probability in the plan, None where the plan never reaches the set; what it is worth at each visit
    where best responses follow, None where the other player and chance never lead there; and its mark: the reply's
    choice is best, and others of the same worth are as good."""

    def __init__(self, name, probability, worth, mark):
        self.name, self.probability, self.worth, self.mark = name, probability, worth, mark


class SetLine:
    """A set: how often both plans lead there, what the plan loses there to the best response, and its actions."""

    def __init__(self, set_, reached, lost, actions):
        self.set, self.reached, self.lost, self.actions = set_, reached, lost, actions


class Audit:
    """A game and a text of it. `pay` is what player one gets where both plans meet; `lines[k]` has player k's sets and
    `gains[k]` what that player would gain by a best response, which is the sum of what its sets lose."""

    def __init__(self, game, text):
        compare_head(game, text)
        self.game, self.text, self.form = game, text, sequence_form.weigh(game)
        if (self.form.unit, Fraction(*self.form.total), self.form.mass) != (text.unit, text.sum, text.mass):
            raise Differs("the text is of another game: its unit, its sum or its mass isn't that of the game file")
        self.plans = (None, numbers_of(game, 1, text.ends[0]), numbers_of(game, 2, text.ends[1]))
        replies = {player: tested_reply(self, player) for player in (1, 2)}
        test_bracket(text)
        self.pay = self.form.payoff(self.plans[1], self.plans[2])
        self.gains = (None, text.high - self.pay, self.pay - text.low)
        visited = visits(self)
        self.lines = (None, *(set_lines(self, player, replies[player], visited) for player in (1, 2)))


def numbers_of(game, player, end):
    """A plan's numbers by sequence."""
    if end.root == 0:
        raise Differs(f"the root of player {player}'s plan is 0")
    return [end.root, *(line.weight for line in lines_of(game, player, end))]


def tested_reply(audit, player):
    """A player's best reply to the other one's plan, where the text has its values, its total and choices as good."""
    reply = sequence_form.reply(audit.form, player, audit.plans[3 - player])
    end = audit.text.ends[2 - player]
    for k, (value, choice) in enumerate(end.replies):
        own = audit.form.sequences(player, k)
        is_action = 1 <= choice <= len(own)
        if value != reply.values[k] or not is_action or reply.worths[own.start + choice - 1] != value:
            number = audit.form.sets[player][k].number
            raise Differs(f"the text isn't true: player {player}'s reply isn't a best one at its set {number}")
        reply.choices[k] = choice - 1
    if end.total != reply.total:
        raise Differs(f"the text isn't true: the total of player {player}'s reply is {reply.total}, not {end.total}")
    return reply


def test_bracket(text):
    ends = [Fraction(end.total, text.unit * end.root) for end in text.ends]
    if ends != [text.low, text.high]:
        raise Differs("the text isn't true: its bracket is {} {}".format(*ends))
    if list(text.bracket_after(text.trace[-1])) != ends:
        raise Differs("the text isn't true: the last line of its trace has another bracket")
    if text.second not in (None, text.bracket_of_two()):
        raise Differs("the text isn't true: player two's bracket is {} {}".format(*text.bracket_of_two()))


def visits(audit):
    """For each set, how often chance and the other player's plan lead to its nodes where its own player goes there."""
    parts = {}
    for place in sequence_form.places(audit.form):
        set_ = place.node.set
        if set_ is None or set_.player == 0:
            continue
        other = 3 - set_.player
        top, bottom = place.reach
        by_bottom = parts.setdefault(set_, {})
        by_bottom[bottom] = by_bottom.get(bottom, 0) + top * audit.plans[other][place.at[other]]
    return {
        set_: sum(Fraction(top, bottom) for bottom, top in by_bottom.items()) / audit.plans[3 - set_.player][0]
        for set_, by_bottom in parts.items()
    }


def set_lines(audit, player, reply, visited):
    form, own, other = audit.form, audit.plans[player], audit.plans[3 - player]
    lines = []
    for k, set_ in enumerate(form.sets[player]):
        numbers, before = form.sequences(player, k), own[form.before[player][k]]
        each = form.unit * other[0] * visited[set_]
        short = before * reply.values[k] - sum(own[it] * reply.worths[it] for it in numbers)
        actions = [
            ActionLine(
                name,
                Fraction(own[it], before) if before else None,
                Fraction(reply.worths[it]) / each if each else None,
                mark(reply, k, it, it - numbers.start),
            )
            for name, it in zip(set_.actions, numbers)
        ]
        reached = visited[set_] * before / own[0]
        lines.append(SetLine(set_, reached, Fraction(abs(short), form.unit * own[0] * other[0]), actions))
    return lines


def mark(reply, k, sequence, place):
    if place == reply.choices[k]:
        return BEST
    return AS_GOOD if reply.worths[sequence] == reply.values[k] else WORSE
