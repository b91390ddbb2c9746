"""The text of rounds, played a second time in Python by "The rounds" of docs/certificate.md, and nothing of the
program: those of `solve`, and those of `plus`."""
from fractions import Fraction

import certificate
import efg
import sequence_form
from plans import shares

PLAY = 65_536


class Player:
    """A player's regrets, the sum of the plans, and play and plan of this round."""

    def __init__(self, form, player):
        self.form, self.player, self.sets = form, player, range(len(form.sets[player]))
        self.regrets, self.sum, self.play, self.plan = ([0] * form.counts[player] for _ in range(4))

    def deal(self, scale):
        """The play of the regrets, and the plan of this play."""
        self.plan[0] = scale
        for k in self.sets:
            own, before = self.form.sequences(self.player, k), self.form.before[self.player][k]
            weights = [max(self.regrets[s], 0) for s in own]
            self.play[own.start : own.stop] = shares(PLAY, weights if any(weights) else [1] * len(weights))
            self.plan[own.start : own.stop] = shares(self.plan[before], self.play[own.start : own.stop])

    def learn(self, other, is_plus):
        """Regrets grow by this round's worths; those of CFR+ are cut."""
        worths = [0] * self.form.counts[self.player]
        for weight, own, against in zip(self.form.weights, self.form.at[self.player], self.form.at[3 - self.player]):
            worths[own] += (weight if self.player == 1 else -weight) * other.plan[against]
        for k in reversed(self.sets):
            own = self.form.sequences(self.player, k)
            value = sum(self.play[s] * worths[s] for s in own) // PLAY
            for s in own:
                self.regrets[s] += worths[s] - value
                if is_plus:
                    self.regrets[s] = max(self.regrets[s], 0)
            worths[self.form.before[self.player][k]] += value

    def add(self, times):
        self.sum = [total + times * number for total, number in zip(self.sum, self.plan)]


class Kept:
    """An end of the bracket: its round, the sum of plans there, and the reply to it."""

    def __init__(self, played, numbers, reply):
        self.played, self.numbers, self.reply = played, numbers, reply

    def worth(self):
        return Fraction(self.reply.total, self.numbers[0])


def offered(form, players, played, ends):
    """The ends after an evaluation: the greatest total of player one's plans and the least of player two's, over what
    their rounds weigh; of equals the earlier one."""
    offers = [Kept(played, it.sum, sequence_form.reply(form, 3 - it.player, it.sum)) for it in players]
    if ends is None:
        return offers
    low, high = ends
    return [
        offers[0] if offers[0].worth() > low.worth() else low,
        offers[1] if offers[1].worth() < high.worth() else high,
    ]


def text_of_rounds(data, rounds, every, scale, is_plus):
    """The bytes of the text of a game file."""
    form = sequence_form.weigh(efg.read_game(data))
    text = certificate.Text(certificate.FORM_OF_PLUS if is_plus else certificate.FORM_OF_SOLVE)
    text.nodes, text.leaves = len(form.game.nodes), len(form.weights)
    text.sets, text.sequences = [len(it) for it in form.sets[1:]], form.counts[1:]
    text.unit, text.sum, text.mass = form.unit, Fraction(*form.total), form.mass
    text.rounds, text.every, text.scale = rounds, every, scale
    players, ends = [Player(form, player) for player in (1, 2)], None
    for played in range(1, rounds + 1):
        for it in players:
            it.deal(scale)
            it.add(played if is_plus else 1)
        for it, other in zip(players, reversed(players)):
            it.learn(other, is_plus)
        if played % every == 0 or played == rounds:
            low, high = ends = offered(form, players, played, ends)
            text.trace.append((played, low.played, low.reply.total, high.played, high.reply.total))
    if ends is not None:
        put_ends(form, text, ends)
    return certificate.text_of(text)


def put_ends(form, text, ends):
    text.ends = [
        certificate.End(
            kept.numbers[0],
            [[kept.numbers[s] for s in form.sequences(player, k)] for k in range(len(form.sets[player]))],
            kept.reply.total,
            [(value, choice + 1) for value, choice in zip(kept.reply.values, kept.reply.choices)],
        )
        for player, kept in zip((1, 2), ends)
    ]
    text.low, text.high = (kept.worth() / form.unit for kept in ends)
    text.second = text.bracket_of_two()
