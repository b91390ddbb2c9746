"""Makes a certificate of plans that are told as probabilities: in whole numbers, each with the best reply to it.

A text has one scale, and the root of each plan is the scale times a number of rounds. The least root in which a plan
has only whole numbers follows from its probabilities. A scale serves a plan where that root divides the scale times so
many rounds as a text may have; whether some scale serves both plans is found among the divisors of both roots.
"""
from fractions import Fraction

import certificate
import plans
import profiles
import sequence_form
from rounding import UP, to_digits

# The end of the bracket that a player's plan is sure of.
END_OF = {1: "LOW", 2: "HIGH"}


def scale_of(roots):
    """The scale for plans with these least roots, None for one that no text has: the greatest that serves all; where
    there is none, one that serves the first of them that has any; else the greatest of all."""
    whole = [it for it in roots if it is not None]
    wanted = [whole] * (len(whole) == len(roots)) + [[it] for it in whole]
    return next((scale for own in wanted if (scale := plans.serving_scale(own))), plans.MOST_SCALE)


def planned(form, player, chances, root, scale):
    """A player's plan of this scale, as fine as can be, and the other player's best reply to it."""
    plan = plans.deal(form, player, scale * plans.rounds_for(root, scale), chances)
    return plan, sequence_form.reply(form, 3 - player, plan.numbers)


class Certified:
    """A certificate's text of the plans that are told, and how much, in payoff, rounding changed each at most. Where
    nothing is told of a player, its plan is a best response to the other one's."""

    def __init__(self, form, told):
        self.form, self.told = form, told
        self.roots = {player: plans.least_root(form, player, chances) for player, chances in told.items()}
        self.scale = scale_of(list(self.roots.values()))
        pairs = {player: planned(form, player, told[player], self.roots[player], self.scale) for player in told}
        for player in {1, 2} - set(told):
            answer = plans.reply_as_plan(form, player, pairs[3 - player][1])
            pairs[player] = planned(form, player, answer, 1, self.scale)
        self.pairs = pairs
        self.changes = {player: plans.most_change(form, player, *pairs[player]) for player in sorted(told)}
        self.text = self.text_of_pairs()

    def text_of_pairs(self):
        text, form = certificate.Text(certificate.FORM_OF_SOLVE), self.form
        text.nodes, text.leaves = len(form.game.nodes), len(form.weights)
        text.sets = [len(form.sets[player]) for player in (1, 2)]
        text.sequences = form.counts[1:]
        text.unit, text.sum, text.mass = form.unit, Fraction(*form.total), form.mass
        text.rounds, text.every, text.scale = plans.MOST_ROUNDS, plans.MOST_ROUNDS, self.scale
        text.ends = one, two = tuple(self.end_of(player) for player in (1, 2))
        text.trace = [(text.rounds, one.root // text.scale, one.total, two.root // text.scale, two.total)]
        text.low, text.high = text.bracket_after(text.trace[0])
        text.second = text.bracket_of_two()
        return text

    def end_of(self, player):
        """A plan and the reply to it, as a text has them."""
        form, (plan, reply) = self.form, self.pairs[player]
        weights = [[plan.numbers[it] for it in form.sequences(player, k)] for k in range(len(form.sets[player]))]
        replies = [(value, choice + 1) for value, choice in zip(reply.values, reply.choices)]
        return certificate.End(plan.root, weights, reply.total, replies)

    def is_rounded(self):
        return any(self.pairs[player][0].is_rounded() for player in self.told)

    def data(self):
        """The certificate's bytes."""
        return certificate.text_of(self.text)

    def notes(self):
        """What is to be said of it."""
        for player in {1, 2} - set(self.told):
            speaks = END_OF[3 - player]
            yield f"player {player}'s plan is a best response to the profile, of which {speaks} alone speaks"
        yield self.said_of_rounding()
        if self.is_rounded() and all(it and plans.serving_scale([it]) for it in self.roots.values()):
            yield "no scale serves both plans; --player 1 and --player 2 take one alone, and round nothing"

    def said_of_rounding(self):
        if not self.is_rounded():
            return "nothing was rounded"
        if not any(self.changes.values()):
            return "rounding to whole numbers changed no bound"
        changes = [(END_OF[player], change) for player, change in self.changes.items() if change]
        ends = [f"{end} by at most {to_digits(change, 2, UP):.1e}" for end, change in changes]
        share = max(self.changes.values()) / (self.form.largest or 1)
        power = share.numerator.bit_length() - share.denominator.bit_length() + 1
        said = f"{' and '.join(ends)} in payoff, less than 2^{power} of the largest payoff"
        return f"rounding to whole numbers changed {said}"


def told_by_profile(form, data, players):
    """What a profile has at each set, in proportion, for each of these players, and what is to be said of it."""
    sets = profiles.read_profile(data, form.game, players)
    found = {player: profiles.chances_of(form.game, player, sets[player]) for player in players}
    return {player: it[0] for player, it in found.items()}, [note for it in found.values() for note in it[1]]


def told_by_text(form, text, players):
    """What a text's plans have at each set, in proportion, for each of these players."""
    plans.compare_head(form.game, text)
    if (form.unit, Fraction(*form.total), form.mass) != (text.unit, text.sum, text.mass):
        raise plans.Differs("the text is of another game: its unit, its sum or its mass isn't that of the game file")
    for player in players:
        plans.lines_of(form.game, player, text.ends[player - 1])
    ends = {player: text.ends[player - 1].weights for player in players}
    return {player: [own if any(own) else [1] * len(own) for own in weights] for player, weights in ends.items()}


def notes_beside(text, made):
    """What is to be said of a text whose bracket isn't that of its plans, as far as rounding lets it be seen."""
    for player, claimed, found in ((1, text.low, made.text.low), (2, text.high, made.text.high)):
        if player in made.told and abs(claimed - found) > made.changes[player]:
            yield f"the text says {END_OF[player]} {claimed}, and its plans have {found}"
