"""Plans in whole numbers: those of a text beside the names of the game file, and those dealt from probabilities."""
from fractions import Fraction
from math import gcd, lcm

import efg
import files
import sequence_form

# The finest root that a text may have: so many rounds of so fine a scale.
MOST_ROUNDS, MOST_SCALE = 65_536, 1_048_576
# What is not rounded is kept in so many parts of a unit, cut off.
FINE = 2**64


class Differs(files.Fault):
    """Why a text can't be one of this game."""


class Line:
    """An action of a set, with its weight in the plan and the weight before the set."""

    def __init__(self, set_, action, weight, before):
        self.set, self.action, self.weight, self.before = set_, action, weight, before

    def probability(self):
        return Fraction(self.weight, self.before) if self.before else None


def compare_head(game, text):
    if game.break_of_recall:
        raise efg.Fault("refused 18 NotRecall node {} earlier {}".format(*game.break_of_recall))
    for what, ours, told in (
        ("nodes", len(game.nodes), text.nodes),
        ("leaves", game.leaves(), text.leaves),
        ("sets", [len(game.sets[k]) for k in (1, 2)], text.sets),
        ("sequences", [game.sequences(k) for k in (1, 2)], text.sequences),
    ):
        if ours != told:
            raise Differs(f"the text is of another game: it says {what} {told}, the game file {ours}")
    if text.ends is None:
        raise Differs("the text has no plans, as it has no rounds")


def lines_of(game, player, end):
    """The lines of a player's plan, in the order of its sets."""
    weight_of = {None: end.root}
    lines = []
    for set_, weights in zip(game.sets[player].values(), end.weights):
        where = f"player {player}'s set {set_.number}"
        before = weight_of[set_.before]
        if len(weights) != len(set_.actions):
            raise Differs(f"{where} has {len(set_.actions)} actions in the game file, and {len(weights)} in the text")
        if sum(weights) != before:
            raise Differs(f"the weights of {where} add up to {sum(weights)}, and {before} stands before it")
        for place, (action, weight) in enumerate(zip(set_.actions, weights)):
            weight_of[set_, place] = weight
            lines.append(Line(set_, action, weight, before))
    return lines


class Plan:
    """A plan: the number of each sequence. Beside it stands what each number would be without rounding, in parts of
    FINE: less than `steps` parts too small."""

    def __init__(self, numbers, exact, steps):
        self.numbers, self.exact, self.steps, self.root = numbers, exact, steps, numbers[0]

    def is_rounded(self):
        return any(number * FINE != exact for number, exact in zip(self.numbers, self.exact))


def least_root(form, player, chances):
    """The least root whose plan has every number of these probabilities without rounding; None where it is more than a
    text may have. Each set's probabilities are whole numbers, in proportion."""
    common, reached = 1, [(1, 1)]
    for k, weights in enumerate(chances):
        before, whole = reached[form.before[player][k]], sum(weights)
        reached += [sequence_form.product(before, (weight, whole)) for weight in weights]
        common = lcm(common, *(it[1] for it in reached[-len(weights) :]))
        if common > MOST_ROUNDS * MOST_SCALE:
            return None
    return common


def step_of(root, scale):
    """The least number of rounds that, times the scale, comes to a multiple of the root."""
    return root // gcd(root, scale)


def rounds_for(root, scale):
    """The most rounds whose plans of this scale have a multiple of this least root, or simply the most where there are
    none."""
    step = MOST_ROUNDS + 1 if root is None else step_of(root, scale)
    return MOST_ROUNDS // step * step or MOST_ROUNDS


def serving_scale(roots):
    """The greatest scale with which each of these least roots has rounds, None where there is none. What a scale has in
    common with the roots decides, so the divisors of them are all that there is to look at."""
    found = [it for it in divisors(lcm(*roots), MOST_SCALE) if all(step_of(root, it) <= MOST_ROUNDS for root in roots)]
    return max((MOST_SCALE // it * it for it in found), default=None)


def divisors(number, most):
    """The divisors of a number that are at most so much."""
    found = [1]
    for prime, power in factors(number, most):
        powers = [prime**k for k in range(1, power + 1)]
        found += [one * two for one in found for two in powers if one * two <= most]
    return found


def factors(number, most):
    """The primes of a number that are at most so much, each with its power."""
    prime = 2
    while prime <= most and number > 1:
        if prime * prime > number:
            prime = number
        power = 0
        while number % prime == 0:
            number, power = number // prime, power + 1
        if power and prime <= most:
            yield prime, power
        prime += 1 + prime % 2


def shares(units, weights):
    """Whole units dealt in proportion to weights, as in the rounds of docs/certificate.md."""
    whole, running, ends = sum(weights), 0, [0]
    for weight in weights:
        running += weight
        ends.append(units * running // whole)
    return [end - start for start, end in zip(ends, ends[1:])]


def deal(form, player, root, chances):
    """The plan of these probabilities: each set's units are dealt from those of the sequence before it."""
    numbers, exact, steps = [root], [root * FINE], [0]
    for k, weights in enumerate(chances):
        before, whole = form.before[player][k], sum(weights)
        numbers += shares(numbers[before], weights)
        exact += [exact[before] * weight // whole for weight in weights]
        steps += [steps[before] + 1] * len(weights)
    return Plan(numbers, exact, max(steps))


def most_change(form, player, plan, reply):
    """At most so much, in payoff, rounding changed what the plan is sure of, which is the total of this reply."""
    if not plan.is_rounded():
        return Fraction(0)
    unrounded = sequence_form.reply(form, 3 - player, plan.exact).total
    parts = abs(reply.total * FINE - unrounded) + form.mass * plan.steps
    return Fraction(parts, form.unit * plan.root * FINE)


def reply_as_plan(form, player, reply):
    """The choices of a reply as probabilities of each set."""
    sets = form.sets[player]
    return [[int(a == choice) for a in range(len(set_.actions))] for set_, choice in zip(sets, reply.choices)]
