"""A game in numbers, by docs/game_file.md: the unit, the weights of the leaves, both players' sequences, and the best
replies to a plan. All of it is in Python's whole numbers, by passes over the nodes, the leaves and the sets.

The faults of a game's numbers, from ChanceNegative to Scale, are found here with the lines of that page, so that what
the program refuses is refused.
"""
from fractions import Fraction
from math import gcd, lcm

import efg

# The amounts of a place, of which none may pass the limit.
AMOUNTS = ("the reach", "player one's payoff on the path", "player two's payoff on the path")


class Form:
    """The sequence form of a game. `weights` has a number for each leaf, and `at[k]` player k's sequence there;
    `largest` is the largest size of a leaf's payoff. Of player k's sets, in their order, `sets[k]` has what the file
    says, `first[k]` the number of the first sequence and `before[k]` that of the sequence before the set. `counts[k]`
    says how many sequences player k has. `total` is what each leaf pays both players together, as a pair."""

    def __init__(self, game):
        self.game, self.total, self.unit, self.mass, self.weights, self.at = game, None, 1, 0, [], (None, [], [])
        self.largest = Fraction(0)
        self.sets = tuple(list(sets.values()) for sets in game.sets)
        self.first, self.before, self.counts = ([], [], []), ([], [], []), [0, 1, 1]
        self.start_of = {}
        for player in (1, 2):
            for set_ in self.sets[player]:
                self.add_set(player, set_)

    def add_set(self, player, set_):
        start = self.start_of[set_] = self.counts[player]
        self.first[player].append(start)
        self.before[player].append(self.start_of[set_.before[0]] + set_.before[1] if set_.before else 0)
        self.counts[player] += len(set_.actions)

    def sequences(self, player, k):
        """The numbers of the sequences of a player's set of this place, from 0 on."""
        start = self.first[player][k]
        return range(start, start + len(self.sets[player][k].actions))

    def payoff(self, one, two):
        """What player one gets on average where both play these plans."""
        total = sum(w * one[s] * two[t] for w, s, t in zip(self.weights, self.at[1], self.at[2]))
        return Fraction(total, self.unit * one[0] * two[0])


class Place:
    """A node with the reach of it, both players' payoffs on the way to it, its own included, and both sequences. Reach
    and payoffs are pairs of a numerator and a denominator in lowest terms."""

    __slots__ = ("node", "reach", "pays", "at")

    def __init__(self, node, reach, pays, at):
        self.node, self.reach, self.pays, self.at = node, reach, pays, at


def pair(value):
    return value.numerator, value.denominator


def product(one, two):
    top, bottom = one[0] * two[0], one[1] * two[1]
    common = gcd(top, bottom)
    return top // common, bottom // common


def total(one, two):
    top, bottom = one[0] * two[1] + two[0] * one[1], one[1] * two[1]
    common = gcd(top, bottom)
    return top // common, bottom // common


def scale_fault(node, what, amount):
    return efg.Fault(f"refused 19 Scale node {node}", why=f"{what} is {Fraction(*amount)}")


def passes_limit(number):
    return abs(number[0]) > efg.LIMIT or number[1] > efg.LIMIT


def places(form):
    """The place of each node, in the order of the file."""
    game = form.game
    chances = {set_: [pair(it) for it in set_.chances] for set_ in game.sets[0].values()}
    payoffs = {outcome: tuple(map(pair, outcome.payoffs)) for outcome in game.outcomes.values()}
    wanted = [((1, 1), ((0, 1), (0, 1)), (None, 0, 0))]
    for node in game.nodes:
        reach, pays, at = wanted.pop()
        if node.outcome is not None:
            pays = tuple(map(total, pays, payoffs[node.outcome]))
        yield Place(node, reach, pays, at)
        if node.set is None:
            continue
        if node.set.player == 0:
            wanted.extend((product(reach, it), pays, at) for it in reversed(chances[node.set]))
            continue
        start = form.start_of[node.set]
        for sequence in reversed(range(start, start + len(node.set.actions))):
            wanted.append((reach, pays, (None, sequence, at[2]) if node.set.player == 1 else (None, at[1], sequence)))


def test_chances(game):
    """The faults of probabilities: below 0 first, and then sums."""
    sets = game.sets[0].values()
    for set_ in sets:
        if min(set_.chances) < 0:
            raise efg.Fault(f"refused 15 ChanceNegative node {set_.first}")
    for set_ in sets:
        running = (0, 1)
        for chance in set_.chances:
            running = total(running, pair(chance))
            if passes_limit(running):
                raise scale_fault(set_.first, "the sum of the set's first probabilities", running)
        if running != (1, 1):
            raise efg.Fault(f"refused 16 ChanceSum node {set_.first}")


def leaf_share(place, number, form):
    """A leaf's reach times payoff, by which the form's unit grows; `number` is that of its node."""
    paid = total(*place.pays)
    if passes_limit(paid):
        raise scale_fault(number, "the sum of both payoffs", paid)
    if form.total is None:
        form.total, form.unit = paid, paid[1]
    if paid != form.total:
        raise efg.Fault(f"refused 17 NotConstantSum node {number}")
    share = product(place.reach, place.pays[0])
    if passes_limit(share):
        raise scale_fault(number, "reach times player one's payoff", share)
    form.unit = lcm(form.unit, share[1])
    if form.unit > efg.LIMIT:
        raise scale_fault(number, "the unit of the leaves up to here", (form.unit, 1))
    return share


def take_leaves(form):
    """Puts the leaves into the form, and returns the node's number and the reach times payoff of each."""
    numbers, shares, payoffs = [], [], set()
    for number, place in enumerate(places(form), 1):
        for what, amount in zip(AMOUNTS, (place.reach, *place.pays)):
            if passes_limit(amount):
                raise scale_fault(number, what, amount)
        if place.node.set is None:
            shares.append(leaf_share(place, number, form))
            numbers.append(number)
            payoffs.add(place.pays[0])
            form.at[1].append(place.at[1])
            form.at[2].append(place.at[2])
    form.largest = max(abs(Fraction(*it)) for it in payoffs)
    return numbers, shares


def weigh(game):
    """The form of a game that has no fault of its numbers; else the first such fault."""
    test_chances(game)
    form = Form(game)
    numbers, shares = take_leaves(form)
    top, bottom = form.total
    if abs(form.unit // bottom * top) > efg.LIMIT:
        raise scale_fault(numbers[0], "the sum of both payoffs in the unit", (form.unit // bottom * top, 1))
    for number, (top, bottom) in zip(numbers, shares):
        form.weights.append(form.unit // bottom * top)
        form.mass += abs(form.weights[-1])
        if form.mass > efg.LIMIT:
            raise scale_fault(number, "the mass of the leaves up to here", (form.mass, 1))
    if game.break_of_recall:
        raise efg.Fault("refused 18 NotRecall node {} earlier {}".format(*game.break_of_recall))
    return form


class Reply:
    """A best reply of a player: the worth of each of its sequences, and the value and the choice of each of its sets,
    a place from 0 on, in player one's payoff times the unit and the root of the plan that it answers."""

    def __init__(self, worths, values, choices):
        self.worths, self.values, self.choices, self.total = worths, values, choices, worths[0]


def reply(form, player, numbers):
    """The best reply of a player to these numbers of the other one's sequences."""
    return reply_by(form, player, numbers, form.weights, max if player == 1 else min)


def reply_by(form, player, numbers, weights, best):
    """The reply whose sets have the best worth of their sequences, where the leaves have these weights."""
    worths = [0] * form.counts[player]
    for weight, own, other in zip(weights, form.at[player], form.at[3 - player]):
        worths[own] += weight * numbers[other]
    sets = range(len(form.sets[player]))
    values, choices = [0 for _ in sets], [0 for _ in sets]
    for k in reversed(sets):
        own = form.sequences(player, k)
        span = worths[own.start : own.stop]
        values[k] = best(span)
        choices[k] = span.index(values[k])
        worths[form.before[player][k]] += values[k]
    return Reply(worths, values, choices)
