"""How wide the bracket of a game can be after some rounds, from the game's numbers alone, before a round is played: the
definitions of def_closing and def_closing_games, in Python's whole numbers.

A spread of a set says how far apart its actions can be worth in a round, over the root of the other player's plan. The
least of three is taken: the range of the game's payoffs, the sizes of the weights of the leaves behind the set, and the
gap of its actions, which is the most that one can be worth more than another against the other player's best reply.
"""
import heapq
from collections import defaultdict
from fractions import Fraction
from math import isqrt

import sequence_form

UNITS = 65_536
MOST_ROUNDS = {False: 65_536, True: 2_048}
MOST_SCALE = {False: 1_048_576, True: 16_384}


def root_up(number):
    """The least number whose square is at least this one."""
    return isqrt(number - 1) + 1 if number else 0


def payoff_range(form):
    """How far apart the least and the greatest payoff of player one are, times the unit, each rounded outward."""
    pays = {place.pays[0] for place in sequence_form.places(form) if place.node.set is None}
    floors = [form.unit * top // bottom for top, bottom in pays]
    ceilings = [-(-form.unit * top // bottom) for top, bottom in pays]
    return max(ceilings) - min(floors)


def sizes_after(form, player):
    """For each set of a player the sizes of the weights of all leaves behind it."""
    sizes = [0] * form.counts[player]
    for weight, own in zip(form.weights, form.at[player]):
        sizes[own] += abs(weight)
    found = [0 for _ in form.sets[player]]
    for k in reversed(range(len(found))):
        found[k] = sum(sizes[s] for s in form.sequences(player, k))
        sizes[form.before[player][k]] += found[k]
    return found


class Gaps:
    """The gaps of a player's sets. `most[s]` and `least[s]` have, for each sequence of the other player where it isn't
    0, what the leaves at the player's sequence s or behind it can be worth together, where the player may choose anew
    at each set for each of the other one's sequences."""

    def __init__(self, form, player):
        self.form, self.player, self.other = form, player, 3 - player
        self.set_of = {s: k for k in range(len(form.sets[self.other])) for s in form.sequences(self.other, k)}
        self.most = [defaultdict(int) for _ in range(form.counts[player])]
        for weight, own, other in zip(form.weights, form.at[player], form.at[self.other]):
            self.most[own][other] += weight if player == 1 else -weight
        self.least = [dict(it) for it in self.most]

    def found(self):
        gaps = [0 for _ in self.form.sets[self.player]]
        for k in reversed(range(len(gaps))):
            own, before = self.form.sequences(self.player, k), self.form.before[self.player][k]
            pairs = ((s, t) for s in own for t in own if s != t)
            gaps[k] = max((self.gap(s, t) for s, t in pairs), default=0)
            for worths, best in ((self.most, max), (self.least, min)):
                for other in {it for s in own for it in worths[s]}:
                    worth = best(worths[s].get(other, 0) for s in own)
                    worths[before][other] = worths[before].get(other, 0) + worth
        return gaps

    def gap(self, s, t):
        """The most by which the sequence s can be worth more than t, and 0 where it can't."""
        sums = dict(self.most[s])
        for other, worth in self.least[t].items():
            sums[other] = sums.get(other, 0) - worth
        return max(self.best_total(sums), 0)

    def best_total(self, sums):
        """What the other player's best reply gets of these sums, by the sets alone that they lie in."""
        wanted = {self.set_of[s] for s in sums if s}
        queue = [-k for k in wanted]
        heapq.heapify(queue)
        while queue:
            k = -heapq.heappop(queue)
            before = self.form.before[self.other][k]
            sums[before] = sums.get(before, 0) + max(sums.get(s, 0) for s in self.form.sequences(self.other, k))
            if before and self.set_of[before] not in wanted:
                wanted.add(self.set_of[before])
                heapq.heappush(queue, -self.set_of[before])
        return sums.get(0, 0)


def spreads(form):
    """For each player's sets the number of actions, and the spread."""
    span, found = payoff_range(form), []
    for player in (1, 2):
        counts = [len(it.actions) for it in form.sets[player]]
        for count, *each in zip(counts, sizes_after(form, player), Gaps(form, player).found()):
            found.append((count, min(span, *each)))
    return found


class Promise:
    """What is promised of a game at a scale, with plain rounds or those of CFR+."""

    def __init__(self, form, scale, is_plus):
        self.unit, self.scale, self.is_plus = form.unit, scale, is_plus
        # What grows with the root of the rounds, by the number of further actions; what each round adds to the bounds
        # of regrets; and what the dealing of its plans costs.
        self.shrinking, self.drift, self.dealing = defaultdict(int), 0, 0
        for count, spread in spreads(form):
            if count > 1:
                self.shrinking[count - 1] += scale * spread
                self.drift += (scale * (count - 1) * spread + 2 * UNITS - 1) // UNITS * root_up(count)
                self.dealing += (count - 1) * spread

    def weight(self, rounds):
        """What the rounds weigh together."""
        return rounds * (rounds + 1) // 2 if self.is_plus else rounds

    def width(self, rounds):
        """How far apart the totals of the best replies to both sums of plans can be."""
        regrets = sum(size * root_up(rounds * further) for further, size in self.shrinking.items())
        times = rounds if self.is_plus else 1
        return (regrets + rounds * self.drift) * times + self.weight(rounds) * self.dealing

    def after(self, rounds):
        """HIGH less LOW is at most this after so many rounds."""
        return Fraction(self.width(rounds), self.unit * self.weight(rounds) * self.scale)

    def floor(self):
        """What the roundings leave, however many rounds are played."""
        return Fraction((2 if self.is_plus else 1) * self.drift + self.dealing, self.unit * self.scale)

    def rounds_for(self, width):
        """The least number of rounds after which no more than this width is promised, within the limit, or None."""
        top, bottom = width.numerator * self.unit * self.scale, width.denominator
        counts = range(1, MOST_ROUNDS[self.is_plus] + 1)
        return next((it for it in counts if self.width(it) * bottom <= top * self.weight(it)), None)


def promise(game, scale, is_plus):
    """The promise of a game that was read; it is refused as the program refuses it."""
    return Promise(sequence_form.weigh(game), scale, is_plus)
