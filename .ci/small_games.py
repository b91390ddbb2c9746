"""Random small games with perfect recall and random strategies for them, and what those are sure of, by looking at
every pure strategy of the other player: nothing of it is shared with the tools."""
import itertools
import random
from fractions import Fraction

LEAST_NODES, MOST_PURE = 12, 400
# What the payoffs of a game add up to, by its seed.
SUMS = (Fraction(0), Fraction(3), Fraction(0), Fraction(-5, 4))


class SmallGame:
    """A game as nested nodes, as a file, and each player's sets in the order of their first nodes. `sum` is what each
    leaf pays both players together.

    A node is a leaf (player one's payoff), or a kind (0 chance, 1, 2), the number of its set, and its children.
    `sets[player]` has for each number how many actions the set has; `chances` has the probabilities of each chance
    set."""

    def __init__(self, seed):
        self.random, self.sum = random.Random(seed), SUMS[seed % len(SUMS)]
        self.sets, self.chances, self.last = {1: {}, 2: {}}, {}, {1: {}, 2: {}}
        self.lines, self.outcomes = ['EFG 2 R "Small" { "One, the first" "Two" }', '""'], 0
        self.root = self.node(4, {1: None, 2: None}, must_go_on=True)

    def node(self, depth, own, must_go_on=False):
        """A random node, with at most so many more below it. `own` has each player's last choice."""
        kind = self.random.choice((0, 1, 1, 2, 2)) if depth and (must_go_on or self.random.random() < 0.75) else None
        if kind is None:
            return self.leaf()
        if kind == 0:
            return self.chance(depth, own)
        number, count, told = self.set_of(kind, own[kind])
        self.lines.append(f'p "" {kind} {told} 0')
        children = [self.node(depth - 1, {**own, kind: (number, k)}) for k in range(count)]
        return kind, number, children

    def leaf(self):
        payoff = Fraction(self.random.randint(-6, 6), self.random.choice((1, 1, 2, 3)))
        self.outcomes += 1
        self.lines.append(f't "" {self.outcomes} "" {{ {payoff}, {self.sum - payoff} }}')
        return payoff

    def chance(self, depth, own):
        parts = [self.random.randint(1, 5) for _ in range(self.random.randint(2, 3))]
        number = len(self.chances) + 1
        self.chances[number] = [Fraction(it, sum(parts)) for it in parts]
        told = " ".join(f'"c{k}" {it}' for k, it in enumerate(self.chances[number]))
        self.lines.append(f'c "" {number} "" {{ {told} }} 0')
        return 0, number, [self.node(depth - 1, own) for _ in parts]

    def set_of(self, player, last):
        """A set for a node before which its player chose this last: a new one, or one with the same choices before."""
        alike = [number for number, before in self.last[player].items() if before == last]
        if alike and self.random.random() < 0.6:
            number = self.random.choice(alike)
            return number, self.sets[player][number], number
        number = len(self.sets[player]) + 1
        count = self.random.randint(1, 3)
        self.sets[player][number], self.last[player][number] = count, last
        actions = " ".join(f'"{name}"' for name in ('a, b', 'say \\"a\\"', "c")[:count])
        return number, count, f'{number} "set {number}, of {player}" {{ {actions} }}'

    def data(self):
        return ("\n".join(self.lines) + "\n").encode()

    def strategy(self, player, sizes=(0, 1, 1, 2, 7, 30, 997)):
        """Random probabilities for each set of a player, in proportion to these sizes; some are 0."""
        found = {}
        for number, count in self.sets[player].items():
            parts = [self.random.choice(sizes) for _ in range(count)]
            parts[self.random.randrange(count)] += 1
            found[number] = [Fraction(it, sum(parts)) for it in parts]
        return found

    def payoff(self, strategies, node=None):
        """What player one gets where both play these strategies."""
        node = self.root if node is None else node
        if isinstance(node, Fraction):
            return node
        kind, number, children = node
        chances = strategies[kind][number] if kind else self.chances[number]
        return sum((p * self.payoff(strategies, it) for p, it in zip(chances, children) if p), Fraction(0))

    def pure(self, player):
        """All pure strategies of a player."""
        numbers = list(self.sets[player])
        for choices in itertools.product(*map(range, self.sets[player].values())):
            chosen = dict(zip(numbers, choices))
            yield {it: [Fraction(k == chosen[it]) for k in range(count)] for it, count in self.sets[player].items()}

    def pure_count(self, player):
        count = 1
        for it in self.sets[player].values():
            count *= it
        return count

    def visits(self, strategies, player, number, node=None, reach=Fraction(1)):
        """The children of the set's nodes, with how often chance and the other player lead there."""
        node = self.root if node is None else node
        if isinstance(node, Fraction):
            return []
        kind, own, children = node
        if kind == player and own == number:
            return [(reach, children)]
        chances = strategies[kind][own] if kind else self.chances[own]
        parts = [reach * p for p in ([1] * len(children) if kind == player else chances)]
        return [it for p, child in zip(parts, children) for it in self.visits(strategies, player, number, child, p)]

    def own_reach(self, strategies, player, number):
        """How often a player's own choices lead to a set."""
        if self.last[player][number] is None:
            return Fraction(1)
        before, choice = self.last[player][number]
        return self.own_reach(strategies, player, before) * strategies[player][before][choice]

    def worths(self, strategies, player, number):
        """How often a set is visited where its player goes there, and what each action is worth at each visit where
        the player goes on as well as can be; None where it is never visited."""
        found = self.visits(strategies, player, number)
        often, count = sum(reach for reach, _ in found), self.sets[player][number]
        if not often:
            return often, [None for _ in range(count)]
        best = max if player == 1 else min
        ways = [{**strategies, player: it} for it in self.pure(player)]
        paid = [[sum(r * self.payoff(way, it[k]) for r, it in found) for way in ways] for k in range(count)]
        return often, [best(it) / often for it in paid]

    def bracket(self, strategies):
        """What the first strategy gets at least, and what the second one concedes at most."""
        low = min(self.payoff({1: strategies[1], 2: it}) for it in self.pure(2))
        high = max(self.payoff({1: it, 2: strategies[2]}) for it in self.pure(1))
        return low, high


def profile_of(strategies, players=(1, 2)):
    """The line of Gambit for these strategies."""
    numbers = [str(it) for player in players for chances in strategies[player].values() for it in chances]
    return (",".join(["NE", *numbers]) + "\n").encode()


def small_games(count, first=0):
    """So many games that aren't tiny, and have few pure strategies."""
    found = (SmallGame(seed) for seed in itertools.count(first))
    small = (it for it in found if len(it.lines) - 2 >= LEAST_NODES)
    few = (it for it in small if max(it.pure_count(1), it.pure_count(2)) <= MOST_PURE)
    return itertools.islice(few, count)
