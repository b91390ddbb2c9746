"""A game of OpenSpiel as a game file, and a policy for it as a profile, with the same numbers of sets.

A game is asked for its first state, and a state for what OpenSpiel's Python has: is_terminal, is_chance_node, returns,
chance_outcomes, current_player, information_state_string, legal_actions, action_to_string and child.
"""
import csv
import io
from fractions import Fraction

# A chance of so small a denominator is meant where it is so near to the number that is told.
MOST_BELOW, NEAR = 100_000, Fraction(1, 10**12)


class Export:
    """The nodes of a game in the order of the file, and the probabilities of a policy at each set. A policy has
    `action_probabilities`, which gives those of a state by the numbers of actions; without one all are equal. Chances
    are fractions where fractions with small denominators are meant, else decimals as they are told."""

    def __init__(self, game, policy=None):
        self.policy, self.rows, self.known = policy, [], ({}, {})
        self.counts = {"chance": 0, "leaf": 0}
        self.lines = [f'EFG 2 R {quoted(game)} {{ "One" "Two" }}']
        states = [game.new_initial_state()]
        while states:
            states.extend(reversed(self.put(states.pop())))

    def put(self, state):
        """Puts a node into the file; the states below it."""
        if state.is_terminal():
            self.counts["leaf"] += 1
            one, two = state.returns()
            self.lines.append(f't "" {self.counts["leaf"]} "" {{ {exact(one)} {exact(two)} }}')
            return []
        if state.is_chance_node():
            outcomes = state.chance_outcomes()
            self.counts["chance"] += 1
            names = [quoted(state.action_to_string(action)) for action, _ in outcomes]
            told = " ".join(f"{name} {chance}" for name, chance in zip(names, chances_of(outcomes)))
            self.lines.append(f'c "" {self.counts["chance"]} {{ {told} }} 0')
            return [state.child(action) for action, _ in outcomes]
        player, actions = state.current_player(), state.legal_actions()
        names = " ".join(quoted(state.action_to_string(action)) for action in actions)
        name = state.information_state_string()
        self.lines.append(f'p "" {player + 1} {self.set_of(state, player, name)} {quoted(name)} {{ {names} }} 0')
        return [state.child(action) for action in actions]

    def set_of(self, state, player, name):
        """The number of a player's set, whose probabilities are noted where it is new."""
        known = self.known[player]
        if name not in known:
            known[name] = len(known) + 1
            actions = state.legal_actions()
            told = self.policy.action_probabilities(state) if self.policy else None
            for place, action in enumerate(actions, 1):
                chance = Fraction(1, len(actions)) if told is None else repr(float(told.get(action, 0)))
                self.rows.append((player + 1, known[name], place, chance))
        return known[name]

    def game_data(self):
        return ("\n".join(self.lines) + "\n").encode()

    def profile_data(self):
        out = io.StringIO()
        writer = csv.writer(out, lineterminator="\n")
        writer.writerow(("player", "set", "action", "probability"))
        writer.writerows(self.rows)
        return out.getvalue().encode()


def quoted(text):
    """A name as a game file has it, on one line."""
    return '"' + " ".join(str(text).replace("\\", "/").replace('"', "'").split("\n")) + '"'


def exact(payoff):
    """A payoff as OpenSpiel tells it: a float counts as the decimal that Python prints for it."""
    return Fraction(repr(float(payoff)))


def chances_of(outcomes):
    """The probabilities of chance: fractions that add up to 1 where they are near enough, else the decimals."""
    told = [Fraction(chance) for _, chance in outcomes]
    meant = [it.limit_denominator(MOST_BELOW) for it in told]
    is_near = all(abs(one - two) <= NEAR for one, two in zip(told, meant))
    return meant if is_near and sum(meant) == 1 else [repr(float(chance)) for _, chance in outcomes]
