"""A stand-in for OpenSpiel with the calls that `from_openspiel` makes: Kuhn poker, and policies for it."""
import contextlib
import os
import sys
import types


class State:
    """Kuhn poker as OpenSpiel plays it: two cards of three, then passes (0) and bets (1)."""

    def __init__(self, cards=(), moves=(), digits=None):
        self.cards, self.moves, self.digits = cards, moves, digits

    def is_chance_node(self):
        return len(self.cards) < 2

    def is_terminal(self):
        return self.moves in ((0, 0), (0, 1, 0), (0, 1, 1), (1, 0), (1, 1))

    def current_player(self):
        return -1 if self.is_chance_node() else len(self.moves) % 2

    def legal_actions(self):
        return [it for it in range(3) if it not in self.cards] if self.is_chance_node() else [0, 1]

    def chance_outcomes(self):
        actions = self.legal_actions()
        chance = 1 / len(actions)
        return [(it, chance if self.digits is None else round(chance, self.digits)) for it in actions]

    def action_to_string(self, action):
        return f"Deal:{action}" if self.is_chance_node() else ("Pass", "Bet")[action]

    def information_state_string(self):
        return str(self.cards[self.current_player()]) + "".join("pb"[it] for it in self.moves)

    def child(self, action):
        if self.is_chance_node():
            return State((*self.cards, action), (), self.digits)
        return State(self.cards, (*self.moves, action), self.digits)

    def returns(self):
        if self.moves in ((0, 1, 0), (1, 0)):
            winner, won = (1, 1) if self.moves == (0, 1, 0) else (0, 1)
        else:
            winner, won = (0 if self.cards[0] > self.cards[1] else 1), 1 + (1 in self.moves)
        return [float(won), float(-won)] if winner == 0 else [float(-won), float(won)]


class Kind:
    """What OpenSpiel tells of a game's moves."""

    def __init__(self, dynamics):
        self.dynamics = dynamics


class Game:
    """The game by its name, whose chances have so many digits, for so many players, whose moves are of this kind."""

    def __init__(self, digits=None, players=2, dynamics="sequential"):
        self.digits, self.players, self.dynamics = digits, players, dynamics

    def __str__(self):
        return "kuhn_poker()"

    def get_type(self):
        return Kind(self.dynamics)

    def num_players(self):
        return self.players

    def new_initial_state(self):
        if self.dynamics == "simultaneous":
            raise ValueError("states of simultaneous moves have no current player")
        return State(digits=self.digits)


GAMES = {
    "kuhn_poker": Game(),
    "kuhn_poker(digits=6)": Game(digits=6),
    "kuhn_poker(players=3)": Game(players=3),
    "kuhn_poker_at_once": Game(dynamics="simultaneous"),
}


class BetsWithTheKing:
    """A policy that bets with the best card alone, and never folds it."""

    def __init__(self, game):
        self.game = game

    def action_probabilities(self, state):
        return {1: 1.0} if state.cards[state.current_player()] == 2 else {0: 0.75, 1: 0.25}


def load_game(name):
    if name not in GAMES:
        raise RuntimeError(f"Unknown game '{name}'")
    return GAMES[name]


@contextlib.contextmanager
def stand_in(folder):
    """OpenSpiel's module, and one with policies, while the work is done in this folder."""
    spiel, policies = types.ModuleType("pyspiel"), types.ModuleType("policies")
    spiel.load_game, spiel.convert_to_turn_based = load_game, lambda game: Game()
    spiel.GameType = types.SimpleNamespace(Dynamics=types.SimpleNamespace(SIMULTANEOUS="simultaneous"))
    policies.bets_with_the_king = BetsWithTheKing
    before = os.getcwd()
    sys.modules.update(pyspiel=spiel, policies=policies)
    os.chdir(folder)
    try:
        yield
    finally:
        os.chdir(before)
        del sys.modules["pyspiel"], sys.modules["policies"]
