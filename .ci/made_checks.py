"""Checks of `make_game`, without the program: how large its games are, that each leaf pays what the rules say of the
actions that lead there, and what equal chances concede, as it is published."""
import tempfile
from fractions import Fraction

from checks import KUHN
from tool_calls import tool

import certificate
import efg
import made_games
import sequence_form

# Games with their nodes, their leaves and both players' sets, by counting. In Leduc poker a player has three turns in a
# round, and five ways lead from the first round to the second: of 3 ranks 3 * (3 + 3 * 5 * 3) sets.
SIZES = [
    (["leduc"], (9457, 5520, 144, 144)),
    (["leduc", "2"], (1985, 1128, 66, 66)),
    (["liars_dice", "2"], (127, 60, 16, 16)),
    (["liars_dice", "3"], (1147, 567, 96, 96)),
    (["goofspiel", "1"], (1, 1, 0, 0)),
    (["goofspiel", "3"], (67, 36, 8, 8)),
    (["goofspiel"], (1077, 576, 81, 81)),
]
# How far LOW is from HIGH where both players take each action as likely, as OpenSpiel's tests have it.
EQUAL_CHANCES = {"kuhn_poker": Fraction(11, 12), "leduc": Fraction("4.747222222222222")}


def leduc_pays(size, dealt, said):
    """What player one gets after these cards, and what was said in turn."""
    ranks = [it[0] for it in dealt]
    order = "A23456789TJQK"
    put_in, turn, bet = [1, 1], 0, 2
    for k, action in enumerate(said):
        if action == "fold":
            return put_in[1] if turn else -put_in[0]
        if action in ("bet", "raise"):
            put_in[turn] = put_in[1 - turn] + bet
        if action == "call":
            put_in[turn] = put_in[1 - turn]
        ends = action == "call" or said[max(0, k - 1) : k + 1] == ["check", "check"] and bet == 2
        turn, bet = (0, 4) if ends and bet == 2 else (1 - turn, bet)
    if ranks[2] in ranks[:2] and ranks[0] != ranks[1]:
        return put_in[0] if ranks[0] == ranks[2] else -put_in[0]
    strengths = [order.index(it) for it in ranks[:2]]
    return put_in[0] * ((strengths[0] > strengths[1]) - (strengths[0] < strengths[1]))


def liars_dice_pays(size, dealt, said):
    *bids, doubt = said
    count, face = map(int, bids[-1].split("x"))
    there = sum(int(it) == face or int(it) == size for it in dealt)
    doubter = len(bids) % 2
    wins_first = (there < count) == (doubter == 0)
    return 1 if doubt == "doubt" and wins_first else -1


def goofspiel_pays(size, dealt, said):
    cards = [list(map(int, said[k::2])) for k in (0, 1)]
    for own in cards:
        own += [it for it in range(1, size + 1) if it not in own]
    prizes = range(size, 0, -1)
    won = [sum(prize for prize, one, two in zip(prizes, *order) if one > two) for order in (cards, cards[::-1])]
    return (won[0] > won[1]) - (won[0] < won[1])


RULES = [("leduc", 3, leduc_pays), ("leduc", 4, leduc_pays), ("liars_dice", 3, liars_dice_pays)]
RULES += [("goofspiel", 3, goofspiel_pays), ("goofspiel", 4, goofspiel_pays)]


def paths(game):
    """Each leaf's payoff with what chance dealt on the way, and what was said."""
    wanted = [(0, (), ())]
    while wanted:
        place, dealt, said = wanted.pop()
        node = game.nodes[place]
        if node.set is None:
            yield node.outcome.payoffs[0], dealt, said
        for child, action in zip(node.children, node.set.actions if node.set else []):
            name = (action.decode(),)
            wanted.append((child, dealt + name, said) if node.set.player == 0 else (child, dealt, said + name))


def sizes(checks):
    for words, head in SIZES:
        status, data, said = tool("make_game", *words)
        checks.expect(f"make_game {words}", (status, said), 0, b"")
        game = efg.read_game(data)
        found = (len(game.nodes), game.leaves(), len(game.sets[1]), len(game.sets[2]))
        checks.that(f"the size of {words}", found == head, f"{found}, want {head}")
        checks.that(f"the numbers of {words}", len(sequence_form.weigh(game).weights) == head[1], "they have a fault")


def rules(checks):
    for name, size, pays in RULES:
        game = efg.read_game(tool("make_game", name, size)[1])
        wrong = [it for it in paths(game) if it[0] != pays(size, list(it[1]), list(it[2]))]
        checks.that(f"the payoffs of {name} {size}", not wrong, f"{wrong[:3]}")


def equal_profile(data):
    """The line of Gambit that takes each action of a game as likely."""
    sets = efg.read_game(data).sets
    chances = [f"1/{len(it.actions)}" for k in (1, 2) for it in sets[k].values() for _ in it.actions]
    return ",".join(["NE", *chances]).encode()


def equal_chances(checks):
    for name, gap in EQUAL_CHANCES.items():
        data = KUHN.read_bytes() if name == "kuhn_poker" else tool("make_game", name)[1]
        with tempfile.NamedTemporaryFile() as file:
            file.write(data)
            file.flush()
            text = certificate.read_text(tool("certify", file.name, stdin=equal_profile(data))[1])
        found = text.high - text.low
        checks.that(f"equal chances in {name}", abs(found - gap) < Fraction(1, 10**14), f"{found}, want {gap}")


def refusals(checks):
    most, made_games.MOST_NODES = made_games.MOST_NODES, 9_456
    large = tool("make_game", "leduc")
    made_games.MOST_NODES = most
    checks.expect("a game that is too large", large, 1, b"", b"make_game: leduc 3 has more than 1,048,576 nodes\n")
    for words in (["leduc", "1"], ["leduc", "14"], ["goofspiel", "0"], ["chess"], [], ["leduc", "x"]):
        status, out, _ = tool("make_game", *words)
        checks.that(f"make_game {words}", (status, out) == (2, b""), f"{status} {out[:80]}")


def made_checks(checks):
    for part in (sizes, rules, equal_chances, refusals):
        part(checks)
