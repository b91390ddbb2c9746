"""The tree of a game with both plans of a text, to be shown folded."""
from fractions import Fraction

import efg
import sequence_form
from report_words import action_name, number, percent, player_name, set_name

MOST_NODES, MOST_DEPTH = 5_000, 100


class Branch:
    """A node: the action that leads to it, what is told of it, and the branches below. `pay` is what player one gets
    from here on average, None where a plan never comes here."""

    def __init__(self, action, told, pay, children):
        self.action, self.told, self.pay, self.children = action, told, pay, children


def tree_of(audit):
    """The root with all below it, or why it isn't shown."""
    count = len(audit.game.nodes)
    if count > MOST_NODES:
        return f"The game has {count:,} nodes. A tree of more than {MOST_NODES:,} isn't shown."
    depth = max(depths(audit.game))
    if depth > MOST_DEPTH:
        return f"The longest path has {depth:,} nodes above its leaf. A tree of more than {MOST_DEPTH} isn't shown."
    places, branches = list(sequence_form.places(audit.form)), {}
    steps = steps_to(audit, places)
    for k in reversed(range(len(places))):
        children = [branches.pop(it) for it in places[k].node.children]
        branches[k] = branch_of(audit, places[k], steps[k], children, [steps[it][1] for it in places[k].node.children])
    return branches[0]


def depths(game):
    """How many nodes stand above each node."""
    found = [0 for _ in game.nodes]
    for place, node in enumerate(game.nodes):
        for child in node.children:
            found[child] = found[place] + 1
    return found


def steps_to(audit, places):
    """For each node the action that leads to it, and its probability there, None where its plan never comes there."""
    found = [("", None) for _ in places]
    for place in places:
        if place.node.set is not None:
            chances = chances_at(audit, place, places)
            for k, child in enumerate(place.node.children):
                found[child] = (action_name(place.node.set.actions[k], k + 1), chances[k])
    return found


def chances_at(audit, place, places):
    set_ = place.node.set
    if set_.player == 0:
        return set_.chances
    numbers = audit.plans[set_.player]
    before = numbers[place.at[set_.player]]
    after = [numbers[places[it].at[set_.player]] for it in place.node.children]
    return [Fraction(it, before) if before else None for it in after]


def branch_of(audit, place, step, children, chances):
    action, chance = step
    pay = pay_of(place, children, chances)
    reached = Fraction(*place.reach)
    for player in (1, 2):
        reached *= Fraction(audit.plans[player][place.at[player]], audit.plans[player][0])
    told = [number(chance)] if action else []
    told += [what(audit.game, place.node), f"pays {number(pay)}", f"reached {percent(reached)}"]
    return Branch(action, told, pay, children)


def pay_of(place, children, chances):
    if place.node.set is None:
        return Fraction(*place.pays[0])
    parts = [(child.pay, chance) for child, chance in zip(children, chances) if chance != 0]
    if any(None in it for it in parts):
        return None
    return sum((pay * chance for pay, chance in parts), Fraction(0))


def what(game, node):
    """What a node is: its own name, and its set or its outcome."""
    name = efg.shown(node.name)
    own = f"{name}: " if name else ""
    if node.set is None:
        return own + (efg.shown(node.outcome.name if node.outcome else None) or "the end")
    player = player_name(game, node.set.player) if node.set.player else "chance"
    return f"{own}{player} at {set_name(node.set)}"
