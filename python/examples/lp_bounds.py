"""A strategy from another solver, and what is proved of it: the linear program of the sequence form, by HiGHS.

The sequence form (von Stengel, "Efficient computation of behavior strategies", 1996; Koller, Megiddo and von Stengel,
1996) has a linear program for each player: the greatest payoff that a plan is sure of, which SciPy's HiGHS solves in
floating point. Its plans are certified and checked, so that floats become bounds that are proved. The game is Leduc
poker, or a game file. Without SciPy (`apt install python3-scipy`) nothing is solved, and a line says so.
"""
import argparse

import xgsolve


def entries_of(form, player):
    """The program of a player: variables are its numbers by sequence and then a value for each of the other player's
    sets and one for the root, whose value is the greatest. Rows below or equal to 0 or 1, as (row, column, number)."""
    other = 3 - player
    sign = 1 if player == 1 else -1
    count = form.counts[player]
    below, equal = [], []
    for weight, own, against in zip(form.weights, form.at[player], form.at[other]):
        below.append((against, own, -sign * weight / form.unit))
    # A sequence of the other player is worth at least the value of its set, with what comes directly after it.
    values = {sequence: 1 + k for k in range(len(form.sets[other])) for sequence in form.sequences(other, k)}
    for sequence in range(form.counts[other]):
        below.append((sequence, count + values.get(sequence, 0), 1.0))
    for k, before in enumerate(form.before[other]):
        below.append((before, count + 1 + k, -1.0))
    # A plan's numbers add up at each set to the number before it, and that of the empty sequence is 1.
    equal.append((0, 0, 1.0))
    for k, before in enumerate(form.before[player]):
        equal.append((1 + k, before, -1.0))
        equal += [(1 + k, sequence, 1.0) for sequence in form.sequences(player, k)]
    return below, equal


def plan_by_highs(form, player):
    """A plan's numbers by sequence, and the value that HiGHS has for it, in payoff to player one."""
    from scipy.optimize import linprog
    from scipy.sparse import coo_matrix

    other, count = 3 - player, form.counts[player]
    columns = count + 1 + len(form.sets[other])
    matrices = []
    for entries, rows in zip(entries_of(form, player), (form.counts[other], 1 + len(form.sets[player]))):
        row, column, number = zip(*entries)
        matrices.append(coo_matrix((number, (row, column)), shape=(rows, columns)).tocsr())
    below, equal = matrices
    cost = [0.0] * columns
    cost[count] = -1.0
    bounds = [(0, None)] * count + [(None, None)] * (columns - count)
    right = [1.0] + [0.0] * len(form.sets[player])
    solved = linprog(cost, below, [0.0] * form.counts[other], equal, right, bounds, method="highs")
    if solved.status != 0:
        raise SystemExit(f"HiGHS: {solved.message}")
    return solved.x[:count], (1 if player == 1 else -1) * -solved.fun


def strategy_of(form, player, numbers):
    """The probabilities of a plan's numbers, by the numbers of its sets; sets that it never reaches are left out."""
    found = {}
    for k, set_ in enumerate(form.sets[player]):
        own = [max(float(numbers[it]), 0.0) for it in form.sequences(player, k)]
        if sum(own) > 1e-9:
            found[set_.number] = {place: it / sum(own) for place, it in enumerate(own, 1)}
        elif any(own):
            found[set_.number] = {place: 1 / len(own) for place in range(1, 1 + len(own))}
    return found


def main():
    parser = argparse.ArgumentParser(description=__doc__, formatter_class=argparse.RawDescriptionHelpFormatter)
    parser.add_argument("game", nargs="?", help="a game file; Leduc poker where it is absent")
    parser.add_argument("--program", help="the built program")
    given = parser.parse_args()
    try:
        import scipy  # noqa: F401
    except ImportError:
        print("skipped: this Python has no SciPy (apt install python3-scipy)")
        return
    game = xgsolve.read_game(given.game) if given.game else xgsolve.make_game("leduc")
    plans = {player: plan_by_highs(game.form, player) for player in (1, 2)}
    strategies = {player: strategy_of(game.form, player, plan) for player, (plan, _) in plans.items()}
    found = xgsolve.exploitability(game, strategies, program=given.program)
    print(f"{game.title}: {game.nodes} nodes")
    print(f"HiGHS:  {plans[1][1]:.12f} and {plans[2][1]:.12f}, in floating point")
    low, high = found.rounded(12)
    print(f"proved: {low} to {high}, {float(found.width):.1e} apart")
    for note in found.notes[-2:]:
        print(f"note:   {note}")


if __name__ == "__main__":
    main()
