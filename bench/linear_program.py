"""The plans of a game by a linear program (Koller, Megiddo and von Stengel 1996), in doubles: HiGHS, by SciPy where
that is there. What it finds is no certificate; its width is that of its own plans, in doubles too."""
import resource

try:
    import numpy as np
    from scipy.optimize import linprog
    from scipy.sparse import coo_matrix, csr_matrix
except ImportError:
    linprog = None

METHODS = ("highs-ds", "highs-ipm")


def is_there():
    return linprog is not None


class Program:
    """The matrices of a game's form: player one's plan is sought, and player two's are the prices."""

    def __init__(self, form):
        self.counts, self.blocks = form.counts[1:], [list(blocks_of(form, player)) for player in (1, 2)]
        weights = np.array([float(it) / form.unit for it in form.weights])
        at = (np.array(form.at[1], dtype=np.int64), np.array(form.at[2], dtype=np.int64))
        self.payoffs = coo_matrix((weights, at), shape=self.counts).tocsr()

    def columns(self):
        return self.counts[0] + 1 + len(self.blocks[1])

    def bounds(self):
        """A row for each sequence of player two: what its leaves cost is at least what its sets are worth."""
        one, two = self.counts
        costs = coo_matrix(-self.payoffs.T)
        rows, columns, values = [costs.row, [0]], [costs.col, [one]], [costs.data, [1.0]]
        for k, (before, first, end) in enumerate(self.blocks[1]):
            rows += [np.arange(first, end), [before]]
            columns += [np.full(end - first, one + 1 + k), [one + 1 + k]]
            values += [np.ones(end - first), [-1.0]]
        return sparse(rows, columns, values, (two, self.columns()))

    def flows(self):
        """A row for each set of player one: its plan's numbers add up to that before the set."""
        rows, columns, values = [[0]], [[0]], [[1.0]]
        for k, (before, first, end) in enumerate(self.blocks[0], 1):
            rows += [[k], np.full(end - first, k)]
            columns += [[before], np.arange(first, end)]
            values += [[-1.0], np.ones(end - first)]
        return sparse(rows, columns, values, (1 + len(self.blocks[0]), self.columns()))

    def solved(self, method, seconds):
        """The processor's seconds, and HIGH less LOW of the plans, or None where the time wasn't enough."""
        begin = np.zeros(1 + len(self.blocks[0]))
        begin[0], cost = 1, np.zeros(self.columns())
        cost[self.counts[0]] = -1
        kinds = [(0, None)] * self.counts[0] + [(None, None)] * (1 + len(self.blocks[1]))
        above, equal = self.bounds(), self.flows()
        given = {"A_ub": above, "b_ub": np.zeros(self.counts[1]), "A_eq": equal, "b_eq": begin, "bounds": kinds}
        begun = used()
        found = linprog(cost, method=method, options={"time_limit": seconds}, **given)
        took = used() - begun
        return took, (self.width(found) if found.status == 0 else None)

    def width(self, found):
        one = as_plan(found.x[: self.counts[0]], self.blocks[0])
        two = as_plan(-found.ineqlin.marginals, self.blocks[1])
        low = -best(-(self.payoffs.T @ one), self.blocks[1])
        return best(self.payoffs @ two, self.blocks[0]) - low


def used():
    usage = resource.getrusage(resource.RUSAGE_SELF)
    return usage.ru_utime + usage.ru_stime


def blocks_of(form, player):
    """For each set the sequence before it, and the first and the end of its own."""
    for k in range(len(form.sets[player])):
        own = form.sequences(player, k)
        yield form.before[player][k], own.start, own.stop


def sparse(rows, columns, values, shape):
    joined = [np.concatenate(it) for it in (values, rows, columns)]
    return csr_matrix((joined[0], (joined[1], joined[2])), shape=shape)


def best(worths, blocks):
    """What a best response gets, by what each sequence is worth at its own leaves."""
    worths = worths.copy()
    for before, first, end in reversed(blocks):
        worths[before] += worths[first:end].max()
    return worths[0]


def as_plan(numbers, blocks):
    """The plan whose behaviour is that of these numbers."""
    numbers, plan = np.maximum(numbers, 0), np.zeros_like(numbers)
    plan[0] = 1
    for before, first, end in blocks:
        total = numbers[first:end].sum()
        part = numbers[first:end] / total if total > 0 else 1 / (end - first)
        plan[first:end] = plan[before] * part
    return plan
