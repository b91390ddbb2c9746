"""Checks of `promise`, without the program: the rows that the laws' crates compute of four games, the least rounds for
a width, what is refused, and that its sums over few sets are those over all.

The rows of def_closing_games, and of def_closing_program for Kuhn poker, have these numbers too."""
from fractions import Fraction

from checks import ROOT
from named_games import game
from small_games import small_games
from tool_calls import tool

import efg
import promises
import sequence_form

KUHN = (ROOT / "games" / "kuhn_poker.efg").read_bytes()
# Matching pennies for one coin, a choice between two tosses of one coin, and three ways of which player two sees the
# one that was taken.
COIN, TOSS, WAYS = game("coin"), game("toss"), game("ways")
SPREADS = [
    ("Kuhn poker", KUHN, 24, [(2, it) for it in (6, 2, 6, 3, 6, 6, 3, 3, 2, 6, 4, 2)]),
    ("pennies for a coin", COIN, 1, [(2, 1), (2, 1)]),
    ("two tosses", TOSS, 4, [(2, 2)]),
    ("three ways", WAYS, 2, [(2, 2), (3, 1), (2, 1), (2, 1), (2, 1)]),
]
ROWS = [
    (KUHN, ["--rounds=100"], "25698317/31457280 0.816928"),
    (KUHN, ["--rounds=100", "--scale=1"], "1019/60 16.983334"),
    (KUHN, ["--plus", "--rounds=10"], "2141409/360448 5.940966"),
    (COIN, ["--rounds", "100"], "524463/2621440 0.200067"),
    (COIN, ["--rounds", "100", "--scale", "1"], "51/5 10.200000"),
    (COIN, ["--rounds", "10", "--plus"], "131163/90112 1.455556"),
    (TOSS, ["--rounds=100"], "262229/2621440 0.100033"),
    (TOSS, ["--rounds=10", "--plus"], "131123/180224 0.727556"),
    (WAYS, ["--rounds=100"], "3409077/10485760 0.325115"),
    (WAYS, ["--rounds=10", "--scale=1"], "59/4 14.750000"),
    (WAYS, ["--rounds=2", "--plus"], "393317/98304 4.001028"),
]
# The least rounds for a width, or what the roundings leave where none is enough.
WIDTHS = [
    (KUHN, ["--width=0.04"], b"rounds 42335\npromised 10653797879/266348789760 0.040000\n"),
    (KUHN, ["--width", "1/25", "--scale", "1"], b"rounds none up to 65536\nleft 97/6 16.166667\n"),
    (KUHN, ["--plus", "--width=0.04"], b"rounds none up to 2048\nleft 55/32768 0.001679\n"),
]
REFUSED = ["--rounds=0", "--rounds=65537", "--scale=0", "--scale=1048577", "--width=0", "--width=-1", "--width=x"]
REFUSED += ["--width=1/0", "--width=1e3", "--width=", "--rounds=x"]


def form_of(data):
    return sequence_form.weigh(efg.read_game(data))


def promise_checks(checks):
    for name, data, span, wanted in SPREADS:
        form = form_of(data)
        told = promises.payoff_range(form), promises.spreads(form)
        checks.that(f"the spreads of {name}", told == (span, wanted), str(told))
    for data, words, line in ROWS:
        checks.expect(f"promise {words}", tool("promise", *words, stdin=data), 0, f"promised {line}\n".encode(), b"")
    checks.expect("promise of a file", tool("promise", ROOT / "games" / "kuhn_poker.efg", "--rounds=100"),
                  0, b"promised 25698317/31457280 0.816928\n", b"")
    for data, words, wanted in WIDTHS:
        checks.expect(f"promise {words}", tool("promise", *words, stdin=data), 0, wanted, b"")
    least_rounds(checks)
    refusals(checks)
    gaps_of_small_games(checks)


def least_rounds(checks):
    """No fewer rounds promise the width, and these do; the roundings leave less than that."""
    for is_plus in (False, True):
        for width in (Fraction(1), Fraction(7, 3), Fraction(40)):
            found = promises.Promise(form_of(KUHN), 1000, is_plus)
            rounds = found.rounds_for(width)
            before = [found.after(it) for it in range(1, rounds)]
            holds = found.after(rounds) <= width and all(it > width for it in before)
            checks.that(f"the least rounds for {width}", holds and found.floor() < found.after(rounds), str(rounds))


def refusals(checks):
    for words in (*([it] for it in REFUSED), ["--width=1", "--rounds=1"], ["--plus", "--rounds=2049"]):
        status, out, said = tool("promise", *words, stdin=KUHN)
        is_line = said.splitlines()[-1].startswith(b"promise: error: ")
        checks.that(f"promise {words}", (status, out) == (2, b"") and is_line, f"{status} {out} {said}")
    checks.expect("promise --plus --scale=16385", tool("promise", "--plus", "--scale=16385", stdin=KUHN)[:2], 2, b"")
    unfair = COIN.replace(b"{ 0, 1 }", b"{ 0, 2 }")
    line = b"promise: refused 17 NotConstantSum node 4\n"
    checks.expect("promise of an unfair game", tool("promise", stdin=unfair), 1, b"", line)
    status, out, said = tool("promise", ROOT / "games" / "none.efg")
    checks.that("promise of no file", (status, out) == (1, b"") and b"No such file" in said, f"{status} {said}")


def whole_gap(form, player, s, t, most, least):
    """The gap of two sequences by a best reply over all sets of the other player."""
    other = 3 - player
    sums = [most(s, it) - least(t, it) for it in range(form.counts[other])]
    for k in reversed(range(len(form.sets[other]))):
        sums[form.before[other][k]] += max(sums[it] for it in form.sequences(other, k))
    return max(sums[0], 0)


def gaps_of_small_games(checks):
    """The gaps of made games are those by the definition, which looks at each sequence of both players anew."""
    for small in small_games(12, first=900):
        form = form_of(small.data())
        for player in (1, 2):
            told = promises.Gaps(form, player).found()
            wanted = [defined_gap(form, player, k) for k in range(len(form.sets[player]))]
            checks.that("the gaps of a made game", told == wanted, f"{told} {wanted}")


def defined_gap(form, player, k):
    sign, other = 1 if player == 1 else -1, 3 - player

    def worth(s, o, best):
        here = sum(w for w, own, at in zip(form.weights, form.at[player], form.at[other]) if (own, at) == (s, o))
        behind = [j for j in range(len(form.sets[player])) if form.before[player][j] == s]
        return sign * here + sum(best(worth(it, o, best) for it in form.sequences(player, j)) for j in behind)

    own = form.sequences(player, k)
    pairs = [(s, t) for s in own for t in own if s != t]
    most, least = (lambda s, o: worth(s, o, max)), (lambda s, o: worth(s, o, min))
    return max((whole_gap(form, player, s, t, most, least) for s, t in pairs), default=0)
