"""How the value of Kuhn poker changes with the size of the bet: a sweep over games, with a picture.

For each size, in antes, the game is written, solved with rounds of CFR+, certified and checked; what is printed and
drawn is what `check` accepts, in antes to the first player. The picture is SVG: --output names its file.
"""
import argparse
import itertools
import pathlib
from fractions import Fraction

import xgsolve

CARDS, TURNS = ("Jack", "Queen", "King"), ("first", "after a check", "after a bet")
SIZES = [Fraction(it, 4) for it in range(1, 17)]
WIDTH, HEIGHT, EDGE = 640, 360, 60


def poker(bet):
    """Kuhn poker with an ante of 1 and a bet of this size, as a game file."""
    lines = [f'EFG 2 R "Kuhn poker with a bet of {bet}" {{ "First" "Second" }}']
    deals = list(itertools.permutations(range(3), 2))
    told = " ".join(f'"{CARDS[one]} {CARDS[two]}" 1/6' for one, two in deals)
    lines.append(f'c "" 1 {{ {told} }} 0')
    leaves = itertools.count(1)
    for cards in deals:
        wins = 1 if cards[0] > cards[1] else -1

        def end(paid):
            lines.append(f't "" {next(leaves)} "" {{ {paid} {-paid} }}')

        def move(player, turn, actions):
            first, second = actions
            card = cards[player - 1]
            name = f"{CARDS[card]}, {turn}"
            lines.append(f'p "" {player} {3 * TURNS.index(turn) + card + 1} "{name}" {{ "{first}" "{second}" }} 0')

        move(1, "first", ("check", "bet"))
        move(2, "after a check", ("check", "bet"))
        end(wins)
        move(1, "after a bet", ("fold", "call"))
        end(-1)
        end(wins * (1 + bet))
        move(2, "after a bet", ("fold", "call"))
        end(1)
        end(wins * (1 + bet))
    return ("\n".join(lines) + "\n").encode()


def picture(rows):
    """The bounds over the sizes: a band from LOW to HIGH, with its ends named."""
    low, high = min(it.low for _, it in rows), max(it.high for _, it in rows)
    first, last = rows[0][0], rows[-1][0]

    def point(size, payoff):
        across = EDGE + (WIDTH - 2 * EDGE) * float((size - first) / (last - first))
        down = EDGE + (HEIGHT - 2 * EDGE) * float((high - payoff) / (high - low))
        return f"{across:.1f},{down:.1f}"

    band = [point(size, it.low) for size, it in rows] + [point(size, it.high) for size, it in reversed(rows)]
    labels = [(EDGE, HEIGHT - 20, f"a bet of {first}"), (WIDTH - EDGE - 70, HEIGHT - 20, f"a bet of {last}")]
    labels += [(EDGE, 30, f"the value of Kuhn poker, {float(low):.4f} to {float(high):.4f} antes to First")]
    texts = "".join(f'<text x="{x}" y="{y}">{text}</text>' for x, y, text in labels)
    head = f'<svg xmlns="http://www.w3.org/2000/svg" viewBox="0 0 {WIDTH} {HEIGHT}" font-family="sans-serif">'
    shape = f'<polygon points="{" ".join(band)}" fill="#4477aa" stroke="#4477aa" stroke-width="2"/>'
    return f"{head}{shape}{texts}</svg>\n"


def main():
    parser = argparse.ArgumentParser(description=__doc__, formatter_class=argparse.RawDescriptionHelpFormatter)
    parser.add_argument("--program", help="the built program")
    parser.add_argument("--rounds", type=int, default=500, help="rounds of CFR+ for each size")
    parser.add_argument("--output", type=pathlib.Path, default=pathlib.Path("bet_sizes.svg"), help="the picture")
    given = parser.parse_args()
    rows = []
    print("bet   LOW         HIGH")
    for bet in SIZES:
        solved = xgsolve.solve(poker(bet), given.rounds, 10, "cfr+", program=given.program)
        rows.append((bet, solved.check()))
        low, high = rows[-1][1].rounded(4)
        print(f"{str(bet):4}  {low:<10f}  {high:f}")
    given.output.write_text(picture(rows))
    print(f"{given.output} was written")


if __name__ == "__main__":
    main()
