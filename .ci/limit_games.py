"""Games whose numbers are at their limits, with their values, and small ones beside them."""
from fractions import Fraction

PROLOGUE = 'EFG 2 R "" { "A" "B" }\n'
MOST = 2**62
LEAST = Fraction(1, MOST)
HALF, MOST_ACTIONS = 2**61, 1_024


def two_leaves(one, two):
    """A choice of player one between two payoffs."""
    return f'p "" 1 1 {{ "a" "b" }} 0\nt "" 1 {{ {one}, {-one} }}\nt "" 2 {{ {two}, {-two} }}\n'


ONE_MOVER = PROLOGUE + two_leaves(1, 0)
PENNIES = PROLOGUE + (
    'p "" 1 1 { "H" "T" } 0\np "" 2 1 { "h" "t" } 0\nt "" 1 { -1, 1 }\nt "" 2 { 1, -1 }\np "" 2 1 0\nt "" 2\nt "" 1\n'
)
# Small games and their values.
SMALL = [("pennies", PENNIES, 0), ("one mover", ONE_MOVER, 1)]
LARGE = [
    ("a leaf of 2^62", f'{PROLOGUE}t "" 1 {{ {MOST}, {-MOST} }}\n', MOST),
    ("a leaf of -2^62", f'{PROLOGUE}t "" 1 {{ {-MOST}, {MOST} }}\n', -MOST),
    ("a mass of 2^62", PROLOGUE + two_leaves(HALF, -HALF), HALF),
    ("a unit of 2^62", PROLOGUE + two_leaves(LEAST, 0), LEAST),
    ("a unit and a mass of 2^62", PROLOGUE + two_leaves(1 - LEAST, LEAST), 1 - LEAST),
]


def actions(count):
    return " ".join(['""'] * count)


def even(count):
    """So many actions of chance, each as likely."""
    return " ".join([f'"" 1/{count}'] * count)


def many_actions(count):
    """A game in which each set of chance, player one and player two has so many actions, and its value.

    Chance deals two hands to player one, or ends the game. Player two learns what player one did, and not the hand.
    """
    lines, total = [f'c "" 1 {{ {even(count)} }} 0'], 0
    leaf = 't "" {} {{ {}, -{} }}'.format
    for hand in (1, 2):
        lines.append(f'p "" 1 {hand} {{ {actions(count)} }} 0')
        for answer in (1, 2):
            # The last action is player two's best one, whatever the hand is.
            lines.append(f'p "" 2 {answer} {{ {actions(count)} }} 0')
            pays = [10 * answer + count - k for k in range(1, count + 1)]
            lines += [leaf(it + 1, it, it) for it in pays]
        lines += [leaf(it % 5 + 1, it % 5, it % 5) for it in range(3, count + 1)]
        total += 20
    for deal in range(3, count + 1):
        lines.append(leaf(deal % 3 + 1, deal % 3, deal % 3))
        total += deal % 3
    return (PROLOGUE + "\n".join(lines) + "\n").encode(), Fraction(total, count)
