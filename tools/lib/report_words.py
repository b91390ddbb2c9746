"""What a report says, as a page or as plain text: numbers as people read them, names, and its rows of numbers."""
from fractions import Fraction

import efg
from losses import BEST
from rounding import DOWN, NEAREST, UP, to_digits, to_places

DIGITS = 6
# The sets that lose most stand first, so many of them.
MOST_LOSING = 10


def number(value, digits=DIGITS, rounding=NEAREST):
    """A number to so many digits after the point, or where that shows too little of it, with a power of ten."""
    if value is None:
        return "-"
    if value and abs(value) < Fraction(100, 10**digits):
        return f"{float(to_digits(value, 3, rounding)):.2e}"
    units = to_places(Fraction(value), digits, rounding)
    whole, rest = divmod(abs(units), 10**digits)
    behind = f"{rest:0{digits}}".rstrip("0")
    return ("-" if units < 0 else "") + str(whole) + ("." + behind if behind else "")


def percent(value):
    """A probability in a hundred."""
    return number(value * 100, 2 if value >= Fraction(1, 100) else 4) + " %"


def player_name(game, player):
    return efg.shown(game.players[player - 1]) or f"player {('one', 'two')[player - 1]}"


def title(game):
    return efg.shown(game.title) or "A game without a title"


def set_name(set_):
    name = efg.shown(set_.name)
    return f"{set_.number} {name}" if name else f"set {set_.number}"


def action_name(name, place):
    return efg.shown(name) or f"action {place}"


def best_of(line):
    return next(action_name(it.name, k) for k, it in enumerate(line.actions, 1) if it.mark == BEST)


def summary(audit):
    """The numbers of both plans, each with what it says, and how it is rounded."""
    one, two = (player_name(audit.game, player) for player in (1, 2))
    text = audit.text
    rows = [
        (f"LOW: {one}'s plan gets at least this against every plan of {two}", text.low, DOWN),
        (f"HIGH: {two}'s plan concedes at most this to every plan of {one}", text.high, UP),
        (f"{one} gets this where both plans meet", audit.pay, NEAREST),
        (f"{two}'s plan can be exploited for this: {one} gains it by a best response", audit.gains[1], UP),
        (f"{one}'s plan can be exploited for this: {two} gains it by a best response", audit.gains[2], UP),
        ("HIGH less LOW, the total exploitability of both plans", text.high - text.low, UP),
    ]
    return rows + player_two_rows(audit)


def player_two_rows(audit):
    """What both bounds say of player two's own payoff, where it isn't just player one's with the sign turned."""
    one, two = (player_name(audit.game, player) for player in (1, 2))
    text, whole = audit.text, audit.text.sum
    if whole == 0:
        return []
    least = f"{whole} less HIGH, in {two}'s payoff: {two}'s plan gets at least this against every plan of {one}"
    most = f"{whole} less LOW, in {two}'s payoff: no plan of {two} is sure of more than this"
    least_two, most_two = text.bracket_of_two()
    return [(least, least_two, DOWN), (most, most_two, UP)]


def losing(audit):
    """The sets at which most is given away, of both players."""
    lines = [line for player in (1, 2) for line in audit.lines[player] if line.lost]
    return sorted(lines, key=lambda line: -line.lost)[:MOST_LOSING]


def given_away(value):
    """What a plan gives away or can be exploited for, rounded up."""
    return number(value, rounding=UP)


def exploited_at(game, set_):
    """Whose plan gives something away at a set: that of the player who doesn't move there."""
    return player_name(game, 3 - set_.player)


def verdict(audit):
    """Who is at fault, a sentence for each plan: for what it can be exploited, and at which of the other's sets."""
    if not any(audit.gains[1:]):
        return ["Neither plan can be exploited: each is a best response to the other."]
    return [verdict_of(audit, player) for player in (1, 2)]


def verdict_of(audit, player):
    name, other = player_name(audit.game, player), 3 - player
    gain = audit.gains[other]
    if not gain:
        return f"{name}'s plan gives nothing away to {player_name(audit.game, other)}'s best response."
    lines = sorted((it for it in audit.lines[other] if it.lost), key=lambda it: -it.lost)
    at = " and ".join(quoted_set(it.set) for it in lines[:2])
    mostly, more = ("mostly ", f", and at {len(lines) - 2:,} more") if len(lines) > 2 else ("", "")
    sets = f"{player_name(audit.game, other)}'s set{'' if len(lines) == 1 else 's'}"
    return f"{name}'s plan can be exploited for {in_full(gain)}; it gives that away {mostly}at {sets} {at}{more}."


def quoted_set(set_):
    name = efg.shown(set_.name)
    return f'{set_.number} "{name}"' if name else str(set_.number)


def in_full(value):
    """What is given away without a power of ten, unless that has too many digits."""
    if value < Fraction(100, 10**DIGITS) and value > Fraction(1, 10**12):
        return f"{to_digits(value, 3, UP):f}"
    return given_away(value)


def split(lines):
    """The sets at which something is given away, and the others."""
    return [it for it in lines if it.lost], [it for it in lines if not it.lost]


def notes(audit):
    """How the numbers are to be read: payoffs, gains, and the columns of sets."""
    one, two = (player_name(audit.game, player) for player in (1, 2))
    whole = audit.text.sum
    together = f" At each end both payoffs add up to {whole}: {two} gets {whole} less what {one} gets." if whole else ""
    return [
        f"Payoffs are {one}'s, in the units of the game file: {one} wants them high, {two} low. The value of the game"
        f" lies between LOW and HIGH.{together}",
        f"A plan is exploited for what the other player gains by a best response to it, beside what both plans together"
        f" come to. It gives that away at the other player's sets: what {one}'s plan gives away at {two}'s sets, where"
        f" {two} could do better against it, adds up to what it is exploited for, and so for {two}'s plan.",
        "Reached: how often play comes to the set where both plans are played. Worth: what the action pays at each"
        " visit where its player goes on with best responses. Gives away: how often the set is reached, times what the"
        " best action is worth more than the player's own mixture.",
        "Rounding: LOW and other lower ends down; HIGH and other upper ends up, and so what a plan is exploited for and"
        " what it gives away; all else to the nearest. Six"
        " digits stand behind the point, or three that count where a number is below 0.0001 in size; pictures have four"
        " that count of LOW and HIGH.",
    ]
