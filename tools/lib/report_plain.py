"""A report as tables of plain text."""
import textwrap

from report_words import action_name, best_of, exploited_at, given_away, losing, notes, number, percent, player_name
from report_words import set_name, split, summary, title, verdict

COLUMNS = 100
HEADS = ("set", "action", "plan", "worth", "best", "reached", "gives away")


def table(rows, is_right):
    """Rows of cells as lines, each column as wide as its widest cell."""
    widths = [max(len(row[k]) for row in rows) for k in range(len(rows[0]))]
    def line(row):
        cells = (it.rjust(width) if right else it.ljust(width) for it, width, right in zip(row, widths, is_right))
        return "  ".join(cells).rstrip()

    return [line(row) for row in rows]


def text_of(audit, files):
    game, lines = audit.game, []
    lines += [title(game), f"{player_name(game, 1)} against {player_name(game, 2)}", ""]
    lines += [*(line for it in verdict(audit) for line in textwrap.wrap(it, COLUMNS)), ""]
    lines += [f"{what}: {name}, sha256 {sum_}" for what, (name, sum_) in zip(("game", "text"), files)]
    lines += ["", *(line for it in notes(audit) for line in textwrap.wrap(it, COLUMNS)), ""]
    rows = [("payoff", "exactly", "what it is"), *summary_rows(audit)]
    lines += table(rows, (True, True, False))
    lines += ["", *losing_lines(audit)]
    for player in (1, 2):
        lines += ["", *player_lines(audit, player)]
    return "\n".join(lines) + "\n"


def summary_rows(audit):
    return [(number(value, rounding=rounding), str(value), said) for said, value, rounding in summary(audit)]


def losing_lines(audit):
    found = losing(audit)
    if not found:
        return ["Nothing is given away at any set."]
    rows = [("plan of", "at the set of", "set", "best response", "reached", "gives away")]
    for line in found:
        names = exploited_at(audit.game, line.set), player_name(audit.game, line.set.player)
        rows.append((*names, set_name(line.set), best_of(line), percent(line.reached), given_away(line.lost)))
    return ["where the plans give away most", *table(rows, (False, False, False, False, True, True))]


def player_lines(audit, player):
    rows = [HEADS]
    lines = audit.lines[player]
    for line in (it for part in split(lines) for it in part):
        for k, it in enumerate(line.actions, 1):
            own = (percent(line.reached), given_away(line.lost)) if k == 1 else ("", "")
            cells = (set_name(line.set), action_name(it.name, k), number(it.probability), number(it.worth), it.mark)
            rows.append((*cells, *own))
    names = player_name(audit.game, player), player_name(audit.game, 3 - player)
    head = f"{names[0]}'s plan; {names[1]}'s plan gives away {given_away(audit.gains[player])} at these sets together"
    return [head, *table(rows, (False, False, True, True, False, True, True))]
