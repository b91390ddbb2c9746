"""A report as one page of HTML, which is well-formed XML too, without scripts and without anything from elsewhere."""
from html import escape

import report_tree
from bracket_picture import NARROW, picture, span
from losses import BEST
from report_words import action_name, best_of, exploited_at, given_away, losing, notes, number, percent, player_name
from report_words import set_name, split, summary, title, verdict

# A page of more sets begins with a list of contents.
MOST_WITHOUT_CONTENTS = 50
LONGEST_KEPT = 10

STYLE = """
body { font: 1rem/1.45 system-ui, sans-serif; color: #111; background: #fff; margin: 0 auto; padding: 0.8rem;
  max-width: 60rem; overflow-wrap: anywhere; }
h1 { font-size: 1.5rem; line-height: 1.2; margin: 0.4rem 0; }
h2 { font-size: 1.2rem; margin: 2rem 0 0.4rem; border-bottom: 2px solid #111; }
table { border-collapse: collapse; table-layout: fixed; width: 100%; margin: 0.6rem 0; }
caption { text-align: left; padding-bottom: 0.3rem; }
th, td { text-align: left; vertical-align: top; padding: 0.2rem 0.8rem 0.2rem 0; border-bottom: 1px solid #bbb; }
thead th { border-bottom: 2px solid #111; vertical-align: bottom; }
th.set { padding-top: 0.9rem; border-bottom: 1px solid #111; }
th.set span { display: block; font-weight: normal; }
tbody th { font-weight: normal; }
th.set, tr.best th, tr.best td { font-weight: bold; }
.n { text-align: right; font-variant-numeric: tabular-nums; }
.bar { display: block; border-top: 0.55rem solid #111; margin-top: 0.15rem; min-width: 1px; }
.room { display: block; border: 1px solid #777; border-width: 0 1px; }
code { font-family: ui-monospace, monospace; font-size: 0.9em; }
figure { margin: 1rem 0; }
figure svg { max-width: 100%; }
#trace svg { height: auto; }
p.verdict { font-weight: bold; }
#bracket code { white-space: nowrap; }
.kept { white-space: nowrap; }
.scroll { display: block; overflow-x: auto; }
ul { list-style: none; margin: 0; padding-left: 0.8rem; border-left: 1px solid #bbb; }
ul ul ul ul ul ul ul ul ul ul { padding-left: 0; border-left: 0; }
li { margin: 0.15rem 0; }
li.leaf { padding-left: 1.1rem; }
summary { cursor: pointer; }
summary span, li.leaf span { display: inline-block; margin-right: 0.6rem; }
a { color: inherit; }
@media (max-width: 40rem) { body { padding: 0.5rem; font-size: 0.9rem; } th, td { padding-right: 0.4rem; }
  #bracket, #bracket thead, #bracket tbody { display: block; }
  #bracket tr { display: grid; grid-template-columns: 1fr auto; border-bottom: 1px solid #bbb; }
  #bracket th, #bracket td { border: 0; width: auto !important; } #bracket tr > :last-child { grid-column: 1 / 3; } }
@media print { a { text-decoration: none; } tr, figure { break-inside: avoid; } }
"""


def tag(name, content, **attributes):
    """An element. Its content stands as it is and its attributes are escaped; `class_` is class, `aria_hidden`
    aria-hidden."""
    told = "".join(f' {key.rstrip("_").replace("_", "-")}="{escape(str(it))}"' for key, it in attributes.items())
    return f"<{name}{told}>{content}</{name}>"


def head_row(*heads):
    """The heads of columns, each with its width in a hundred; those of numbers stand at the right."""

    def cell(head, width, kind=None):
        return tag("th", escape(head), scope="col", style=f"width:{width}%", **({"class_": kind} if kind else {}))

    return tag("thead", tag("tr", "".join(cell(*it) for it in heads)))


def place_of(set_):
    return f"p{set_.player}s{set_.number}"


def page_of(audit, files):
    game = audit.game
    name = escape(title(game))
    payoffs, *reading = (tag("p", escape(it)) for it in notes(audit))
    parts = [
        tag("h1", name),
        tag("p", escape(f"{player_name(game, 1)} against {player_name(game, 2)}")),
        *(tag("p", escape(it), class_="verdict") for it in verdict(audit)),
        *contents(audit),
        tag("h2", "The bracket"),
        span_figure(audit),
        summary_table(audit),
        payoffs,
        *trace_figure(audit),
        tag("h2", "Where the plans give away most"),
        losing_table(audit),
        *reading,
        *(part for player in (1, 2) for part in player_section(audit, player)),
        *tree_section(audit),
        tag("h2", "What this page was made of"),
        files_table(files, audit.text.is_certificate()),
    ]
    head = '<meta charset="utf-8"/><meta name="viewport" content="width=device-width, initial-scale=1"/>'
    head += tag("title", name) + tag("style", STYLE)
    body = "\n".join(parts)
    whole = f"<head>{head}</head>\n<body>\n{body}\n</body>\n"
    return "<!DOCTYPE html>\n" + tag("html", "\n" + whole, xmlns="http://www.w3.org/1999/xhtml", lang="en") + "\n"


def summary_table(audit):
    rows = []
    for said, value, rounding in summary(audit):
        shown = tag("td", number(value, rounding=rounding), class_="n")
        rows.append(tag("tr", tag("th", escape(said), scope="row") + shown + exact(value)))
    head = head_row(("what", 42), ("payoff", 16, "n"), ("exactly", 42))
    return tag("table", head + tag("tbody", "\n".join(rows)), id="bracket")


def exact(value):
    return tag("td", tag("span", tag("code", str(value)), class_="scroll"))


def contents(audit):
    """Where a page of many sets has what: its parts, and folded each player's sets."""
    if sum(len(audit.lines[player]) for player in (1, 2)) <= MOST_WITHOUT_CONTENTS:
        return []
    items = [tag("li", tag("a", "The bracket", href="#bracket"))]
    if losing(audit):
        items.append(tag("li", tag("a", "Where the plans give away most", href="#losing")))
    for player in (1, 2):
        name, lines = escape(player_name(audit.game, player)), audit.lines[player]
        items.append(tag("li", tag("a", f"{name}'s plan", href=f"#plan{player}")))
        if lines:
            links = "\n".join(tag("li", set_link(line.set)) for line in lines)
            folded = tag("summary", f"{name}'s {len(lines):,} sets") + tag("ul", links)
            items.append(tag("li", tag("details", folded)))
    return [tag("h2", "Contents"), tag("ul", "\n".join(items), id="contents")]


def set_link(set_):
    return tag("a", escape(set_name(set_)), href=f"#{place_of(set_)}")


def span_figure(audit):
    name = player_name(audit.game, 1)
    drawn = span(audit.text.low, audit.text.high, audit.pay, name)
    return figure(drawn, f"From LOW to HIGH. The ring is what {name} gets where both plans meet.", "span")


def trace_figure(audit):
    """How the bracket closed, where there is more than one evaluation."""
    if len(audit.text.trace) < 2:
        return []
    drawn = picture(audit.text, None, player_name(audit.game, 1), canvas=NARROW)
    return [figure(drawn, f"How the bracket closed over {audit.text.rounds:,} rounds.", "trace")]


def figure(drawn, said, name):
    return tag("figure", drawn + tag("figcaption", escape(said)), id=name)


def losing_table(audit):
    found = losing(audit)
    if not found:
        return tag("p", "Nothing is given away at any set.")
    rows = []
    for line in found:
        name = escape(player_name(audit.game, line.set.player))
        where = escape(f"{exploited_at(audit.game, line.set)}'s plan at ") + f"{name}'s {set_link(line.set)}"
        cells = tag("th", where, scope="row") + tag("td", escape(best_of(line)))
        rows.append(tag("tr", cells + right(percent(line.reached)) + right(given_away(line.lost))))
    head = head_row(("whose plan at which set", 38), ("best", 18), ("reached", 21, "n"), ("gives away", 23, "n"))
    return tag("table", head + tag("tbody", "\n".join(rows)), id="losing")


def right(content):
    """A number at the right; it is kept on one line unless it is a long one."""
    told = content.replace(" ", "&#160;")
    return tag("td", tag("span", told, class_="kept") if len(content) <= LONGEST_KEPT else told, class_="n")


def player_section(audit, player):
    """A player's sets: those at which the other one's plan gives something away, and then the others, folded."""
    name, other = (escape(player_name(audit.game, it)) for it in (player, 3 - player))
    lines = audit.lines[player]
    heading = tag("h2", f"{name}'s plan", id=f"plan{player}")
    if not lines:
        return [heading, tag("p", f"{name} has no choice in this game.")]
    where, nowhere = split(lines)
    parts = [heading]
    if where:
        told = f"{other}'s plan gives away {given_away(audit.gains[player])} at these sets together."
        parts.append(sets_table(audit, where, told))
    if nowhere:
        folded = sets_table(audit, nowhere, f"{other}'s plan gives nothing away here.")
        count = f"{len(nowhere):,} {'more ' if where else ''}set{'' if len(nowhere) == 1 else 's'}"
        summary_line = tag("summary", f"{count} at which {other}'s plan gives nothing away")
        parts.append(tag("details", summary_line + folded, **({} if where else {"open": "open"})))
    return parts


def sets_table(audit, lines, told):
    head = head_row(("action", 30), ("plan", 30), ("worth", 24, "n"), ("best", 16))
    bodies = "\n".join(set_body(audit, line) for line in lines)
    return tag("table", tag("caption", told) + head + bodies)


def set_body(audit, line):
    """The rows of a set: its name with how often it is reached and what is given away there, and then its actions."""
    other = exploited_at(audit.game, line.set)
    said = f"reached {percent(line.reached)}, {other} gives away {given_away(line.lost)}"
    if line.actions[0].probability is None:
        said = "never reached by its own plan"
    head = tag("th", escape(set_name(line.set)) + tag("span", escape(said)), colspan=4, scope="rowgroup", class_="set")
    rows = [tag("tr", head, id=place_of(line.set))]
    rows += [action_row(it, k) for k, it in enumerate(line.actions, 1)]
    return tag("tbody", "\n".join(rows))


def action_row(line, place):
    cells = tag("th", escape(action_name(line.name, place)), scope="row")
    cells += tag("td", number(line.probability) + bar(line.probability))
    cells += right(number(line.worth)) + tag("td", line.mark)
    return tag("tr", cells, **({"class_": "best"} if line.mark == BEST else {}))


def bar(probability):
    if not probability:
        return ""
    width = max(1, round(float(probability) * 1000))
    return tag("span", tag("span", "", class_="bar", style=f"width:{width / 10:g}%"), class_="room", aria_hidden="true")


def tree_section(audit):
    told = report_tree.tree_of(audit)
    if isinstance(told, str):
        return [tag("h2", "The tree"), tag("p", escape(told))]
    said = "Each line is an action with its probability in the plan, what follows it, what it pays on average where"
    said += " both plans are played on, and how often it is reached."
    return [tag("h2", "The tree"), tag("p", said), tag("ul", branch(told, is_open=True), id="tree")]


def branch(root, is_open=False):
    """A node of the tree with all below it."""
    cells = [tag("b", escape(root.action))] if root.action else []
    cells += [tag("span", escape(it)) for it in root.told]
    line = " ".join(cells)
    if not root.children:
        return tag("li", line, class_="leaf")
    below = "\n".join(map(branch, root.children))
    folded = tag("summary", line) + tag("ul", below)
    return tag("li", tag("details", folded, **({"open": "open"} if is_open else {})))


def files_table(files, is_certificate):
    rows = [
        tag("tr", tag("th", what, scope="row") + tag("td", escape(name)) + tag("td", tag("code", told)))
        for what, (name, told) in zip(("game file", "text"), files)
    ]
    head = head_row(("what", 18), ("name", 30), ("sha256", 52))
    return tag("p", proof_of(is_certificate)) + tag("table", head + tag("tbody", "\n".join(rows)))


def proof_of(is_certificate):
    """Where what is said of LOW and HIGH is proved."""
    if not is_certificate:
        return (
            "The page proves nothing, and this text is no certificate. What is said of LOW and HIGH is proved where"
            f" {tag('code', 'xg_solve plus GAME')} with the same options writes it, which its own contract says."
        )
    return (
        "The page proves nothing. What is said of LOW and HIGH is proved where"
        f" {tag('code', 'xg_solve check GAME CERT')} accepts these two files with the same bracket."
    )
