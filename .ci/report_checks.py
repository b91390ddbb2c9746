"""Checks of `report`, without the program: that its page is well-formed and needs nothing else, and what it says."""
import pathlib
import re
import tempfile
import xml.etree.ElementTree as xml
from fractions import Fraction
from html.parser import HTMLParser

from checks import ROOT
from made_checks import equal_profile
from small_games import profile_of, small_games
from tool_calls import in_version, tool

import certificate
import efg
import losses
import report_tree
import report_words
import sequence_form

GAMES, TEXTS = ROOT / "games", ROOT / ".ci" / "tool_texts"
KUHN, KUHN_TEXT = GAMES / "kuhn_poker.efg", TEXTS / "kuhn_poker.xgcert"
NETWORKS = GAMES / "networks.efg"
DIFFERS = b"its unit, its sum or its mass isn't that of the game file"
HTML, SVG = "{http://www.w3.org/1999/xhtml}", "{http://www.w3.org/2000/svg}"
VOID = {"meta"}
TAGS = set(
    "a b body caption code details figcaption figure h1 h2 head html li meta p span style summary table tbody td th"
    " thead title tr ul svg rect line text polyline circle".split()
)

# Names that would break a page that doesn't escape them, one that isn't UTF-8, and none.
NASTY = b"""\
EFG 2 R "<script>alert(1)</script> & \\"so\\"" { "<A>" "B's \\"&amp;\\"" }
c "]]>" 1 "<!-- chance -->" { "&" 1/2 "" 1/2 } 0
p "<b>node</b>" 1 1 "<1' onclick='x" { "<i>" "</td>" "\xff\xfe" } 0
p "" 2 1 { "" "a\tb" } 0
t "" 1 "</li>" { 1, -1 }
t "" 2 "\xe2\x80\xae" { -1, 1 }
t "" 1
p "" 2 1 0
t "" 2
t "" 1
p "" 1 1 0
t "" 1
t "" 2
p "" 2 2 "\x01\x00" { "only" } 0
t "" 0 "no payoff" { 0, 0 }
"""
NASTY_NAMES = ["<script>alert(1)</script> & \"so\"", "1 <1' onclick='x", "<i>", "</td>", "\\xff\\xfe", "2 \\x01\\x00"]


class Nesting(HTMLParser):
    """Whether each element of a page is closed where it should be, as a reader of HTML sees it."""

    def __init__(self):
        super().__init__()
        self.open, self.faults = [], []

    def handle_starttag(self, tag, attrs):
        if len(dict(attrs)) < len(attrs):
            self.faults.append(f"{tag} has an attribute twice")
        if tag not in VOID:
            self.open.append(tag)

    def handle_startendtag(self, tag, attrs):
        if tag not in VOID | {"rect", "line", "polyline", "circle"}:
            self.faults.append(f"{tag} is closed by itself")

    def handle_endtag(self, tag):
        if not self.open or self.open.pop() != tag:
            self.faults.append(f"{tag} is closed out of order")


def nesting_faults(data):
    reader = Nesting()
    reader.feed(data.decode())
    reader.close()
    return reader.faults + reader.open


def texts_of(element):
    return "".join(element.itertext())


def well_formed(checks, what, data):
    """The page as XML, after what holds of each page is tested."""
    page = xml.fromstring(data)
    checks.that(f"{what}: nesting", not nesting_faults(data), f"{nesting_faults(data)}")
    checks.that(f"{what}: begins as HTML", data.startswith(b"<!DOCTYPE html>\n<html "), data[:80].decode())
    tags = {it.tag.replace(HTML, "").replace(SVG, "") for it in page.iter()}
    checks.that(f"{what}: its elements", tags <= TAGS, f"{tags - TAGS}")
    ids = [it.get("id") for it in page.iter() if it.get("id")]
    checks.that(f"{what}: each id once", len(ids) == len(set(ids)), f"{ids}")
    names = {name for it in page.iter() for name in it.attrib}
    checks.that(f"{what}: no handlers and sources", not any(re.match("on|src|action", it) for it in names), f"{names}")
    links = [it.get("href") for it in page.iter(f"{HTML}a")]
    checks.that(f"{what}: links stay within", all(it[0] == "#" and it[1:] in ids for it in links), f"{links}")
    style = texts_of(page.find(f"{HTML}head/{HTML}style"))
    checks.that(f"{what}: the style asks for nothing", not re.search(r"url\(|@import|@font-face", style), style)
    metas = [it.attrib for it in page.iter(f"{HTML}meta")]
    is_told = {"charset": "utf-8"} in metas and "width=device-width" in str(metas)
    checks.that(f"{what}: its letters and its width", is_told, str(metas))
    tables(checks, what, page)
    return page


def tables(checks, what, page):
    """Each table has heads of its columns, and each row one of its own."""
    for table in page.iter(f"{HTML}table"):
        heads = table.findall(f"{HTML}thead/{HTML}tr/{HTML}th")
        checks.that(f"{what}: heads", heads and all(it.get("scope") == "col" for it in heads), texts_of(table)[:80])
        rows = table.findall(f"{HTML}tbody/{HTML}tr")
        cells = [list(row) for row in rows]
        widths = {sum(int(it.get("colspan", 1)) for it in row) for row in cells}
        checks.that(f"{what}: as wide as its heads", widths == {len(heads)}, f"{widths}")
        firsts = {row[0].get("scope") for row in cells}
        checks.that(f"{what}: rows have heads", rows and firsts <= {"row", "rowgroup"}, f"{firsts}")


def action_rows(page):
    """For each player the rows of its table: the set's name, the action, the probability, the worth and the mark."""
    plans = [it for it in page.iter(f"{HTML}table") if it.find(f"{HTML}caption") is not None]
    found = []
    for plan in plans:
        rows = []
        for body in plan.iter(f"{HTML}tbody"):
            head, *actions = body.findall(f"{HTML}tr")
            rows += [(head[0].text, *map(texts_of, row)) for row in actions]
        found.append(rows)
    return found


def same_in_plain(checks, what, page, plain):
    """The table of plain text has the rows of the page, in its order."""
    wanted = [row for rows in action_rows(page) for row in rows]
    lines = iter(plain.decode().splitlines())
    for row in wanted:
        form = r"\s+".join(re.escape(it) for it in row if it)
        checks.that(f"{what}: {row} in plain text", any(re.match(form, line) for line in lines), "it isn't there")


def pages(checks, folder):
    """The pages of four games and more, two of them of rounds of CFR+, too."""
    nasty, made, empty = folder / "nasty.efg", folder / "made.efg", folder / "empty.efg"
    nasty.write_bytes(NASTY)
    made.write_bytes(tool("make_game", "goofspiel", "3")[1])
    empty.write_bytes(b'EFG 2 R "" { "" "" }\nt "" 1 { 2, -2 }\n')
    for game, text in [
        (KUHN, KUHN_TEXT.read_bytes()),
        (GAMES / "toll.efg", (TEXTS / "toll.xgcert").read_bytes()),
        (GAMES / "networks.efg", (TEXTS / "networks.xgcert").read_bytes()),
        (KUHN, (TEXTS / "kuhn_poker.xgplus").read_bytes()),
        (GAMES / "networks.efg", (TEXTS / "networks.xgplus").read_bytes()),
        (nasty, tool("certify", nasty, stdin=b"NE,1/2,1/4,1/4,1/3,2/3,1")[1]),
        (made, tool("certify", made, stdin=equal_profile(made.read_bytes()))[1]),
        (GAMES / "one_mover.efg", tool("certify", GAMES / "one_mover.efg", stdin=b"NE,1/2,1/2")[1]),
        (empty, tool("certify", empty, stdin=b"NE")[1]),
    ]:
        status, page, said = tool("report", game, stdin=text)
        checks.expect(f"a page of {game.name}", (status, said), 0, b"")
        page = well_formed(checks, game.name, page)
        status, plain, said = tool("report", "--text", game, stdin=text)
        checks.expect(f"plain text of {game.name}", (status, said), 0, b"")
        same_in_plain(checks, game.name, page, plain)
        one_tree(checks, page, efg.read_game(game.read_bytes()))
        numbers_of_bracket(checks, game.name, page, plain.decode(), certificate.read_text(text))


def one_tree(checks, page, game):
    """The tree has each node once: those with others below as details, whose summary comes first."""
    tree = next(it for it in page.iter(f"{HTML}ul") if it.get("id") == "tree")
    folded = list(tree.iter(f"{HTML}details"))
    leaves = [it for it in tree.iter(f"{HTML}li") if it.get("class") == "leaf"]
    counts = (len(game.nodes) - game.leaves(), game.leaves())
    checks.that("the nodes of the tree", (len(folded), len(leaves)) == counts, f"{len(folded)} {len(leaves)} {counts}")
    all_folded = list(page.iter(f"{HTML}details"))
    checks.that("summaries come first", all(it[0].tag == f"{HTML}summary" for it in all_folded), "one doesn't")
    checks.that("the root alone is unfolded", sum("open" in it.attrib for it in folded) <= 1, "others are")


def numbers_of_bracket(checks, what, page, plain, text):
    """The table of the bracket has its ends exactly."""
    table = next(it for it in page.iter(f"{HTML}table") if it.get("id") == "bracket")
    exact = [texts_of(row[2]) for row in table.iter(f"{HTML}tr")][1:]
    checks.that(f"{what}: the bracket", exact[:2] == [str(text.low), str(text.high)], f"{exact}")
    checks.that(f"{what}: the gap", Fraction(exact[5]) == text.high - text.low, f"{exact}")
    second = [text.sum - text.high, text.sum - text.low] if text.sum else []
    checks.that(f"{what}: player two's own payoff", list(map(Fraction, exact[6:])) == second, f"{exact}, want {second}")
    gains = list(map(Fraction, exact[2:5]))
    checks.that(f"{what}: both gains", gains == [gains[0], text.high - gains[0], gains[0] - text.low], f"{exact}")
    checks.that(f"{what}: in plain text", all(it in plain for it in exact), plain)


def what_is_said(checks, folder):
    """Names stand on the page as they are, and the numbers of a strategy that is a little wrong are those by hand."""
    nasty = folder / "nasty.efg"
    nasty.write_bytes(NASTY)
    text = tool("certify", nasty, stdin=b"NE,1/2,1/4,1/4,1/3,2/3,1")[1]
    page = xml.fromstring(tool("report", nasty, stdin=text)[1])
    said = {(it.text or "") for it in page.iter()}
    checks.that("nasty names", not set(NASTY_NAMES) - said, f"{set(NASTY_NAMES) - said}")
    wrong = tool("certify", KUHN, GAMES / "kuhn_a_little_wrong.csv")[1]
    plain = tool("report", "--text", KUHN, stdin=wrong)[1].decode()
    # Against First's bets, a Jack with 1/3 of 1/4 and a King with 1/3 of 1/2, Second has a Queen with 1/2: 1/8. A third
    # of them are bluffs, so a call pays First 2/3 of 2 and 1/3 of -2, and a fold 1. Second folds 2/3 of the time.
    rows = [r"First +Second +5 holds the Queen after a bet +call +12\.5 % +0\.027778",
            r"5 holds the Queen after a bet +fold +0\.666667 +1 +12\.5 % +0\.027778",
            r"5 holds the Queen after a bet +call +0\.333333 +0\.666667 +best"]
    for row in rows:
        checks.that(row, re.search(f"^{row}$", plain, re.M), plain)
    lost = [float(it) for it in re.findall(r"%  +(\S+)$", plain.split("give away most")[1].split("\n\n")[0], re.M)]
    checks.that("what loses most stands first", len(lost) == 4 and lost == sorted(lost, reverse=True), f"{lost}")
    plain = tool("report", "--text", NETWORKS, TEXTS / "networks.xgcert")[1].decode()
    # LOW is about 44.2917, and HIGH 48.04996.
    rows = [r"51\.950042 +\S+ +100 less HIGH, in Second's payoff: "
            "Second's plan gets at least this against every plan of First",
            r"55\.708336 +\S+ +100 less LOW, in Second's payoff: no plan of Second is sure of more than this"]
    said = "At each end both payoffs add up to 100: Second gets 100 less what First gets."
    checks.that("what payoffs add up to", said in " ".join(plain.split()), plain)
    for row in rows:
        checks.that(row, re.search(f"^{row}$", plain, re.M), plain)
    equal = tool("certify", KUHN, GAMES / "kuhn_equilibrium.csv")[1]
    plain = tool("report", "--text", KUHN, stdin=equal)[1].decode()
    checks.that("nothing of player two where the sum is 0", "add up to" not in plain and "sure of" not in plain, plain)
    checks.that("an equilibrium gives nothing away", "Nothing is given away at any set." in plain, plain)
    said = "\nNeither plan can be exploited: each is a best response to the other.\n"
    checks.that("the verdict on an equilibrium", plain.count(said) == 1, plain)
    page = xml.fromstring(tool("report", GAMES / "toll.efg", TEXTS / "toll.xgcert")[1])
    missed = [it.text for it in page.iter(f"{HTML}span") if (it.text or "").startswith("never")]
    checks.that("a set that isn't reached", missed == ["never reached by its own plan"], f"{missed}")
    page = xml.fromstring(tool("report", KUHN, KUHN_TEXT)[1])
    figures = [(it.get("id"), len(list(it.iter(f"{SVG}polyline")))) for it in page.iter(f"{HTML}figure")]
    checks.that("how the bracket closed", figures == [("span", 0), ("trace", 2)], f"{figures}")
    for text, proof in ((KUHN_TEXT, "check GAME CERT accepts"), (TEXTS / "kuhn_poker.xgplus",
                                                                 "text is no certificate")):
        said = texts_of(xml.fromstring(tool("report", KUHN, text)[1]))
        checks.that(f"{text.name}: {proof}", said.count("The page proves nothing") == 1 and proof in said, said)
    page = xml.fromstring(tool("report", KUHN, stdin=equal)[1])
    figures = [it.get("id") for it in page.iter(f"{HTML}figure")]
    checks.that("one evaluation has no trace", figures == ["span"], f"{figures}")
    labels = {it.text for it in page.iter(f"{SVG}text")}
    checks.that("a bracket of one number", "LOW and HIGH about -0.05556" in labels, f"{labels}")
    page = xml.fromstring(tool("report", KUHN, stdin=wrong)[1])
    labels = {it.text for it in page.iter(f"{SVG}text")}
    checks.that("both ends of a bracket", {"LOW -0.09723", "HIGH -0.05555"} <= labels, f"{labels}")
    ring = next(percentage(it.get("cx")) for it in page.iter(f"{SVG}circle"))
    ends = [percentage(it.get("x")) for it in page.iter(f"{SVG}text") if it.text.startswith(("LOW", "HIGH"))]
    checks.that("where both plans meet", abs(ring - ends[1]) < 0.2 and ends[1] - ends[0] > 75, f"{ring} {ends}")
    who_is_at_fault(checks, page, wrong)
    marks_of_span(checks, page)


def percentage(told):
    assert told.endswith("%"), told
    return float(told[:-1])


def who_is_at_fault(checks, page, wrong):
    """The verdict stands right below the title and names, for each plan, for what it can be exploited and where. First
    gives away 1/36 and 1/72 at Second's sets, which is a 24th, less the millionths of the decimals."""
    heading, _, *verdict = list(page.find(f"{HTML}body"))[:4]
    wanted = [
        "First's plan can be exploited for 0.041667; it gives that away at Second's sets"
        ' 5 "holds the Queen after a bet" and 1 "holds the Jack after a check".',
        "Second's plan can be exploited for 0.000000125; it gives that away at First's sets"
        ' 5 "holds the Queen after a check and a bet" and 3 "holds the King".',
    ]
    is_there = heading.tag == f"{HTML}h1" and {it.get("class") for it in verdict} == {"verdict"}
    checks.that("the verdict", is_there and list(map(texts_of, verdict)) == wanted, f"{verdict}, want {wanted}")
    plain = " ".join(tool("report", "--text", KUHN, stdin=wrong)[1].decode().split())
    checks.that("the verdict in plain text", " ".join(wanted) in plain, plain)
    rule = "Rounding: LOW and other lower ends down; HIGH and other upper ends up,"
    checks.that("the rule of rounding", all(rule in it for it in (plain, texts_of(page))), plain)
    folded = [it for it in page.iter(f"{HTML}details") if it.find(f"{HTML}table") is not None]
    told = [texts_of(it[0]) for it in folded]
    wanted = ["4 more sets at which Second's plan gives nothing away",
              "4 more sets at which First's plan gives nothing away"]
    checks.that("sets that lose nothing are folded", told == wanted, f"{told}, want {wanted}")
    checks.that("they aren't unfolded", not any("open" in it.attrib for it in folded), "one is")
    heads = [texts_of(it) for one in folded for it in one.iter(f"{HTML}span") if "gives away" in texts_of(it)]
    checks.that("what is folded", len(heads) == 8 and all(it.endswith("gives away 0") for it in heads), f"{heads}")


def marks_of_span(checks, page):
    """Every mark below the bracket has its number, and no fraction of the table may be broken."""
    span = next(it for it in page.iter(f"{HTML}figure") if it.get("id") == "span")
    marks = {it.get("x1") for it in span.iter(f"{SVG}line") if it.get("x1") == it.get("x2") and it.get("y1") == "52"}
    labels = {it.get("x"): it.text for it in span.iter(f"{SVG}text") if it.get("y") == "71"}
    checks.that("each mark has a number", len(marks) >= 3 and marks == set(labels), f"{marks} {labels}")
    checks.that("as wide as the page", span.find(f"{SVG}svg").get("width") == "100%", f"{span[0].attrib}")
    table = next(it for it in page.iter(f"{HTML}table") if it.get("id") == "bracket")
    codes = list(table.iter(f"{HTML}code"))
    scrolled = [code for it in table.iter(f"{HTML}span") if it.get("class") == "scroll" for code in it]
    style = texts_of(page.find(f"{HTML}head/{HTML}style"))
    rules = "#bracket code { white-space: nowrap; }", ".scroll { display: block; overflow-x: auto; }"
    is_told = all(it in style for it in rules)
    checks.that("no fraction is broken", codes == scrolled and len(codes) == 6 and is_told, f"{codes} {scrolled}")


def by_hand(checks, folder):
    """The numbers of small games by looking at every pure strategy."""
    file = folder / "small.efg"
    for game in small_games(25, first=10_000):
        file.write_bytes(game.data())
        strategies = {player: game.strategy(player) for player in (1, 2)}
        text = certificate.read_text(tool("certify", file, stdin=profile_of(strategies))[1])
        audit = losses.Audit(efg.read_game(game.data()), text)
        low, high = game.bracket(played(audit, game))
        pay = game.payoff(played(audit, game))
        where = game.data().decode()
        checks.that(f"pay of\n{where}", audit.pay == pay, f"{audit.pay}, want {pay}")
        for player, gain in ((1, high - pay), (2, pay - low)):
            lost = [line.lost for line in audit.lines[player]]
            shown = [Fraction(report_words.given_away(it)) for it in lost]
            checks.that(f"what is given away is rounded up\n{where}", all(map(is_up, shown, lost)), f"{shown} {lost}")
            is_gain = sum(lost) == gain and min(lost, default=0) >= 0
            checks.that(f"{player} loses of\n{where}", is_gain, f"{lost}, want {gain}")
            each_set(checks, audit, game, player)
        second = [value for _, value, _ in report_words.player_two_rows(audit)]
        wanted = [game.sum - high, game.sum - low] if game.sum else []
        checks.that(f"player two's own payoff of\n{where}", second == wanted, f"{second}, want {wanted}")
        root = report_tree.tree_of(audit)
        checks.that(f"what the tree of pays\n{where}", root.pay == pay, f"{root.pay}, want {pay}")
        reached = sum(float(it.told[-1].split()[1]) for it in leaves_of(root))
        checks.that(f"how often leaves are reached of\n{where}", abs(reached - 100) < 0.5, f"{reached}")


def is_up(shown, value):
    return value <= shown <= value + max(value / 100, Fraction(1, 10**6))


def leaves_of(root):
    return [leaf for it in root.children for leaf in leaves_of(it)] if root.children else [root]


def played(audit, game):
    """The plans of a text as probabilities, where they are reached."""
    return {
        player: {
            number: [it.probability or 0 for it in line.actions]
            for number, line in zip(game.sets[player], audit.lines[player])
        }
        for player in (1, 2)
    }


def each_set(checks, audit, game, player):
    for number, line in zip(game.sets[player], audit.lines[player]):
        often, worths = game.worths(played(audit, game), player, number)
        own = [it.worth for it in line.actions]
        where = f"set {number} of {player} of\n{game.data().decode()}"
        checks.that(f"worths at {where}", own == worths, f"{own}, want {worths}")
        best = (max if player == 1 else min)(worths) if often else None
        marks = [bool(it.mark) for it in line.actions]
        checks.that(f"what is best at {where}", marks == [it == best for it in worths], f"{marks} of {worths}")
        count = [it.mark for it in line.actions].count(losses.BEST)
        checks.that(f"one choice at {where}", count == 1, f"{count}")
        wanted = often * game.own_reach(played(audit, game), player, number)
        checks.that(f"how often at {where}", line.reached == wanted, f"{line.reached}, want {wanted}")


def worse_replies():
    """Of Second's first set in Kuhn poker: the worse action with the best value, and with its own worth."""
    audit = losses.Audit(efg.read_game(KUHN.read_bytes()), certificate.read_text(KUHN_TEXT.read_bytes()))
    reply = sequence_form.reply(audit.form, 2, audit.plans[1])
    worse = max(audit.form.sequences(2, 0), key=lambda it: reply.worths[it])
    choice = worse - audit.form.first[2][0] + 1
    return [("the worse action", (reply.values[0], choice)), ("its worth too", (reply.worths[worse], choice))]


def refusals(checks, folder):
    told, networks = KUHN_TEXT.read_bytes(), (TEXTS / "networks.xgcert").read_bytes()
    head = told[: told.index(b"trace")].replace(b"rounds 8 every 2", b"rounds 0 every 1")
    values = re.search(rb"reply 2 .*\nvalue 1 (-?\d+) (\d)", told)
    for what, game, text, why in [
        ("another game", GAMES / "toll.efg", told, b"the text is of another game: it says nodes 58, the game file 9"),
        ("another unit", KUHN, told.replace(b"unit 6", b"unit 12"), DIFFERS),
        ("a sum where it is 0", KUHN, told.replace(b"sum 0", b"sum 1/6"), DIFFERS),
        ("another sum", NETWORKS, networks.replace(b"sum 100", b"sum -100"), DIFFERS),
        ("no sum in version 1", NETWORKS, in_version(1, networks).replace(b" sum 100", b""), DIFFERS),
        ("no rounds", KUHN, head + b"end\n", b"the text has no plans, as it has no rounds"),
        ("a value", KUHN, told.replace(b"value 1 " + values[1], b"value 1 7", 1), b"a best one at its set "),
        ("a choice", KUHN, re.sub(rb"(value 1 -?\d+) \d", rb"\1 3", told, count=1), b"a best one at its set "),
        ("a bracket", KUHN, re.sub(rb"bracket \S+", b"bracket -1", told), b"the text isn't true: its bracket is "),
        ("a second line", KUHN, re.sub(rb"second \S+", b"second -1", told), b"true: player two's bracket is "),
        ("a trace", KUHN, re.sub(rb"(trace 8 \d+ -?\d+)", rb"\g<1>0", told), b"the last line of its trace"),
        ("a plan", KUHN, told.replace(b"weights 2 6160384", b"weights 2 6160385"), b"and 6422528 stands before it"),
        ("a cut text", KUHN, told[:-1], b"the text doesn't end with a line feed"),
        ("no text", KUHN, b"", b"line 1 isn't the first line of a text, XGCERT 1, XGCERT 2 or XGPLUS 1"),
    ]:
        for words in ([], ["--text"]):
            status, out, said = tool("report", *words, game, stdin=text)
            is_line = said.startswith(b"report: ") and said.count(b"\n") == 1 and why in said
            checks.that(f"{what} is refused", (status, out) == (1, b"") and is_line, f"{status} {said}, want {why}")
    for what, reply in worse_replies():
        text = certificate.read_text(told)
        text.ends[0].replies[0] = reply
        said = tool("report", KUHN, stdin=certificate.text_of(text))[2]
        wanted = b"report: the text isn't true: player 2's reply isn't a best one at its set 2\n"
        checks.that(what, said == wanted, f"{said}, want {wanted}")
    forgets = folder / "forgets.efg"
    forgets.write_bytes(b'EFG 2 R "" { "A" "B" }\np "" 1 1 { "a" "b" } 0 p "" 1 1 0' + b' t "" 0' * 3)
    said = tool("report", forgets, stdin=told)[2]
    checks.that("a player that forgets",
                said == b"report: %s: refused 18 NotRecall node 2 earlier 1\n" % bytes(forgets), str(said))


def large(checks, folder):
    """Of a large game and of a long path no tree is shown, and all else is."""
    game = folder / "large.efg"
    answer = ['p "" 2 1 { %s } 0' % ('"" ' * 70)] + ['t "" 0'] * 70
    steps = [f'p "" 1 {k} {{ "on" }} 0' for k in range(1, 102)]
    for what, lines, why in [
        ("a large game", ['p "" 1 1 { %s } 0' % ('"" ' * 72)] + answer * 72, "The game has 5,113 nodes."),
        ("a long path", steps + ['t "" 0'], "has 101 nodes above its leaf"),
    ]:
        game.write_text('EFG 2 R "Large" { "A" "B" }\n' + "\n".join(lines))
        text = tool("certify", game, stdin=equal_profile(game.read_bytes()))[1]
        page = well_formed(checks, what, tool("report", game, stdin=text)[1])
        said = texts_of(page)
        is_there = any(it.get("id") == "tree" for it in page.iter())
        checks.that(f"{what} without a tree", why in said and not is_there, said[-900:])
        has_contents = any(it.get("id") == "contents" for it in page.iter())
        sets = len(efg.read_game(game.read_bytes()).sets[1])
        checks.that(f"{what}: contents", has_contents == (sets > 50), f"{sets} sets")
        if has_contents:
            contents(checks, page)


def contents(checks, page):
    """A page of more than 50 sets begins with links to its parts and, folded, to every set."""
    listed = next(it for it in page.iter(f"{HTML}ul") if it.get("id") == "contents")
    links = [it.get("href")[1:] for it in listed.iter(f"{HTML}a")]
    sets = [it.get("id") for it in page.iter(f"{HTML}tr") if it.get("id")]
    checks.that("contents name each set", set(sets) <= set(links) and len(sets) > 50, f"{set(sets) - set(links)}")
    checks.that("contents name the parts", {"bracket", "plan1", "plan2"} <= set(links), f"{links[:5]}")
    checks.that("its sets are folded", not any("open" in it.attrib for it in listed.iter(f"{HTML}details")),
                "they aren't")
    headings = [texts_of(it) for it in page.iter(f"{HTML}h2")]
    checks.that("contents come first", headings[0] == "Contents", f"{headings}")


def report_checks(checks):
    with tempfile.TemporaryDirectory() as name:
        folder = pathlib.Path(name)
        for part in (pages, what_is_said, by_hand, refusals, large):
            part(checks, folder)
