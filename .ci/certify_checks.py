"""Checks of `certify`, without the program: profiles of all forms, what they come to, and what is refused."""
import json
import pathlib
import random
import re
import tempfile
from fractions import Fraction

from checks import ROOT
import limit_games
from small_games import profile_of, small_games
from tool_calls import tool

import certificate
import efg
import plans

GAMES, TEXTS = ROOT / "games", ROOT / ".ci" / "tool_texts"
KUHN = GAMES / "kuhn_poker.efg"
NOTHING = b"certify: nothing was rounded\n"
NO_BOUND = b"certify: rounding to whole numbers changed no bound\n"
FINEST = 2**36

# A game whose names have commas and quotes, one name twice, names that are numbers, and a set that may be missed.
NAMES = b"""\
EFG 2 R "Names" { "A, the first" "The \\"second\\"" }
p "" 1 7 "go, or \\"stay\\"" { "go, now" "stay" } 0
p "" 2 3 "twice" { "1" "2" "3" } 0
t "" 1 { 1, -1 }
t "" 2 { -1, 1 }
p "" 1 9 "late" { "x" "x" } 0
t "" 3 { 4, -4 }
t "" 4 { -4, 4 }
p "" 2 4 "twice" { "3" "1" "2" } 0
t "" 2
t "" 1
p "" 2 5 "4" { "only" } 0
t "" 0
"""
# The same strategy of it in several forms.
NAMES_TABLE = [
    '"A, the first","go, or ""stay""","go, now",1/4',
    '"A, the first","go, or ""stay""",stay,.75',
    "1,late,1,1",
    "2,3,3,5e-1",
    '"The ""second""",3,1,1/2',
    "2,4,1,1",
    "2,5,only,1.0",
]
NAMES_FORMS = [
    ("a table", "\n".join(NAMES_TABLE)),
    ("a header", "player,set,action,probability\n" + "\n".join(NAMES_TABLE) + "\n"),
    ("a header of another order", "Probability, action ,SET,player\n1/4,1,7,1\n3/4,2,7,1\n1,1,9,1\n"
     ".5,1,3,2\n.5,3,3,2\n0,2,3,2\n1,1,4,2\n1,1,5,2\n"),
    ("CRLF", "\r\n".join(NAMES_TABLE) + "\r\n"),
    ("UTF-8 with a mark", "\ufeff" + "\n".join(NAMES_TABLE)),
    ("a mark and a header", "\ufeffplayer,set,action,probability\r\n" + "\r\n".join(NAMES_TABLE)),
    ("empty lines", "\n\n" + "\n\n".join(NAMES_TABLE) + "\n,,,\n\n"),
    ("places and spaces", "1, 7 , 1 ,1/4\n1,7,2, 3/4\n1,9,1,1\n2,3,3,1/2\n2,3,1,1/2\n2,4,2,0\n2,4,1,1\n2,5,1,1"),
    ("a line of Gambit", "NE,1/4,3/4,1,0,1/2,0,1/2,0,1,0,1"),
    ("its end in CRLF, with a mark", "\ufeff\r\nNE,0.25,0.75,1,0,0.5,0,0.5,0,1,0,1\r\n"),
]

# A prime past all scales; and probabilities with the scale and the rounds of their root.
PAST = 1_048_583
ROOTS = [
    ("1/3,1/3,1/3", 2**20, 65_535),
    ("1/7,2/7,4/7", 2**20, 65_534),
    ("1/65537,0,65536/65537", 15 * 65_537, 65_536),
    ("1/65539,2/65539,65536/65539", 15 * 65_539, 65_536),
    ("1/1048573,0,1048572/1048573", 1_048_573, 65_536),
    ("1/68703551533,0,68703551532/68703551533", 1_048_573, 65_521),
]
# Two primes that are scales, and no scale has both.
APART = 1_048_573, 1_048_571
NO_SCALE = "no scale serves both plans; --player 1 and --player 2 take one alone, and round nothing"
COLUMNS = b"player,set,action,probability\n"
# A game whose names can't all stand in a table, with a profile and its table.
STRANGE = b"""\
EFG 2 R "Strange" { "A" "B" }
p "" 1 3 "12" { "2" "1" } 0
p "" 2 8 "b" { " x" "x" "" } 0
t "" 1 { 1, -1 }
t "" 2 { -1, 1 }
t "" 0
p "" 2 9 "a, \\"b\\"" { "\xff" "say \\"no\\", or not" } 0
p "" 1 4 "13" { "one
line" "two" } 0
t "" 1
t "" 2
p "" 1 7 "14" { "say \\"no\\", or not" "\xc3\xa9" } 0
t "" 2
t "" 1
"""
STRANGE_LINE = b"NE,1/3,2/3,1,0,1/3,2/3,1/3,2/3,0,1,0\n"
STRANGE_ROWS = [
    "player,set,action,probability",
    "1,3,2,1/3",
    "1,3,1,2/3",
    "1,4,1,1",
    "1,4,2,0",
    '1,7,"say ""no"", or not",1/3',
    "1,7,\u00e9,2/3",
    "2,b,1,1/3",
    "2,b,2,2/3",
    "2,b,3,0",
    '2,"a, ""b""",1,1',
    '2,"a, ""b""",2,0',
]
STRANGE_TABLE = "".join(line + "\n" for line in STRANGE_ROWS).encode()

KUHN_LINE = "NE," + ",".join(["1/2"] * 24)
WHOLE = "a header has the columns player, set, action and probability, in any order"
NAMES_OF = "player 1's set 7 \"go, or \\\"stay\\\"\""
# A profile of the game above, and the line with which it is refused.
REFUSED = [
    ("", "the profile is empty"),
    (" \r\n\r\n", "the profile is empty"),
    ("\ufeff", "the profile is empty"),
    ("NE", "line 1: it has 0 numbers, and the game has 4 actions of player 1 and 7 of player 2"),
    ("NE,1,0", "line 1: it has 2 numbers, and the game has 4 actions of player 1 and 7 of player 2"),
    (KUHN_LINE, "line 1: it has 24 numbers, and the game has 4 actions of player 1 and 7 of player 2"),
    ("NE,1,0,1,0,1,0,0,1,0,0,1\n\nNE,1,0", "line 3: a profile is one line, and another one follows it"),
    ("NE,1,0,,0,1,0,0,1,0,0,1", 'line 1, number 3, player 1\'s set 9 "late", action "x": "" isn\'t a probability'),
    ("NE,1,0,1,0,1,nan,0,1,0,0,1", 'number 6, player 2\'s set 3 "twice", action "2": "nan" isn\'t a probability'),
    ("NE,2,-1,1,0,1,0,0,1,0,0,1", f'line 1, number 1, {NAMES_OF}, action "go, now": the probability 2 is above 1'),
    ("NE,1/2,1/3,1,0,1,0,0,1,0,0,1", "the probabilities of the set add up to 0.833333333333333, and not to 1"),
    ("player,set,action,probability\n", "the profile has a header, and no line behind it"),
    ("1,7,1", "line 1: it has 3 fields in place of 4: player, set, action, probability"),
    ("1,7,1,1/2\n1;7;2;1/2", "line 2: it has 1 field in place of 4: player, set, action, probability"),
    ("1,7,1,1/2,", "line 1: it has 5 fields in place of 4: player, set, action, probability"),
    ("1,go, or stay,1,1/2", "line 1: it has 5 fields in place of 4: player, set, action, probability"),
    ('1,"7"7,1,1/2', "line 1: ',' expected after '\"'"),
    ('1,7,1,1/2\n1,"7,2,1/2\n', "line 2: unexpected end of data"),
    ("3,7,1,1", 'line 1: "3" is no player: 1, 2 or one of their names is needed'),
    ("players,set,action,probability\n1,7,1,1", f'line 1: {WHOLE}; this one lacks player and has "players"\n'),
    ("player,set,action,prob\n1,7,1,1", f'line 1: {WHOLE}; this one lacks probability and has "prob"\n'),
    ("\n Player ,ACTION,set\n1,1,7", f"line 2: {WHOLE}; this one lacks probability\n"),
    ("player,set,action,probability,note\n1,7,1,1,x", f'line 1: {WHOLE}; this one has "note"\n'),
    ("player,set,set,action,probability\n", f"line 1: {WHOLE}; this one has one of them twice\n"),
    ("player;set;action;probability\n1;7;1;1", f"line 1: {WHOLE}; this one lacks player and set and action and"),
    ("set,7,1,1", 'line 1: "set" is no player: 1, 2 or one of their names is needed'),
    ("1,7,1,1/4\nplayer,set,action,p", 'line 2: "player" is no player: 1, 2 or one of their names is needed'),
    ("1,7,1,-1/4", "line 1: the probability -1/4 is below 0"),
    ("1,7,1,1.01", "line 1: the probability 1.01 is above 1"),
    ("1,7,1,1/0", 'line 1: "1/0" isn\'t a probability'),
    ("1,7,1,1e9999", 'line 1: "1e9999" isn\'t a probability'),
    ("1,7,1,\u0661", 'line 1: "\u0661" isn\'t a probability'),
    ("1,7,1,50%", 'line 1: "50%" isn\'t a probability'),
    ("1,8,1,1", 'line 1: player 1 has no set "8"'),
    ("1,\u0007,1,1", 'line 1: player 1 has no set "\\x07"'),
    ("1,late,1,1\n1,7,3,1", f'line 2: {NAMES_OF} has no action "3"'),
    ("1,7,go,1", f'line 1: {NAMES_OF} has no action "go"'),
    ("1,7,stay,1/2\n1,7,1,1/2", f"line 1: {NAMES_OF}: other lines give places in place of names, or no action of it"),
    ("1,late,x,1", 'line 1: player 1\'s set 9 "late" has the action "x" twice; give the places of actions'),
    ("2,twice,1,1", 'line 1: player 2 has 2 sets of the name "twice"; name the set by its number, one of 3, 4'),
    ("1,7,1,1/2\n1,7,2,1/2\n1,go, or", "line 3: it has 3 fields in place of 4: player, set, action, probability"),
    ("1,7,1,1/2\n1,7,1,1/2", f'line 2: {NAMES_OF}, action "go, now" stands in line 1 already'),
    ("1,7,1,1/2", f"line 1, {NAMES_OF}: the probabilities of the set add up to 0.5, and not to 1"),
    ("1,7,1,0.9\n1,7,2,0.2", f"line 1, {NAMES_OF}: the probabilities of the set add up to 1.1, and not to 1"),
    ("1,9,1,1", f"the profile has no line for {NAMES_OF}, which its own plan reaches"),
    ("1,7,1,1", 'the profile has no line for player 1\'s set 9 "late", which its own plan reaches'),
    ("1,7,1,1\n1,9,1,1\n2,5,1,1\n2,3,1,1", 'no line for player 2\'s set 4 "twice", which its own plan reaches\n'),
    ("1,7,1,1\n1,9,1,1", "which its own plan reaches; --player 1 takes a profile of player 1 alone"),
]

# What the actions of a set have, and whether it is scaled, taken as it is (None), or refused.
SUMS = [
    ("0.333333 0.333333 0.333333", "1/3 1/3 1/3", True),
    ("0.33 0.33 0.33", "1/3 1/3 1/3", True),
    ("0.3333333433 0.3333333433 0.3333333433", "1/3 1/3 1/3", True),
    ("0.166667 0.333333 0.5", None, None),
    ("0.1 0.2 0.7", None, None),
    ("0.30000000000000004 0.3 0.4", None, True),
    ("0.3 0.3 0.3", None, False),
    ("0.33 0.33 0.30", None, False),
    ("0.5 0.25 0.24", None, True),
    ("1/3 1/3 1/4", None, False),
    ("0.9 0.01 0.02", None, False),
    (" ".join(["0.08"] * 12), None, True),
    (" ".join(["0.09"] * 10), None, False),
]
# A game and the line of a fault of its numbers.
PROLOGUE = limit_games.PROLOGUE.encode()
BIG = b"4611686018427387904"
FAULTS = [
    (b'c "" 1 { "a" 3/2 "b" -1/2 } 0 t "" 0 t "" 0', b"refused 15 ChanceNegative node 1"),
    (b'c "" 1 { "a" 1/2 "b" 1/3 } 0 t "" 0 t "" 0', b"refused 16 ChanceSum node 1"),
    (b'p "" 1 1 { "x" } 0 c "" 1 { "a" .333333 "b" .333333 "c" .333333 } 0' + b' t "" 0' * 3,
     b"refused 16 ChanceSum node 2"),
    (b'p "" 1 1 { "x" "y" } 0 t "" 1 { 1, 1 } t "" 0', b"refused 17 NotConstantSum node 3"),
    (b'p "" 1 1 { "x" "y" } 0 t "" 0 p "" 1 2 { "x" } 1 { 1 -1 } t "" 2 { 1 -2 }', b"refused 17 NotConstantSum node 4"),
    (b't "" 1 { %s 1 }' % BIG, b"refused 19 Scale node 1"),
    (b'p "" 1 1 { "x" "y" } 0 t "" 0 t "" 1 { %s 1 }' % BIG, b"refused 19 Scale node 3"),
    (
        b'p "" 1 1 { "x" } 0 c "" 1 { "a" 1/2 "b" 1/2 } 0 t "" 1 { 1 4611686018427387903 } t "" 1',
        b"refused 19 Scale node 3",
    ),
    (b'p "" 1 1 { "a" "b" } 0 p "" 1 1 0' + b' t "" 0' * 3, b"refused 18 NotRecall node 2 earlier 1"),
    (b'p "" 1 1 { "x" } 1 { %s -%s } t "" 2 { %s -%s }' % (BIG, BIG, BIG, BIG), b"refused 19 Scale node 2"),
    (b'p "" 1 1 { "x" "y" } 0 t "" 1 { %s -%s } t "" 2 { 1 -1 }' % (BIG, BIG), b"refused 19 Scale node 3"),
    (b'c "" 1 { "a" 1/4611686018427387847 "b" 4611686018427387846/4611686018427387847 } 0 t "" 1 { 1/3 -1/3 } t "" 0',
     b"refused 19 Scale node 2"),
    (b'c "" 1 { "a" 1/4611686018427387847 "b" 1/4611686018427387837 "c" 1/2 } 0 t "" 0 t "" 0 t "" 0',
     b"refused 19 Scale node 1"),
    (b'p "" 1 1 { "x" "y" } 0 t "" 1 { 1/4611686018427387847 -1/4611686018427387847 } t "" 2 { 1/3 -1/3 }',
     b"refused 19 Scale node 3"),
    (b'c "" 1 { "a" 1/2 "b" 1/2 } 1 { %s -%s } t "" 2 { %s -%s } t "" 0' % (BIG, BIG, BIG, BIG),
     b"refused 19 Scale node 2"),
    (b'p "" 1 1 { "x" } 1 { %s 0 } t "" 2 { %s 0 }' % (BIG, BIG), b"refused 19 Scale node 2"),
    (b'p "" 1 1 { "x" } 1 { 0 %s } t "" 2 { 0 %s }' % (BIG, BIG), b"refused 19 Scale node 2"),
    (b"", b"refused 3 UnexpectedEnd"),
]


def round_trips(checks):
    """A profile that was printed of a text comes back with the text's replies, totals and bracket."""
    for name in ("kuhn_poker", "toll", "networks"):
        game, told = GAMES / f"{name}.efg", TEXTS / f"{name}.xgcert"
        _, profile, _ = tool("plan_table", "--profile", game, told)
        status, out, said = tool("certify", game, stdin=profile)
        checks.expect(f"{name} certified", (status, said), 0, NOTHING)
        old, new = certificate.read_text(told.read_bytes()), certificate.read_text(out)
        checks.that(f"{name}, what was read is written", certificate.text_of(old) == told.read_bytes(), "it differs")
        checks.that(f"{name}, the head", out.splitlines()[:7] == told.read_bytes().splitlines()[:7], f"{out[:200]}")
        checks.that(f"{name}, the bracket", (new.low, new.high) == (old.low, old.high), f"{new.low} {new.high}")
        checks.that(f"{name}, the replies", same_ends(old, new), "they differ")


def game_of(text):
    """The game of a text of .ci/tool_texts."""
    return GAMES / f"{text.name.split('.')[0].split('_version')[0]}.efg"


def tables(checks, folder):
    """A table that was printed of a text comes back with its plans: of texts, of strange names, of random games."""
    texts = [(game_of(it), it.read_bytes()) for it in TEXTS.glob("*.xg*")]
    for game, told in texts:
        _, table, said = tool("plan_table", "--csv", game, stdin=told)
        checks.that(f"a table of {game.name}", said == b"" and table.startswith(COLUMNS), f"{table} {said}")
        same_plans(checks, f"the table of {game.name}", told, *tool("certify", game, stdin=table))
    checks.that("all texts", len(texts) == 7, f"{len(texts)}")
    strange = [(NAMES, NAMES_FORMS[0][1].encode()), (STRANGE, STRANGE_LINE)]
    strange += [(it.data(), profile_of({k: it.strategy(k) for k in (1, 2)})) for it in small_games(60)]
    file = folder / "named.efg"
    for data, profile in strange:
        file.write_bytes(data)
        told = tool("certify", file, stdin=profile)[1]
        table = tool("plan_table", "--csv", file, stdin=told)[1]
        again = tool("certify", file, stdin=table)
        same_plans(checks, f"the table of\n{data}", told, *again)
    file.write_bytes(STRANGE)
    table = tool("plan_table", "--csv", file, stdin=tool("certify", file, stdin=STRANGE_LINE)[1])[1]
    checks.that("a table of strange names", table == STRANGE_TABLE, f"{table}")
    rounded = tool("plan_table", "--csv", "--decimals=3", file, stdin=tool("certify", file, stdin=STRANGE_LINE)[1])[1]
    wanted = STRANGE_TABLE.replace(b"1/3", b"0.333").replace(b"2/3", b"0.667").replace(b",1\n", b",1.000\n")
    checks.that("a table of decimals", rounded == wanted.replace(b",0\n", b",0.000\n"), f"{rounded}")


def same_plans(checks, what, told, status, out, said):
    """What came back has the plans of a text and its bracket. A plan that was rounded is rounded again."""
    old = certificate.read_text(told)
    new = certificate.read_text(out) if status == 0 else None
    checks.expect(what, (status, said), 0, NOTHING)
    if new is not None:
        found = (new.low, new.high), new.bracket_of_two()
        checks.that(f"{what}, its bracket", found == ((old.low, old.high), old.bracket_of_two()), f"{found}")
        checks.that(f"{what}, its ends", same_ends(old, new), "they differ")


def texts(checks, folder):
    """A text of `solve` or `plus` as it stands becomes a certificate of its plans, or of one of them."""
    for file in sorted(TEXTS.glob("*.xg*")):
        game, told = game_of(file), file.read_bytes()
        made = tool("certify", game, "--text", file)
        same_plans(checks, f"{file.name} by --text", told, *made)
        from_stream = tool("certify", "--text", "-", game, stdin=told)
        checks.that(f"{file.name} from a stream", from_stream == made, f"{from_stream}")
        old = certificate.read_text(told)
        for player in (1, 2):
            status, out, said = tool("certify", game, f"--player={player}", "--text", file)
            new, both = (certificate.read_text(it) for it in (out, made[1]))
            ends = ((old.low, new.low), (old.high, new.high))[player - 1]
            checks.that(f"{file.name}, player {player}", status == 0 and ends[0] == ends[1], f"{ends} {said}")
            one, two = new.ends[player - 1], both.ends[player - 1]
            is_same = end_times(one, two.root) == end_times(two, one.root)
            checks.that(f"{file.name}, player {player}'s plan", is_same, out.decode())
    texts_that_differ(checks, folder)
    profile = tool("certify", KUHN, TEXTS / "kuhn_poker.xgcert")
    why = b"this is a text of solve or plus, and no profile; --text takes it\n"
    checks.that("a text as a profile", profile[:2] == (1, b"") and profile[2].endswith(why), f"{profile}")
    checks.that("a text and a profile", tool("certify", KUHN, "-", "--text", "-")[0] == 2, "both are taken")


def texts_that_differ(checks, folder):
    """A text of another game has no plans here; one whose bracket isn't its plans' own is taken, and it is said."""
    told, file = (TEXTS / "kuhn_poker.xgcert").read_bytes(), folder / "text"
    for what, old, new, why in [
        ("another unit", b"unit 6", b"unit 7", "its unit, its sum or its mass isn't that of the game file"),
        ("another mass", b"mass 42", b"mass 43", "its unit, its sum or its mass isn't that of the game file"),
        ("another sum", b"sum 0", b"sum 1", "its unit, its sum or its mass isn't that of the game file"),
        ("other nodes", b"nodes 58", b"nodes 59", "it says nodes 59, the game file 58"),
        ("no plan", b"weights 2 6160384", b"weights 2 6160385", "the weights of player 1's set 4 add up to 6422529"),
        ("no text", b"XGCERT", b"XGCARD", "line 1 isn't the first line of a text"),
    ]:
        file.write_bytes(told.replace(old, new))
        status, out, said = tool("certify", KUHN, "--text", file)
        is_line = said.startswith(b"certify: %s: " % bytes(file)) and said.count(b"\n") == 1
        checks.that(what, (status, out) == (1, b"") and is_line and why.encode() in said, f"{status} {said}")
    file.write_bytes(re.sub(rb"bracket (\S+) (\S+)", rb"bracket \1 0", told))
    wanted = tool("certify", KUHN, stdin=tool("plan_table", "--csv", KUHN, TEXTS / "kuhn_poker.xgcert")[1])[1]
    line = b"certify: the text says HIGH 0, and its plans have 7/96\n"
    checks.expect("another bracket", tool("certify", KUHN, "--text", file), 0, wanted, NOTHING + line)
    status, _, said = tool("certify", "--player=1", KUHN, "--text", file)
    checks.that("another bracket of the other player", status == 0 and b"the text says" not in said, f"{said}")


def objects(checks, folder):
    """What a text says as an object is what stands in its lines."""
    for file in sorted(TEXTS.glob("*.xg*")):
        game_file = game_of(file)
        status, out, said = tool("plan_table", "--json", game_file, file)
        checks.expect(f"{file.name} as an object", (status, said), 0, b"")
        told, text = json.loads(out), certificate.read_text(file.read_bytes())
        for what, found, wanted in object_parts(told, text):
            checks.that(f"{file.name}, {what}", found == wanted, f"{found}, want {wanted}")
        decimals = [it for it in re.findall(rb'"fraction": "(.*)",\n\s*"decimal": (.*)\n', out)]
        near = all(float(Fraction(one.decode())) == float(two) for one, two in decimals)
        checks.that(f"{file.name}, its decimals", near and len(decimals) > 10, f"{len(decimals)}")
    kuhn = json.loads(tool("plan_table", "--json", KUHN, TEXTS / "kuhn_poker.xgcert")[1])
    first = kuhn["plans"][0]["sets"][0]
    wanted = {"action": 2, "name": "bet", "weight": 1966080, "probability": {"fraction": "15/64", "decimal": 0.234375}}
    checks.that("a set by name", (first["name"], first["actions"][1]) == ("holds the Jack", wanted), f"{first}")
    named = kuhn["game"]["players"], kuhn["replies"][0]["name"], kuhn["replies"][0]["sets"][0]["action"]
    checks.that("names", named == (["First", "Second"], "Second", "check"), f"{named}")
    toll = json.loads(tool("plan_table", "--json", GAMES / "toll.efg", TEXTS / "toll.xgcert")[1])
    missed = [it for it in toll["plans"][0]["sets"] if not it["reached"]]
    is_none = [it["probability"] for own in missed for it in own["actions"]]
    checks.that("a set not reached", is_none and not any(is_none), f"{missed}")
    checks.that("decimals of an object", tool("plan_table", "--json", "--decimals=2", KUHN)[0] == 2, "they are taken")
    checks.that("two forms", tool("plan_table", "--json", "--csv", KUHN)[0] == 2, "they are taken")


def object_parts(told, text):
    """The parts of an object, with what a text's lines have there."""
    head = told["head"]
    yield "the head", [head[it] for it in ("nodes", "leaves", "sets", "sequences", "rounds", "every", "scale")], [
        *(text.nodes, text.leaves, list(text.sets), list(text.sequences), text.rounds, text.every, text.scale)
    ]
    numbers = int(head["unit"]), int(head["mass"]), Fraction(head["sum"]["fraction"])
    yield "the numbers", numbers, (text.unit, text.mass, text.sum)
    names = ("round", "low_round", "low_total", "high_round", "high_total")
    yield "the trace", [tuple(int(it[name]) for name in names) for it in told["trace"]], text.trace
    for name, wanted in (("bracket", (text.low, text.high)), ("second", text.bracket_of_two())):
        yield name, tuple(Fraction(told[name][it]["fraction"]) for it in ("low", "high")), wanted
    last = [Fraction(told["trace"][-1][it]["fraction"]) for it in ("low", "high")]
    yield "the end of the trace", last, [text.low, text.high]
    for k, end in enumerate(text.ends):
        plan, reply = told["plans"][k], told["replies"][k]
        yield "the roots", plan["root"], end.root
        weights = [[it["weight"] for it in own["actions"]] for own in plan["sets"]]
        yield f"plan {k + 1}", weights, end.weights
        chances = [[it["probability"] for it in own["actions"]] for own in plan["sets"]]
        spelled = [[it and Fraction(it["fraction"]) for it in own] for own in chances]
        befores = [own["weight"] for own in plan["sets"]]
        wanted = [[Fraction(w, n) if n else None for w in own] for n, own in zip(befores, end.weights)]
        yield f"the probabilities of plan {k + 1}", spelled, wanted
        found = int(reply["total"]), [(int(it["value"]), it["choice"]) for it in reply["sets"]]
        yield f"the reply to plan {k + 1}", found, (end.total, end.replies)


def same_ends(old, new):
    """Whether the plans and replies of two texts are the same, but for their roots."""
    for one, two in zip(old.ends, new.ends):
        if end_times(one, two.root) != end_times(two, one.root):
            return False
    return True


def end_times(end, factor):
    weights = [[it * factor for it in row] for row in end.weights]
    return weights, [(value * factor, choice) for value, choice in end.replies], end.total * factor


def against_pure(checks, folder):
    """What is printed of random strategies is what all pure strategies of the other player say, but for rounding."""
    file = folder / "small.efg"
    rounded = same = 0
    for number, game in enumerate(small_games(60)):
        file.write_bytes(game.data())
        strategies = {player: game.strategy(player, *[(0, 1, PAST)] * (number % 2)) for player in (1, 2)}
        status, out, said = tool("certify", file, stdin=profile_of(strategies))
        text = certificate.read_text(out)
        checks.that(f"the sum of\n{game.data().decode()}", text.sum == game.sum, f"{text.sum}, {game.sum}")
        low, high = game.bracket(strategies)
        most = {end: Fraction(told) for end, told in re.findall(r"(LOW|HIGH) by at most (\S+)", said.decode())}
        rounded += bool(most)
        for end, told, wanted in (("LOW", text.low, low), ("HIGH", text.high, high)):
            where = f"{end} of\n{game.data().decode()}"
            checks.that(where, status == 0 and abs(told - wanted) <= most.get(end, 0), f"{told}, {wanted}")
        for player in (1, 2):
            alone = tool("certify", f"--player={player}", file, stdin=profile_of(strategies, [player]))[1]
            one, both = (certificate.read_text(it).ends[player - 1] for it in (alone, out))
            where = f"player {player} of\n{game.data().decode()}"
            is_same = end_times(one, both.root) == end_times(both, one.root)
            is_finer = one.root != both.root and ("LOW", "HIGH")[player - 1] in most
            checks.that(f"{where} alone", is_same or is_finer, alone.decode())
            same += is_same
            checks.that(f"the answer to {where}", is_answer(game, certificate.read_text(alone), player), alone.decode())
    checks.that("some were rounded", 10 <= rounded <= 30, f"{rounded}")
    checks.that("most are the same alone", same >= 100, f"{same}")


def is_answer(game, text, player):
    """Whether the other player's plan attains the total of its reply to this player's plan."""
    strategies = {k: strategy_of(game, k, text.ends[k - 1]) for k in (1, 2)}
    end = text.ends[player - 1]
    return game.payoff(strategies) == Fraction(end.total, text.unit * end.root)


def strategy_of(game, player, end):
    """A text's plan as probabilities."""
    sets = game.sets[player]
    return {it: [Fraction(w, sum(row) or 1) for w in row] for it, row in zip(sets, end.weights)}


def forms(checks, folder):
    """All forms of one strategy give one text."""
    file = folder / "names.efg"
    file.write_bytes(NAMES)
    first = tool("certify", file, stdin=NAMES_FORMS[0][1].encode())
    checks.expect(NAMES_FORMS[0][0], (first[0], first[2]), 0, NOTHING)
    for what, profile in NAMES_FORMS:
        checks.expect(what, tool("certify", file, stdin=profile.encode()), *first)
    profile = folder / "names.csv"
    profile.write_text("\n".join(NAMES_TABLE))
    checks.expect("from a file", tool("certify", file, profile), *first)
    for name, low in (("kuhn_equilibrium", Fraction(-1, 18)), ("kuhn_a_little_wrong", Fraction(-7, 72))):
        status, out, _ = tool("certify", KUHN, GAMES / f"{name}.csv")
        text = certificate.read_text(out)
        near = abs(text.low - low) < Fraction(1, 10**6) and abs(text.high + Fraction(1, 18)) < Fraction(1, 10**6)
        checks.that(name, status == 0 and near, f"{text.low} {text.high}")
    equal = tool("certify", KUHN, GAMES / "kuhn_equilibrium.csv")
    ends = b"\nbracket -1/18 -1/18\nsecond 1/18 1/18\nend\n"
    checks.that("an equilibrium is certified exactly", ends in equal[1], equal[1].decode())
    profiles = (b"NE,1/2,0,1/2,0,1,0,1", NAMES_FORMS[8][1].encode())
    alone = [tool("certify", "--player=2", file, stdin=it) for it in profiles]
    checks.that("one player's numbers, or both", alone[0][0] == 0 and alone[0] == alone[1], f"{alone}")
    unreached = "1,7,2,1\n2,5,1,1\n2,3,1,1\n2,4,1,1\n"
    missing = tool("certify", file, stdin=unreached.encode())
    checks.expect("a set that isn't reached is missing", (missing[0], missing[2]), 0, NOTHING)
    checks.that("its weights are 0", b"\nweights 2 0 0\n" in missing[1], missing[1].decode())
    zeros = tool("certify", file, stdin=b"NE,0,1,0,0,1,0,0,0,1,0,1")
    checks.expect("a set that isn't reached has zeros", (zeros[0], zeros[2]), 0, NOTHING)


def refusals(checks, folder):
    file = folder / "names.efg"
    file.write_bytes(NAMES)
    for profile, why in REFUSED:
        status, out, said = tool("certify", file, stdin=profile.encode())
        line = said.decode()
        is_line = line.startswith("certify: ") and line.count("\n") == 1 and why in line
        checks.that(f"{profile!r} is refused", (status, out) == (1, b"") and is_line, f"{status} {line}, want {why}")
    for data, line in FAULTS:
        file.write_bytes(PROLOGUE + data)
        said = b"certify: %s: %s\n" % (bytes(file), line)
        checks.expect(line.decode(), tool("certify", file, stdin=b"NE"), 1, b"", said)
    file.write_bytes(b"\xef\xbb\xbf" + NAMES)
    refused = tool("certify", file, stdin=b"NE")
    checks.expect("a game file with a mark", refused, 1, b"", b"certify: %s: refused 2 Syntax at 0\n" % bytes(file))
    status, out, said = tool("certify", folder / "none.efg", stdin=b"NE")
    checks.that("no such game", (status, out) == (1, b"") and b"No such file" in said, str(said))
    checks.that("no such player", tool("certify", "--player=3", KUHN, stdin=b"NE")[0] == 2, "")


def one_set(count):
    """A game with one set of so many actions."""
    actions = " ".join(f'"{k}"' for k in range(count))
    return PROLOGUE + f'p "" 1 5 "one" {{ {actions} }} 0\n'.encode() + b't "" 0\n' * count


def sums(checks, folder):
    """Probabilities that add up to 1 only nearly are scaled, and it is said."""
    file = folder / "one_set.efg"
    for told, meant, is_scaled in SUMS:
        file.write_bytes(one_set(len(told.split())))
        given = tool("certify", file, stdin=("NE," + told.replace(" ", ",")).encode())
        status, out, said = given
        checks.that(f"{told}, its status", status == (1 if is_scaled is False else 0), str(given))
        checks.that(f"{told} is scaled", (b"and are scaled" in said) == bool(is_scaled), said.decode())
        values = list(map(Fraction, (meant or told).split()))
        if status == 0:
            end = certificate.read_text(out).ends[0]
            near = [abs(it - end.root * value / sum(values)) < 2 for it, value in zip(end.weights[0], values)]
            checks.that(f"{told}, its weights", all(near) and sum(end.weights[0]) == end.root, f"{end.weights}")
    file.write_bytes(one_set(3))
    where = b'certify: line 1, number 1, player 1\'s set 5 "one": '
    line = where + b"0.333333 and 0.333333 and 0.333333 add up to 0.999999, and are scaled\n"
    given = tool("certify", file, stdin=b"NE,0.333333,0.333333,0.333333")
    checks.expect("a third three times", (given[0], given[2]), 0, line + NOTHING)


def rounding(checks, folder):
    """Where no root has a plan exactly, the finest is taken, and rounding changes less than 2^-30 of the payoffs."""
    file = folder / "one_set.efg"
    file.write_bytes(one_set(3))
    out = tool("certify", file, stdin=f"NE,1/{PAST},2/{PAST},{PAST - 3}/{PAST}".encode())[1]
    ends = [0, FINEST // PAST, FINEST * 3 // PAST, FINEST]
    dealt = " ".join(str(end - start) for start, end in zip(ends, ends[1:]))
    checks.that("shares", f"\nweights 1 {dealt}\n".encode() in out, f"{out}, want {dealt}")
    for told, scale, rounds in ROOTS:
        _, out, said = tool("certify", file, stdin=f"NE,{told}".encode())
        lines = f" scale {scale}\n", f"\nplan 1 {rounds * scale}\n"
        checks.that(f"the root of {told}", all(it.encode() in out for it in lines), out.decode())
        checks.that(f"{told} isn't rounded", said == NOTHING, said.decode())
    # Two primes past the rounds: a root below the greatest, and no scale has it.
    whole = 131_101 * 131_111
    out = tool("certify", file, stdin=f"NE,1/{whole},0,{whole - 1}/{whole}".encode())
    checks.that("a root of no scale", b" scale 1048576\n" in out[1] and out[2] == NO_BOUND, f"{out}")
    for game in sorted(GAMES.glob("*.efg")):
        sets = efg.read_game(game.read_bytes()).sets
        parts = [(3 * k + 1) / 7919 for k in range(20)]
        profile = ["NE"]
        for set_ in (*sets[1].values(), *sets[2].values()):
            told = [f"{it:.15f}" for it in parts[: len(set_.actions) - 1]]
            parts = parts[1:] + parts[:1]
            profile += [*told, str(1 - sum(map(Fraction, told)))]
        status, out, said = tool("certify", game, stdin=",".join(profile).encode())
        roots = [int(it) for it in re.findall(rb"^plan \d (\d+)$", out, re.M)]
        power = re.search(rb"less than 2\^(-\d+) of the largest payoff", said)
        is_small = said == NOTHING or (power and int(power[1]) <= -30)
        checks.that(f"rounding of {game.name}", status == 0 and is_small, said.decode())
        checks.that(f"the roots of {game.name}", roots == [FINEST, FINEST], f"{roots}")


def apart(checks, _):
    """Where each plan has a scale and no scale has both, one is whole, the other one rounded, and it is said."""
    one, two = APART
    profile = f"NE,1/{one},{one - 1}/{one},1/{two},{two - 1}/{two}".encode()
    status, out, said = tool("certify", GAMES / "pennies.efg", stdin=profile)
    text, lines = certificate.read_text(out), said.decode().splitlines()
    checks.that("plans apart, the first", status == 0 and text.low == Fraction(2, one) - 1, f"{text.low} {said}")
    is_said = len(lines) == 2 and lines[0].startswith("certify: rounding to whole numbers changed HIGH by at most ")
    checks.that("plans apart, what is said", is_said and lines[1] == f"certify: {NO_SCALE}", f"{lines}")
    most = Fraction(re.search(r"HIGH by at most (\S+)", lines[0])[1])
    checks.that("plans apart, the second", 0 < abs(text.high - (1 - Fraction(2, two))) <= most, f"{text.high}")
    for player, prime in ((1, one), (2, two)):
        status, out, said = tool("certify", f"--player={player}", GAMES / "pennies.efg", stdin=profile)
        text = certificate.read_text(out)
        checks.that(f"plan {player} alone", status == 0 and said.endswith(NOTHING) and text.scale == prime, f"{said}")


def scales(checks, _):
    """The scale that is found is the greatest of all that serve, by trying each of them, at small limits."""
    most = plans.MOST_ROUNDS, plans.MOST_SCALE
    plans.MOST_ROUNDS, plans.MOST_SCALE = 16, 60
    chosen, found = random.Random(7), {True: 0, False: 0}
    for _ in range(2_000):
        roots = [chosen.randint(1, 16 * 60) for _ in range(chosen.randint(1, 2))]
        serving = [it for it in range(1, 61) if all(any(it * k % root == 0 for k in range(1, 17)) for root in roots)]
        scale = plans.serving_scale(roots)
        checks.that(f"the scale of {roots}", scale == max(serving, default=None), f"{scale}, want {serving[-1:]}")
        found[scale is None] += 1
        for root in roots if scale else []:
            rounds = max(k for k in range(1, 17) if scale * k % root == 0)
            checks.that(f"the rounds of {root}", plans.rounds_for(root, scale) == rounds, f"want {rounds} of {scale}")
    plans.MOST_ROUNDS, plans.MOST_SCALE = most
    checks.that("some have a scale, and some none", min(found.values()) >= 200, f"{found}")


def certify_checks(checks):
    with tempfile.TemporaryDirectory() as name:
        folder = pathlib.Path(name)
        round_trips(checks)
        for part in (tables, texts, objects, against_pure, forms, refusals, sums, rounding, apart, scales):
            part(checks, folder)
