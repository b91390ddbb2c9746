"""What `tools/explain` is to say: of each fault of a game file and of a certificate, of broken files and of wrong
words. The texts are written by docs/game_file.md, docs/certificate.md and docs/words.md."""
PROLOGUE = 'EFG 2 R "x" { "A" "B" }\n'
LITERAL = "digits with a sign or without, as 10, 1/3, 0.5 or 5e-1"
LIMIT = "2^62, which is 4611686018427387904"
ORDER = "the entries are the tree in prefix order: a node, then the trees of its children from first to last"
MISSING = f"write what is missing: {ORDER}; or fetch the file again, if it was cut"
AFTER_A_LEAF = "the outcome's name, the outcome's payoffs or the next node, which begins with c, p or t"
NODE = "the next node, which begins with c, p or t"
ACTIONS = """the "}" behind the set's actions or an action's name"""
POINT = "write 0.5 with a point"


def place(data, token):
    """The line and the column of the last place of a token."""
    at = data.rindex(token)
    return at, f":{data.count(chr(10), 0, at) + 1}:{at - data.rfind(chr(10), 0, at)}"


def at_token(kind, token, said, expected, mend, body, prologue=PROLOGUE):
    """A fault that is told by the offset of a token."""
    data = prologue + body
    at, where = place(data, token)
    return f"refused {kind.replace(' at', f' at {at}', 1)}", data, where, said, token, expected, mend


def at_node(kind, token, said, expected, mend, body, node=1):
    """A fault that is told by its node; the mark stands at the token."""
    data = PROLOGUE + body
    said = f"node {node}: {said}"
    return f"refused {kind} node {node}", data, place(data, token)[1], said, token, expected, mend


def at_end(said, expected, mend, data):
    lines = data.split("\n")
    return "refused 3 UnexpectedEnd", data, f":{len(lines)}:{len(lines[-1]) + 1}", said, "", expected, mend


MANY = '"" ' * 1_024
# A root of 1,024 actions, and as many leaves below each of its children.
WIDE = PROLOGUE + f'p "" 1 1 {{ {MANY}}} 0\np "" 2 1 {{ {MANY}}} 0\n' + ('t "" 0\n' * 1_024 + 'p "" 2 1 0\n') * 1_024
THIRDS = 't "" 0\n' * 3
GAMES = [
    ("refused 1 TooLong", 67_108_865, "", "the file has more than 67,108,864 bytes", None, None,
     "leave out the names of nodes, and lists that are given again"),
    at_token("2 Syntax at", "0", 'a "}" is missing before this 0', ACTIONS, 'write "}" before this 0',
             'c "" 1 "toss" { "heads" 1/2 "tails" 1/2 0'),
    at_token("2 Syntax at", "1/3", "this 1/3 stands behind an action of a player", ACTIONS,
             "take it away: only actions of chance have probabilities", 'p "" 1 1 { "a" 1/3 } 0'),
    at_token("2 Syntax at", '"b"', 'the probability of the action before this "b" is missing',
             "the action's probability",
             "write it behind the action's name, as 1/2", 'c "" 1 { "a" "b" } 0'),
    at_token("2 Syntax at", ", ", "a comma stands between two actions", ACTIONS,
             "take it away: white space alone stands between actions", 'p "" 1 1 { "a", "b" } 0'),
    at_token("2 Syntax at", ",5", "the number 0,5 has a decimal comma", ACTIONS, POINT, 'c "" 1 { "a" 0,5 "b" 0,5 } 0'
             .replace('0,5 "b" 0,5', '0,5')),
    at_token("2 Syntax at", "x", "this x begins no node", f"a comment or {NODE}",
             f"a node begins with a small c, p or t, and {ORDER}", "x"),
    at_token("2 Syntax at", "name", "this name has no quotation marks", "the node's name",
             'write "name" where it is the node\'s name', "t name 0"),
    at_token("2 Syntax at", "#", "this # begins no token", f"a comment or {NODE}",
             "a game file has no comments, but for the text behind the players' names", "# mine"),
    at_token("2 Syntax at", "1", "this 1 is another version of the format", "the version 2",
             "save the game in version 2 of the .efg format", "", 'EFG 1 R "x" { "A" "B" }'),
    at_token("2 Syntax at", "}", "this } can't stand here", "the set's name, the set's actions or the outcome's number",
             None,
             'c "" 1 } 0'),
    at_end("the file is empty", "the first word EFG", 'a game file begins with EFG 2 R "TITLE" { "ONE" "TWO" }', ""),
    at_end("the file ends before the first node", "the \"}\" behind the players' names or a player's name", MISSING,
           'EFG 2 R "x" { "A"'),
    at_end("the file ends after 2 nodes, and the tree needs 2 more at least", AFTER_A_LEAF, MISSING,
           PROLOGUE + 'p "" 1 1 { "a" "b" "c" } 0\nt "" 0\n'),
    at_end("the file ends after 0 nodes, and the tree needs 1 more at least", "the player's number", MISSING,
           PROLOGUE + 'p ""'),
    ("refused 3 UnexpectedEnd", PROLOGUE + 't "win 0\n', ":2:3", "the text that begins here isn't closed", '"win 0',
     "the quotation mark that ends this text", 'write " behind the text'),
    at_token("4 TrailingText at", "t", "the tree is complete before this t", "the end of the file",
             f"take away what follows, or give a set above one action more: {ORDER}", 't "" 0\nt'),
    at_token("5 Number at Form", "1.0", "this 1.0 isn't a number of the form that the set's number has",
             "the set's number, digits alone", "write digits alone, without a sign, a point or a fraction",
             'p "" 1 1.0'),
    at_token("5 Number at Form", "50%", "this 50% isn't a number of the form that the action's probability has",
             f"the action's probability, {LITERAL}", "write 50/100 for 50%", 'c "" 1 { "a" 50% "b" 1/2 } 0'),
    at_token("5 Number at Form", "1e-100", "this 1e-100 isn't a number of the form that a payoff has",
             f"a payoff, {LITERAL}", "an exponent has one or two digits", 't "" 1 { 1e-100, 0 }'),
    at_token("5 Number at Form", "1.0/2", "this 1.0/2 isn't a number of the form that a payoff has",
             f"a payoff, {LITERAL}",
             "both parts of a fraction are digits alone: 1/2, and not 1.0/2 or 1/-2", 't "" 1 { 1.0/2, 0 }'),
    at_token("5 Number at ZeroDenominator", "1/0", "this 1/0 divides by 0", f"a payoff, {LITERAL}",
             "write another denominator",
             't "" 1 { 1/0, 0 }'),
    at_token("5 Number at Range", "0 {", "a set's number isn't 0", "the set's number, from 1 on",
             "number the sets from 1 on",
             'p "" 1 0 { "a" } 0'),
    at_token("5 Number at Range", "4611686018427387905",
             "this 4611686018427387905 is too large, or has too many digits",
             f"a payoff, a fraction whose parts are at most {LIMIT} in lowest terms",
             "write a simpler fraction, or payoffs in a larger unit", 't "" 1 { 4611686018427387905, 0 }'),
    at_token("5 Number at Range", "4611686018427387905",
             "this 4611686018427387905 is too large for the outcome's number",
             f"the outcome's number, at most {LIMIT}", "write a smaller number", 't "" 4611686018427387905'),
    ("refused 6 Players count 3", 'EFG 2 R "x" { "A" "B" "C" }\nt "" 0\n', ":1:27",
     "the game has 3 players, and only games of two are solved", "}", "two names in braces",
     "name two players; chance is none"),
    at_node("7 PlayerNumber", "3", "this 3 is the number of no player", "the player's number, 1 or 2",
            "write 1 or 2; a move of chance begins with c", 'p "" 3 1 { "a" } 0'),
    at_node("8 SetUndefined", "7", "set 7 of player 2 has no list of actions, and this is its first mention",
            "the set's actions",
            "write its actions in braces behind its number here; later mentions may leave them out",
            'p "" 2 7 "x" 0'),
    at_node("9 SetMismatch", '5 "coin" { "h" 1/2 "e"',
            "the name or the list of set 5 of chance isn't that of its first mention",
            'what node 2 says: "coin" { "h" 1/2 "t" 1/2 }',
            "write the same, leave it out, or take another set's number",
            'p "" 1 1 { "a" "b" } 0\nc "" 5 "coin" { "h" .5 "t" .5 } 0\nt "" 0\nt "" 0\n'
            'c "" 5 "coin" { "h" 1/2 "e" 1/2 } 0\n', 5),
    at_node("10 OutcomeUndefined", "4", "outcome 4 has no payoffs, and this is its first mention",
            "the outcome's payoffs",
            "write its two payoffs in braces behind its number here; outcome 0 alone needs none", 't "" 4'),
    at_node("11 OutcomeMismatch", "1 { 1, -2", "the name or the payoffs of outcome 1 aren't those of its first mention",
            'what that says: "win" { 1, -1 }', "write the same, leave them out, or take another outcome's number",
            'p "" 1 1 { "a" "b" } 0\nt "" 1 "win" { 1, -1 }\nt "" 1 { 1, -2 }\n', 3),
    at_node("11 OutcomeMismatch", "0 {", "outcome 0 has payoffs other than 0 and 0", "no payoffs, or { 0, 0 }",
            "give the outcome a number from 1 on", 't "" 0 { 1, -1 }'),
    at_node("12 PayoffCount", "{ 1, 2", "the outcome has 3 payoffs, and there are two players", "two payoffs",
            "write what player one gets and what player two gets", 't "" 1 { 1, 2, 3 }'),
    at_node("12 PayoffCount", ",5, ", "the number 0,5 has a decimal comma", "two payoffs", POINT,
            't "" 1 { 0,5, -0,5 }'),
    ("refused 13 TooManyNodes", WIDE, ":1048578:1", "the tree has more than 1,048,576 nodes", "p", None,
     "make the game smaller"),
    at_node("14 ActionCount", "{ }", "the set has no action", "1 to 1,024 actions",
            "write its actions, or make the node a terminal one", 'p "" 1 1 { } 0'),
    at_node("14 ActionCount", '{ ""', "the set has more than 1,024 actions", "1 to 1,024 actions",
            "split the choice over several sets", 'p "" 1 1 { %s} 0' % ('"" ' * 1_025)),
    at_node("15 ChanceNegative", "-1/2", "the probability -1/2 is below 0", "a probability from 0 to 1",
            "write what was meant; all of a set add up to 1", 'c "" 1 { "a" 3/2 "b" -1/2 } 0\nt "" 0\nt "" 0\n'),
    at_node("16 ChanceSum", '.333 "b"', "the chances add up to 0.999 and not to 1",
            "probabilities that add up to exactly 1",
            "tools/exact_chances GAME > EXACT.efg writes 1/3 1/3 1/3",
            'c "" 1 { "a" .333 "b" .333 "c" .333 } 0\n' + THIRDS),
    at_node("16 ChanceSum", '1/3 "b"', "the chances add up to 5/6 and not to 1",
            "probabilities that add up to exactly 1",
            "write exact ones by hand: none is a decimal, and they add up to 5/6",
            'c "" 1 { "a" 1/3 "b" 1/3 "c" 1/6 } 0\n' + THIRDS),
    at_node("17 NotConstantSum", 't "" 2',
            "its payoffs add up to 5, those of the first leaf to 0; only games whose payoffs "
            "always add up to one number are taken",
            "payoffs that add up to 0, as at node 2; along the path to node 3 they are 2 and 3",
            "correct the payoffs of one of the two, those of nodes above them included",
            'p "" 1 1 { "a" "b" } 0\nt "" 1 { 1, -1 }\nt "" 2 { 2, 3 }\n', 3),
    at_node("17 NotConstantSum", 't "" 2',
            "its payoffs add up to 0.001, those of the first leaf to 0; only games whose payoffs "
            "always add up to one number are taken",
            "payoffs that add up to 0, as at node 2; along the path to node 3 they are 0.334 and -0.333",
            "the payoffs look rounded: write exact fractions, as 1/3 for 0.333",
            'p "" 1 1 { "a" "b" } 0\nt "" 0\nt "" 2 { .334, -.333 }\n', 3),
    ("refused 18 NotRecall node 5 earlier 2",
     PROLOGUE + 'p "" 1 1 { "l" "r" } 0\np "" 1 2 { "x" "y" } 0\nt "" 0\nt "" 0\n'
     'p "" 1 2 0\nt "" 0\nt "" 0\n', ":6:8",
     "node 5: player 1 can't tell this node from node 2, as both are in set 2, but did "
     'other things before: "r" at set 1 here, and "l" at set 1 there', "2 0", "what player 1 did before node 2",
     "give the two nodes sets of their own: only players who remember what they did are taken"),
    at_node("19 Scale", 'c "" 1 0',
            "the reach is 1/18446744073709551616, which is more than the program's whole numbers hold",
            f"numbers whose parts are at most {LIMIT} in lowest terms",
            "write probabilities and payoffs with smaller common denominators, or payoffs in a larger unit",
            'c "" 1 { "a" 1/4294967296 "b" 4294967295/4294967296 } 0\nc "" 1 0\nt "" 0\nt "" 0\nt "" 0\n', 3),
    at_node("19 Scale", 't "" 1',
            "the sum of both payoffs is 4611686018427387905, which is more than the program's whole "
            "numbers hold", f"numbers whose parts are at most {LIMIT} in lowest terms",
            "write probabilities and payoffs with smaller common denominators, or payoffs in a larger unit",
            't "" 1 { 4611686018427387904, 1 }\n'),
]
# The reach of node 3 is the first that passes the limit: the mark stands at the leaf below the second chance node.
GAMES[-2] = (*GAMES[-2][:2], ":4:1", *GAMES[-2][3:4], 't "" 0', *GAMES[-2][5:])

ANEW = "make it anew: bin/xg_solve solve GAME > NEW.xgcert, or tools/certify GAME PROFILE > NEW.xgcert"
OTHER_GAME = f"take the game file that the certificate was made of, or {ANEW}"
CUT = "fetch the file again: it was cut"
CERTS = [
    ("21_long.xgcert", "", "the certificate has more than 268,435,456 bytes", None, None,
     "evaluate less often: a greater --every has fewer lines trace"),
    ("22_first_word.xgcert", ":1:1", "\"XGCERTS\" can't stand here", "XGCERTS", "the word XGCERT", ANEW),
    ("22_space_at_the_end.xgcert", ":17:12", "a space can't stand here", " ", "a line feed", ANEW),
    ("22_v2_second_missing.xgcert", ":20:1", "\"end\" can't stand here", "end", "the word second", ANEW),
    ("23_choice_0.xgcert", ":12:11", '"0" has another form, or another range', "0", "the chosen action, 1 to 1,024",
     ANEW),
    ("23_plus.xgcert", ":11:9", '"+0" has another form, or another range', "+0", "the reply's total, -2^100 to 2^100",
     ANEW),
    ("23_v2_sum_over_one.xgcert", ":7:5", '"-1/1" has another form, or another range', "-1/1",
     "the sum, a whole number or a fraction in lowest terms with parts of at most 2^62", ANEW),
    ("24_version_3.xgcert", ":1:8", 'the version "3" is neither 1 nor 2', "3", "the version, 1 or 2", ANEW),
    ("24_carriage_return.xgcert", ":1:8", "a carriage return stands before the line feed", "1", "the version, 1 or 2",
     "tr -d '\\r' < CERT > PLAIN"),
    ("25_empty.xgcert", ":1:1", "the certificate is empty", "", "the word XGCERT", ANEW),
    ("25_cut_in_a_word.xgcert", ":3:4", "the certificate ends before its end", "", "the word sets", CUT),
    ("26_line_more.xgcert", ":9:1", "bytes stand behind the last line", "plan 1 1", "the end of the file",
     'take away what follows the line "end"'),
    ("27_line_4.xgcert", ":4:1", "the game file has sequences 3 3, and the certificate sequences 3 4", "sequences 3 4",
     None,
     OTHER_GAME),
    ("27_v2_line_6.xgcert", ":6:1", "the game file has mass 12, and the certificate mass 11", "mass 11", None,
     OTHER_GAME),
    ("28_root_of_plan_2.xgcert", ":25:1",
     "the root of player 2's plan is 2097152, and round 1 times the scale is 1048576",
     "plan 2 2097152", None, ANEW),
    ("29_player_2_all_actions.xgcert", ":12:1",
     "action 1 \"heads\" of player 2's set 1 \"guess\" is worth 0, below the value 1", "value 1 1 1", None, ANEW),
    ("29_player_1_all_actions.xgcert", ":16:1",
     "action 1 \"heads\" of player 1's set 1 \"hide\" is worth 0, over the value -1", "value 1 -1 1", None, ANEW),
    ("30_choice_past.xgcert", ":12:1", "player 2's set 1 \"guess\" has no action 3", "value 1 0 3", None, ANEW),
    ("30_value_below.xgcert", ":12:1", "action 1 \"heads\" of player 2's set 1 \"guess\" is worth 0, not the value -1",
     "value 1 -1 1", None, ANEW),
    ("31_lower_reply.xgcert", ":11:1", "the total of player 2's reply is 1, and its sets and leaves come to 0",
     "reply 2 1", None,
     ANEW),
    ("31_lower_bracket.xgcert", ":39:1",
     "the lower end is -1/4, and the total over the unit and the plan's root is -19/72",
     "bracket -1/4 1/4", None, ANEW),
    ("32_lower_falls.xgcert", ":9:1", "the bracket of this line is wider than that of the line before it", "trace ",
     None, ANEW),
    ("33_exchanged.xgcert", ":20:1", "the line second isn't the sum less HIGH and the sum less LOW, -4/3 -1/3",
     "second -1/3 -4/3", None,
     ANEW),
]

BROKEN = [
    ("mark.efg", b'\xef\xbb\xbfEFG 2 R "" { "A" "B" } t "" 0', 1, ":1:1: a byte order mark, ",
     "tail -c +4 GAME > PLAIN.efg takes it away"),
    ("wide.efg", 'EFG 2 R "" { "A" "B" } t "" 0'.encode("utf-16"), 1, ":1:1: the file is UTF-16, and not UTF-8",
     "iconv -f UTF-16 -t UTF-8 GAME > PLAIN.efg"),
    ("wide_low.efg", 'EFG 2 R "" { "A" "B" } t "" 0'.encode("utf-16-le"), 1, ": the file is UTF-16, and not UTF-8",
     "iconv -f UTF-16LE -t UTF-8 GAME > PLAIN.efg"),
    ("wide_high.efg", b"\xfe\xff" + 'EFG 2 R "" { "A" "B" } t "" 0'.encode("utf-16-be"), 1,
     ": the file is UTF-16, and not ",
     "iconv -f UTF-16 -t UTF-8 GAME > PLAIN.efg"),
    ("comma.efg", b'EFG 2 R "" { "A" "B" }\nc "" 1 { "a" 0,5 "b" 0,5 } 0 t "" 0 t "" 0\n', 1,
     ":2:15: the number 0,5 has a decimal comma (fault 2 Syntax at 37)", "write 0.5 with a point"),
    ("payoffs.efg", b'EFG 2 R "" { "A" "B" }\nt "" 1 { 2,50 -2,50 }\n', 1,
     ":2:11: node 1: the number 2,50 has a decimal comma",
     "write 2.50 with a point"),
    ("strategic.efg", b'NFG 1 R "" { "A" "B" } { 2 2 }\n', 1, ":1:1: this is a game in strategic form",
     "save the game in extensive form, as .efg"),
    ("turned.efg", b"XGCERT 2\nnodes 1 leaves 1\n", 1, ":1:1: this is a certificate, and no game file",
     "the game file comes first: GAME CERT"),
    ("packed.efg", b"\x1f\x8b\x08\x00\x00\x00", 1, ":1:1: the file is packed by gzip", "gunzip < GAME > PLAIN.efg"),
    ("page.efg", b"<!DOCTYPE html>\n<html>\n", 1, ":1:1: this is a page or a file of XML", None),
    ("quotes.efg", 'EFG 2 R “x” { "A" "B" } t "" 0'.encode(), 1, ":1:9: this “ is no quotation mark of a game file",
     'write " before and behind texts'),
    ("empty.efg", b"", 1, ":1:1: the file is empty (fault 3 UnexpectedEnd)",
     'a game file begins with EFG 2 R "TITLE" { "ONE" "TWO" }'),
    ("cut.efg", b'EFG 2 R "" { "A" "B" }\np "" 1 1 { "a" "b" } 0\nt "" 0\nt "" 1 { 1', 1,
     ":4:11: the file ends after 2 nodes, and the tree needs 1 more at least", MISSING),
    ("mark.egf", None, 3, "FOLDER/mark.egf: there is no such file; did you mean FOLDER/mark.efg? (read fault)", None),
    ("none/game.efg", None, 3, "there is no folder FOLDER/none (read fault)", None),
    ("folder.efg", None, 3, "FOLDER/folder.efg: this is a folder, and no file (read fault)", None),
]

HELP = "the program takes no word for help: README.md has its commands, docs/words.md exactly its words"
COMMANDS = "solve, check, upgrade, info, gen, drill, plus, batch"
CLOSE = "which says what is wrong with its words; docs/xg_close.md has them"
WRONG_CALLS = [
    ([], [f"no command; the first word is one of {COMMANDS}"]),
    (["help"], [f"no command help: {HELP}"]),
    (["--help"], [f"no command --help: {HELP}"]),
    (["solve", "a.efg", "--help"], [f"no option --help: {HELP}"]),
    (["sovle", "a.efg"], ["no command sovle; did you mean solve?"]),
    (["Solve", "a.efg"], ["no command Solve; did you mean solve?"]),
    (["a.efg"], [f"no command a.efg; the first word is one of {COMMANDS}"]),
    (["a.efg", "solve"], ["the command stands first, solve before a.efg"]),
    (["--rounds", "10", "solve", "a.efg"], ["the command stands first, solve before --rounds"]),
    (["solve"], ["solve takes FILE, and FILE is missing"]),
    (["check", "a.efg"], ["check takes FILE and CERT, and CERT is missing"]),
    (["solve", "a.efg", "b.efg"], ["solve takes FILE, and here is more: b.efg"]),
    (["solve", "a.efg", "--round", "10"], ["no option --round; did you mean --rounds?"]),
    (["solve", "a.efg", "-rounds", "10"], ["no option -rounds; did you mean --rounds?"]),
    (["solve", "a.efg", "--rounds", "100000"], ["--rounds takes 0 to 65,536, and 100000 is more"]),
    (["plus", "a.efg", "--rounds", "5000"], ["--rounds takes 0 to 2,048, and 5000 is more"]),
    (["plus", "a.efg", "--scale=16385"], ["--scale takes 1 to 16,384, and 16385 is more"]),
    (["solve", "a.efg", "--every", "0"], ["--every takes 1 to 65,536, and 0 is less"]),
    (["solve", "a.efg", "--rounds"], ["--rounds takes 0 to 65,536, and its number is missing"]),
    (["solve", "a.efg", "--rounds="], ["--rounds takes 0 to 65,536, and its number is missing"]),
    (["solve", "a.efg", "--rounds", "1e3"], ["--rounds takes 0 to 65,536, and 1e3 isn't digits alone"]),
    (["solve", "a.efg", "--rounds", "-5"], ["--rounds takes 0 to 65,536, and -5 isn't digits alone"]),
    (["solve", "a.efg", "--rounds", "5", "--rounds=5"], ["--rounds stands twice"]),
    (["batch", "a.efg", "--atomic", "1"], ["batch has no option --atomic"]),
    (["check", "a.efg", "c", "--rounds", "1"], ["check has no options, and --rounds is one of others"]),
    (["xg_close", "a.efg", "--width", "0"], [f"no command xg_close: it is a program of its own, {CLOSE}"]),
    (["solve", "a.efg", "--width", "0.01"], [f"no option --width: it is one of xg_close, {CLOSE}"]),
    (["solve", "a.efg", "--quiet"], [f"no option --quiet: it is one of xg_close, {CLOSE}"]),
    (["batch"], ["batch takes 1 to 16 files, and none is here"]),
    (["batch", *"abcdefghijklmnopq"], ["batch takes 1 to 16 files, and 17 are here"]),
    (["gen", "1"], ["gen takes 2 to 64, and 1 is less"]),
    (["drill", "three"], ["drill takes 2 to 64, and three isn't digits alone"]),
    (["info", "-a.efg"], ["-a.efg is taken for an option; a file whose name begins with - is written ./-a.efg"]),
    (["info", "-"], ["- is taken for an option; a file whose name begins with - is written ./-"]),
    (["solve", "a.efg", "--rounds", "70000", "--every=x"],
     ["--rounds takes 0 to 65,536, and 70000 is more", "--every takes 1 to 65,536, and x isn't digits alone"]),
]
RIGHT_CALLS = [
    ["solve", "none/a.efg"],
    ["solve", "--rounds", "0", "none/a.efg", "--every=65536", "--scale", "1", "--workers", "064", "--atomic=1"],
    ["plus", "none/a.efg", "--rounds=02048", "--scale=16384"],
    ["batch", "none/a.efg", "--workers", "1", "b"],
    ["batch", *["none/a.efg"] * 16],
    ["check", "none/a.efg", "none/b"],
    ["upgrade", "none/a.efg", "none/b"],
    ["info", ""],
    ["gen", "2"],
    ["gen", "0064"],
    ["drill", "2", "--rounds", "0"],
]
