"""Wrong copies of `tools/check_certificate`, each by one replacement, which docs/vectors/ must find."""

# What a wrong copy of the second checker has in place of a part of it.
WRONG_COPIES = {
    "a worth compared at one action alone": ("in range(1, count + 1):", "in (choice,):"),
    "a worth compared at the first action alone": ("in range(1, count + 1):", "in (1,):"),
    "the trace not read": ("    test_trace(certificate.trace, 8 if certificate.version == 1 else 9)\n", ""),
    "the trace's lower ends not read": ("next_low * round_a < low * next_a or ", ""),
    "the trace's upper ends not read": (" or next_high * round_b > high * next_b", ""),
    "totals compared without their rounds": (
        "next_low * round_a < low * next_a or next_high * round_b > high * next_b",
        "next_low < low or next_high > high",
    ),
    "30 before 29": (
        "        value, choice = line\n",
        "        value, choice = tight(line, count, worths[first:], player, place)\n",
    ),
    "all of 29 before 30": (
        "        if choice > count or worths[first + choice - 1] != value:\n"
        '            raise Refused(30, "ReplyNotTight player", player, "set", place)\n',
        "",
    ),
    "values of sets below left out": ("        worths[before] += value\n", "        pass\n"),
    "player one tested as player two": ("sign = 1 if player == 1 else -1", "sign = -1"),
    "the root not tested": ("if plan.root != root:", "if False:"),
    "sums not tested": ("if sum(line) != numbers[before]:", "if False:"),
    "sums before counts": (
        "if len(line) != count:",
        "if len(line) != count or sum(line) != plan.numbers()[game.before[player][place - 1]]:",
    ),
    "the total not tested": ("reply.total != worth or ", ""),
    "the trace's last total not read": ("reply.total != traced or ", ""),
    "the bracket not tested": (" or printed != Fraction(reply.total, scale)", ""),
    "the bracket over the other root": ("game.unit * one.root", "game.unit * two.root"),
    "line 5 not compared": ("(game.unit, game.sum),", "certificate.head[3],"),
    "the unit not compared": ("(game.unit, game.sum),", "(certificate.head[3][0], game.sum),"),
    "the sum not compared": ("(game.unit, game.sum),", "(game.unit, certificate.head[3][1]),"),
    "the sum compared where it is written": (
        "(game.unit, game.sum),",
        "(game.unit, certificate.head[3][1] and game.sum),",
    ),
    "the sum compared where it isn't 0": ("(game.unit, game.sum),", "(game.unit, game.sum or certificate.head[3][1]),"),
    "the sum compared in size": (
        "(game.unit, game.sum),",
        "(game.unit, abs(game.sum) if certificate.head[3][1] > 0 else -abs(game.sum)),",
    ),
    "the sum compared behind the mass": (
        "    payoffs = [(game.unit, game.sum), game.mass] if certificate.version == 1 else",
        "    if certificate.version == 1:\n        certificate.head.append(certificate.head[3][1])\n"
        "    payoffs = [(game.unit, certificate.head[3][1]), game.mass, game.sum] if certificate.version == 1 else",
    ),
    "the sum compared without rounds alone": (
        "(game.unit, game.sum),",
        "(game.unit, certificate.head[3][1] if certificate.rounds else game.sum),",
    ),
    "the sum compared with rounds alone": (
        "(game.unit, game.sum),",
        "(game.unit, game.sum if certificate.rounds else certificate.head[3][1]),",
    ),
    "another sum of a leaf taken": ("if one + two != self.sum:", "if False:"),
    "the sum of a game looked for at its last leaf": ("if self.sum is None:", "if True:"),
    "the sum's denominator left out of the unit": ("            self.unit = self.sum.denominator\n", ""),
    "the sum 0 taken": (" or top == 0 and not may_be_zero", ""),
    "no sum read": ('fields.number(1, LIMIT, b" ", b"\\n")', 'fields.number(1, LIMIT, b"\\n")'),
    "any word in front of the sum": (
        '        fields.word(b"sum", b" ")\n        total',
        '        fields.field(), fields.separator([b" "])\n        total',
    ),
    "sums up to 2^100": ('fraction(LIMIT, b"\\n", may_be', 'fraction(MOST_TOTAL, b"\\n", may_be'),
    "sums below 2^62": ('fraction(LIMIT, b"\\n", may_be', 'fraction(LIMIT - 1, b"\\n", may_be'),
    "the mass not compared": ("game.sum), game.mass]", "game.sum), certificate.head[4]]"),
    "the certificate read before the game": (
        "verdict(Game(game_data), Certificate(certificate_data))",
        "verdict(*reversed((Certificate(certificate_data), Game(game_data))))",
    ),
    "what follows the end not seen": ("if fields.at < len(data):", "if False:"),
    "leading zeros taken": ('FORM_OF_WHOLE = re.compile(rb"0|[1-9][0-9]*")', 'FORM_OF_WHOLE = re.compile(rb"[0-9]+")'),
    "fractions not in lowest terms taken": ("is_lowest = math.gcd(top, bottom) == 1 and", "is_lowest ="),
    "a round 0 in the trace": ("low_round, low = fields.whole(1, last,", "low_round, low = fields.whole(0, last,"),
    "the cut told after the word": ("if end == len(self.data):", "if start == end == len(self.data):"),
}
# What version 2 alone has, and the versions.
READ_VERSION = 'if version not in (b"1", b"2"):'
READ_UNIT = 'unit = fields.whole(1, LIMIT, b"\\n")'
READ_MASS = 'fields.word(b"mass", b" ")\n    mass = fields.whole(0, LIMIT, b"\\n")\n    fields.word(b"sum", b" ")\n    '
READ_SUM = 'return unit, mass, fields.fraction(LIMIT, b"\\n")'
SUM_FIRST = (
    'fields.word(b"sum", b" ")\n    total = fields.fraction(LIMIT, b"\\n")\n    fields.word(b"mass", b" ")\n'
    '    return unit, fields.whole(0, LIMIT, b"\\n"), total'
)
READ_SECOND = "self.second = fields.fractions(MOST_TOTAL)"
HAS_SECOND = "        if self.version == 2:\n"
IS_THERE = 'fields.data[fields.at :].startswith(b"second ")'
READ_END = '        fields.word(b"end", b"\\n")\n'
WRONG_COPIES |= {
    "version 2 not read": (READ_VERSION, 'if version != b"1":'),
    "version 1 not read": (READ_VERSION, 'if version != b"2":'),
    "the version read as a number": (READ_VERSION, 'if version.lstrip(b"0") not in (b"1", b"2"):'),
    "version 3 read as 2": (READ_VERSION, 'if version not in (b"1", b"2", b"3"):'),
    "another version told as a number": ('Refused(24, "CertVersion")', 'Refused(23, "CertNumber at", 7)'),
    "another version told as a word": ('Refused(24, "CertVersion")', 'Refused(22, "CertSyntax at", 7)'),
    "a space behind the unit": (READ_UNIT, 'unit = fields.number(1, LIMIT, b" ", b"\\n")[0]'),
    "the sum in front of the mass": (READ_MASS + READ_SUM, SUM_FIRST),
    "the sum 0 not taken": (READ_SUM, READ_SUM[:-1] + ", may_be_zero=False)"),
    "sums of version 2 up to 2^100": (READ_SUM, READ_SUM.replace("LIMIT", "MOST_TOTAL")),
    "sums of version 2 below 2^62": (READ_SUM, READ_SUM.replace("LIMIT", "LIMIT - 1")),
    "the second line's numbers up to 2^62": (READ_SECOND, READ_SECOND.replace("MOST_TOTAL", "LIMIT")),
    "the second line's numbers below 2^100": (READ_SECOND, READ_SECOND.replace("MOST_TOTAL", "MOST_TOTAL - 1")),
    "the second line's numbers past 2^100": (READ_SECOND, READ_SECOND.replace("MOST_TOTAL", "2 * MOST_TOTAL")),
    "no second line needed": (HAS_SECOND, f"        if self.version == 2 and {IS_THERE}:\n"),
    "a second line in version 1": (HAS_SECOND, f"        if self.version == 2 or {IS_THERE}:\n"),
    "a second line without rounds": (
        READ_END,
        f'        if self.version == 2 and {IS_THERE}:\n            fields.word(b"second", b" ")\n'
        f"            fields.fractions(MOST_TOTAL)\n{READ_END}",
    ),
    "the trace's lines counted as in version 1": ("8 if certificate.version == 1 else 9", "8"),
    "the trace's lines counted as in version 2": ("8 if certificate.version == 1 else 9", "9"),
}
# What the lines 5 to 7 of version 2 are compared with.
PAYOFFS = "[game.unit, game.mass, game.sum]"
OTHER_PAYOFFS = {
    "the unit not compared": "[certificate.head[3], game.mass, game.sum]",
    "the mass not compared": "[game.unit, certificate.head[4], game.sum]",
    "the sum not compared": "[game.unit, game.mass, certificate.head[5]]",
    "the sum compared where it isn't 0": "[game.unit, game.mass, game.sum or certificate.head[5]]",
    "the sum compared without rounds alone": (
        "[game.unit, game.mass, certificate.head[5] if certificate.rounds else game.sum]"
    ),
    "the sum compared with rounds alone": (
        "[game.unit, game.mass, game.sum if certificate.rounds else certificate.head[5]]"
    ),
    "the sum compared in size": (
        "[game.unit, game.mass, abs(game.sum) if certificate.head[5] > 0 else -abs(game.sum)]"
    ),
    "the sum compared in front of the mass": (
        "[game.unit, game.sum, game.mass]\n"
        "    if certificate.version == 2:\n        certificate.head[4:] = certificate.head[:3:-1]"
    ),
    "the sum compared with the unit": (
        "[(game.unit, game.sum), game.mass]\n"
        "    if certificate.version == 2:\n        unit, mass, total = certificate.head[3:]\n"
        "        certificate.head[3:] = [(unit, total), mass]"
    ),
}
WRONG_COPIES |= {f"version 2: {what}": (PAYOFFS, other) for what, other in OTHER_PAYOFFS.items()}
# Where the second line is refused.
ENDS = "game.sum - certificate.high, game.sum - certificate.low"
SECOND = f"certificate.second != ({ENDS})"
OTHER_SECONDS = {
    "not at all": "False",
    "by its first number alone": "certificate.second[0] != game.sum - certificate.high",
    "by its second number alone": "certificate.second[1] != game.sum - certificate.low",
    "in the other order": f"certificate.second[::-1] != ({ENDS})",
    "in any order": f"sorted(certificate.second) != [{ENDS}]",
    "without the sum": "certificate.second != (-certificate.high, -certificate.low)",
    "with the sum added": "certificate.second != (game.sum + certificate.high, game.sum + certificate.low)",
    "as the bracket again": "certificate.second != (certificate.low, certificate.high)",
    "in size": f"[*map(abs, certificate.second)] != [*map(abs, ({ENDS}))]",
    "as wide at most": f"certificate.second[0] < ({ENDS})[0] or certificate.second[1] > ({ENDS})[1]",
    "as wide at least": f"certificate.second[0] > ({ENDS})[0] or certificate.second[1] < ({ENDS})[1]",
    "by its width": "certificate.second[1] - certificate.second[0] != certificate.high - certificate.low",
}
WRONG_COPIES |= {f"the second line tested {what}": (SECOND, other) for what, other in OTHER_SECONDS.items()}
# In front of which tests the second line may not be tested.
SECOND_FIRST = "    if certificate.version == 2 and certificate.rounds:\n        test_second(game, certificate)\n"
LATER = {
    "27": "    test_head(game, certificate)\n",
    "28": "    test_plan(game, 1, one, round_a * certificate.scale)\n",
    "29": "    worth = test_reply(game, 2, one, reply_two)\n",
    "30": "    worth = test_reply(game, 1, two, reply_one)\n",
    "31 of the lower end": '    test_end("lower", ',
    "31 of the upper end": '    test_end("upper", ',
    "32": "    test_trace(certificate.trace, ",
}
WRONG_COPIES |= {f"33 before {what}": (line, SECOND_FIRST + line) for what, line in LATER.items()}
# What one of them calls.
TIGHT = '''

def tight(line, count, worths, player, place):
    if line[1] > count or worths[line[1] - 1] != line[0]:
        raise Refused(30, "ReplyNotTight player", player, "set", place)
    return line
'''
