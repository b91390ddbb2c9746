"""What is wrong in a game file, in words: the first fault of docs/game_file.md, where it stands and what mends it."""
import re
from fractions import Fraction

import chances
import efg
import sequence_form
from places import Told, either, this, token_at, visible

ORDER = "the entries are the tree in prefix order: a node, then the trees of its children from first to last"
# What a file that begins so is, and what mends it. GAME stands for its name.
BEGINNINGS = [
    (b"\xef\xbb\xbf", "a byte order mark, three bytes of another encoding's, stands before the first word",
     "tail -c +4 GAME > PLAIN.efg takes it away"),
    (b"\xff\xfe", "the file is UTF-16, and not UTF-8", "iconv -f UTF-16 -t UTF-8 GAME > PLAIN.efg"),
    (b"\xfe\xff", "the file is UTF-16, and not UTF-8", "iconv -f UTF-16 -t UTF-8 GAME > PLAIN.efg"),
    (b"E\0", "the file is UTF-16, and not UTF-8", "iconv -f UTF-16LE -t UTF-8 GAME > PLAIN.efg"),
    (b"\0E", "the file is UTF-16, and not UTF-8", "iconv -f UTF-16BE -t UTF-8 GAME > PLAIN.efg"),
    (b"NFG", "this is a game in strategic form, an .nfg file, and has no tree",
     "save the game in extensive form, as .efg"),
    (b"XGCERT", "this is a certificate, and no game file", "the game file comes first: GAME CERT"),
    (b"XGPLUS", "this is the text of plus, and no game file", "the game file comes first: GAME CERT"),
    (b"\x1f\x8b", "the file is packed by gzip", "gunzip < GAME > PLAIN.efg"),
    (b"PK\x03\x04", "the file is packed by zip", "unzip it"),
    (b"<", "this is a page or a file of XML, such as Gambit's workbooks (.gbt), and no .efg file",
     "save the game as .efg, or fetch the file itself"),
]
QUOTES = ("“", "”", "„", "«", "»", "‘", "’", "'")
FORMS_OF_LITERALS = "digits with a sign or without, as 10, 1/3, 0.5 or 5e-1"
LIMIT = "2^62, which is 4611686018427387904"


def first_fault(data):
    """What is wrong first, or None; and the game's form where nothing is."""
    try:
        return None, sequence_form.weigh(efg.read_game(data))
    except efg.Fault as fault:
        told = words_of(data, fault)
        return told, None


def words_of(data, fault):
    line = str(fault)
    number = int(line.split()[1])
    for beginning, said, mend in BEGINNINGS:
        if fault.game is None and data.startswith(beginning) and number in (2, 3):
            return Told(line, fault.at, said, "the first word EFG", mend)
    return WORDS[number](data, fault, line)


def too_long(data, fault, line):
    said = f"the file has more than {efg.MOST_BYTES:,} bytes"
    return Told(line, None, said, mend="leave out the names of nodes, and lists that are given again")


def syntax(data, fault, line):
    token, expected = token_at(data, fault.at), either(fault.wanted)
    said, mend = syntax_words(data, fault, token)
    return Told(line, fault.at, said, expected, mend)


def syntax_words(data, fault, token):
    at, wanted, shown = fault.at, fault.wanted, this(token)
    end = next((it for it in wanted if it.startswith('the "}"')), None)
    if token == b"," and data[at - 1 : at].isdigit() and data[at + 1 : at + 2].isdigit():
        return decimal_comma(data, at)
    if visible(token).startswith(QUOTES):
        shown = this(visible(token)[:1].encode())
        return f"{shown} is no quotation mark of a game file", 'write " before and behind texts'
    if token.startswith((b"#", b"//", b";", b"/*")):
        return f"{shown} begins no token", "a game file has no comments, but for the text behind the players' names"
    if efg.VERSION in wanted:
        return f"{shown} is another version of the format", "save the game in version 2 of the .efg format"
    if wanted[-1] == "the first word EFG":
        said = f"the file begins with {shown} and not with EFG"
        return said, "EFG is written in capitals, and all before it is taken away"
    if wanted[-1] == "the word R or D":
        return f"{shown} stands where R or D does", "write EFG 2 R and then the title in quotation marks"
    if wanted[-1] == efg.PROBABILITY:
        return f"the probability of the action before {shown} is missing", "write it behind the action's name, as 1/2"
    if token == b"," and efg.ACTION in wanted:
        return "a comma stands between two actions", "take it away: white space alone stands between actions"
    if efg.ACTION in wanted and re.match(rb"[-+]?[0-9]*[./][0-9]", token):
        return f"{shown} stands behind an action of a player", "take it away: only actions of chance have probabilities"
    if end and token not in (b"}", b","):
        return f'a "}}" is missing before {shown}', f'write "}}" before {shown}'
    if efg.ENTRY in wanted:
        return f"{shown} begins no node", f"a node begins with a small c, p or t, and {ORDER}"
    if token[:1].isalnum() and is_text_wanted(wanted):
        return f"{shown} has no quotation marks", f'write "{visible(token)}" where it is {wanted[-1]}'
    return f"{shown} can't stand here", ""


def is_text_wanted(wanted):
    return any(it.endswith(("name", "title", "comment")) for it in wanted)


def decimal_comma(data, at):
    before, behind = re.search(rb"[-+]?[0-9]*$", data[:at])[0], re.match(rb"[0-9]*", data[at + 1 :])[0]
    told = before.decode(), behind.decode()
    return "the number {},{} has a decimal comma".format(*told), "write {}.{} with a point".format(*told)


def ended(data, fault, line):
    if fault.wanted[0].startswith("the quotation mark"):
        said = "the text that begins here isn't closed"
        return Told(line, fault.at, said, fault.wanted[0], 'write " behind the text')
    expected = either(fault.wanted)
    if not data.strip():
        return Told(line, fault.at, "the file is empty", expected,
                    'a game file begins with EFG 2 R "TITLE" { "ONE" "TWO" }')
    if fault.game is None:
        said = "the file ends before the first node"
    else:
        read = len(fault.game.nodes)
        said = f"the file ends after {counted(read, 'node')}, and the tree needs {fault.missing} more at least"
    return Told(line, fault.at, said, expected,
                f"write what is missing: {ORDER}; or fetch the file again, if it was cut")


def counted(number, what):
    return f"{number:,} {what}{'' if number == 1 else 's'}"


def trailing(data, fault, line):
    said = f"the tree is complete before {this(token_at(data, fault.at))}"
    mend = f"take away what follows, or give a set above one action more: {ORDER}"
    return Told(line, fault.at, said, "the end of the file", mend)


def number_fault(data, fault, line):
    token, kind, what = token_at(data, fault.at), line.split()[-1], fault.wanted[-1]
    is_whole = what not in (efg.PROBABILITY, efg.PAYOFF)
    if kind == "ZeroDenominator":
        return Told(line, fault.at, f"{this(token)} divides by 0", f"{what}, {FORMS_OF_LITERALS}",
                    "write another denominator")
    if kind == "Range":
        return range_fault(fault, line, token, what, is_whole)
    expected = f"{what}, digits alone" if is_whole else f"{what}, {FORMS_OF_LITERALS}"
    said = f"{this(token)} isn't a number of the form that {what} has"
    return Told(line, fault.at, said, expected, form_mend(token, is_whole))


def range_fault(fault, line, token, what, is_whole):
    if what == efg.SET_NUMBER and not token.strip(b"0"):
        return Told(line, fault.at, "a set's number isn't 0", f"{what}, from 1 on", "number the sets from 1 on")
    if is_whole:
        return Told(line, fault.at, f"{this(token)} is too large for {what}", f"{what}, at most {LIMIT}",
                    "write a smaller number")
    said = f"{this(token)} is too large, or has too many digits"
    expected = f"{what}, a fraction whose parts are at most {LIMIT} in lowest terms"
    return Told(line, fault.at, said, expected, "write a simpler fraction, or payoffs in a larger unit")


def form_mend(token, is_whole):
    if is_whole:
        return "write digits alone, without a sign, a point or a fraction"
    if token.endswith(b"%"):
        return f"write {visible(token[:-1])}/100 for {visible(token)}"
    if re.fullmatch(rb"[-+]?[0-9.]+[eE][-+]?[0-9]{3,}", token):
        return "an exponent has one or two digits"
    if re.fullmatch(rb"[-+]?[0-9.]+/[-+]?[0-9.]+", token):
        return "both parts of a fraction are digits alone: 1/2, and not 1.0/2 or 1/-2"
    return "write it as digits, with a point or as a fraction"


def players(data, fault, line):
    count = int(line.split()[-1])
    said = f"the game has {counted(count, 'player')}, and only games of two are solved"
    return Told(line, fault.at, said, "two names in braces", "name two players; chance is none")


class Entry:
    """A node's entry in the file: its tokens, and the places of its numbers and of its lists."""

    def __init__(self, data, number):
        reader = Recorder(data)
        efg.read_prologue(reader)
        for _ in range(number - 1):
            efg.read_short_entry(reader) or efg.read_told(reader)
        reader.next_byte()
        self.start, reader.tokens = reader.at, []
        try:
            efg.read_told(reader)
        except efg.Fault:
            pass
        self.tokens = reader.tokens
        depth, self.numbers, self.lists = 0, [], []
        for kind, start in reader.tokens:
            depth += (kind == "{") - (kind == "}")
            self.lists += [start] if kind == "{" else []
            self.numbers += [start] if kind == "number" and depth == 0 else []

    def number(self, place):
        """The place of a number outside lists, or of the entry where it has none there."""
        return self.numbers[place] if -len(self.numbers) <= place < len(self.numbers) else self.start


class Recorder(efg.Reader):
    """Keeps the kind and the place of each token."""

    def __init__(self, data):
        super().__init__(data)
        self.tokens = []

    def take(self, kind, what):
        start, end = super().take(kind, what)
        self.tokens.append((kind, start))
        return start, end


def node_of(line):
    return int(line.split()[4])


def player_number(data, fault, line):
    number = node_of(line)
    at = Entry(data, number).number(0)
    said = f"node {number}: {this(token_at(data, at))} is the number of no player"
    return Told(line, at, said, "the player's number, 1 or 2", "write 1 or 2; a move of chance begins with c")


def set_undefined(data, fault, line):
    number = node_of(line)
    at, told = told_set(data, number)
    said = f"node {number}: {told} has no list of actions, and this is its first mention"
    mend = "write its actions in braces behind its number here; later mentions may leave them out"
    return Told(line, at, said, "the set's actions", mend)


def told_set(data, number):
    """The place of a node's set number, and the set with its number in words."""
    entry = Entry(data, number)
    is_chance = data[entry.start : entry.start + 1] == b"c"
    at = entry.number(0 if is_chance else 1)
    of = "chance" if is_chance else f"player {visible(token_at(data, entry.number(0)))}"
    return at, f"set {visible(token_at(data, at))} of {of}"


def set_mismatch(data, fault, line):
    number = node_of(line)
    at, told = told_set(data, number)
    said = f"node {number}: the name or the list of {told} isn't that of its first mention"
    first, kept = first_of_set(data, fault.game, number)
    return Told(line, at, said, f"what node {first} says: {kept}",
                f"write the same, leave it out, or take another set's number")


def first_of_set(data, game, number):
    entry = Entry(data, number)
    is_chance = data[entry.start : entry.start + 1] == b"c"
    player = 0 if is_chance else int(token_at(data, entry.number(0)))
    set_ = game.sets[player][int(token_at(data, entry.number(0 if is_chance else 1)))]
    actions = [f'"{efg.shown(it)}"' for it in set_.actions]
    if is_chance:
        actions = [f"{name} {chance}" for name, chance in zip(actions, set_.chances)]
    name = "" if set_.name is None else f'"{efg.shown(set_.name)}" '
    return set_.first, f"{name}{{ {' '.join(actions)} }}"


def outcome_undefined(data, fault, line):
    number = node_of(line)
    at = Entry(data, number).number(-1)
    said = f"node {number}: outcome {visible(token_at(data, at))} has no payoffs, and this is its first mention"
    mend = "write its two payoffs in braces behind its number here; outcome 0 alone needs none"
    return Told(line, at, said, "the outcome's payoffs", mend)


def outcome_mismatch(data, fault, line):
    number = node_of(line)
    at = Entry(data, number).number(-1)
    outcome = int(token_at(data, at))
    if outcome == 0:
        said, expected = f"node {number}: outcome 0 has payoffs other than 0 and 0", "no payoffs, or { 0, 0 }"
        return Told(line, at, said, expected, "give the outcome a number from 1 on")
    kept = fault.game.outcomes[outcome]
    name = "" if kept.name is None else f'"{efg.shown(kept.name)}" '
    said = f"node {number}: the name or the payoffs of outcome {outcome} aren't those of its first mention"
    expected = f"what that says: {name}{{ {', '.join(map(str, kept.payoffs))} }}"
    return Told(line, at, said, expected, "write the same, leave them out, or take another outcome's number")


def payoff_count(data, fault, line):
    number = node_of(line)
    entry = Entry(data, number)
    at = entry.lists[-1]
    inside = data[at + 1 : data.find(b"}", at)]
    comma = re.search(rb"[0-9],[0-9]", inside)
    if comma:
        said, mend = decimal_comma(data, at + 1 + comma.start() + 1)
        return Told(line, at + 1 + comma.start() + 1, f"node {number}: {said}", "two payoffs", mend)
    count = len([it for it in entry.tokens if it[0] == "number" and it[1] > at])
    said = f"node {number}: the outcome has {counted(count, 'payoff')}, and there are two players"
    return Told(line, at, said, "two payoffs", "write what player one gets and what player two gets")


def too_many_nodes(data, fault, line):
    said = f"the tree has more than {efg.MOST_NODES:,} nodes"
    return Told(line, Entry(data, efg.MOST_NODES + 1).start, said, mend="make the game smaller")


def action_count(data, fault, line):
    number = node_of(line)
    entry = Entry(data, number)
    at = entry.lists[0]
    is_empty = not data[at + 1 : data.find(b"}", at)].strip()
    said = f"node {number}: the set has " + ("no action" if is_empty else f"more than {efg.MOST_ACTIONS:,} actions")
    mend = "write its actions, or make the node a terminal one" if is_empty else "split the choice over several sets"
    return Told(line, at, said, f"1 to {efg.MOST_ACTIONS:,} actions", mend)


def chance_set(data, line):
    """The game and its chance set whose first node the line names."""
    game = efg.read_game(data)
    return game, next(it for it in game.sets[0].values() if it.first == node_of(line))


def chance_negative(data, fault, line):
    _, set_ = chance_set(data, line)
    place = next(k for k, it in enumerate(set_.chances) if it < 0)
    at = set_.spans[0][place][0]
    said = f"node {set_.first}: the probability {visible(token_at(data, at))} is below 0"
    return Told(line, at, said, "a probability from 0 to 1", "write what was meant; all of a set add up to 1")


def chance_sum(data, fault, line):
    _, set_ = chance_set(data, line)
    at = set_.spans[0][0][0]
    said = f"node {set_.first}: the chances add up to {decimal(sum(set_.chances))} and not to 1"
    digits = [chances.fewest_digits([data[slice(*it[k])] for it in set_.spans]) for k in range(len(set_.chances))]
    try:
        exact = chances.mended(set_.chances, digits)
    except chances.Unmendable as why:
        return Told(line, at, said, "probabilities that add up to exactly 1", f"write exact ones by hand: {why}")
    mend = f"tools/exact_chances GAME > EXACT.efg writes {' '.join(map(str, exact))}"
    return Told(line, at, said, "probabilities that add up to exactly 1", mend)


def decimal(value):
    """A number as a decimal where that has few digits, and else as a fraction."""
    digits = next((k for k in range(16) if value.denominator > 0 and 10**k % value.denominator == 0), None)
    if digits is None:
        return f"{value}, about {float(value):.9g}," if value.denominator > 1000 else str(value)
    whole, rest = divmod(abs(value.numerator) * (10**digits // value.denominator), 10**digits)
    return ("-" if value < 0 else "") + str(whole) + (f".{rest:0{digits}}" if digits else "")


def not_constant_sum(data, fault, line):
    number, first, sums = node_of(line), None, {}
    for k, place in enumerate(sequence_form.places(sequence_form.Form(efg.read_game(data))), 1):
        if place.node.set is None and (first is None or k == number):
            first = first or k
            sums[k] = [Fraction(*it) for it in place.pays]
    one, other = sum(sums[number]), sum(sums[first])
    said = f"node {number}: its payoffs add up to {decimal(one)}, those of the first leaf to {decimal(other)}"
    said += "; only games whose payoffs always add up to one number are taken"
    path = " and ".join(map(decimal, sums[number]))
    expected = f"payoffs that add up to {decimal(other)}, as at node {first};"
    expected += f" along the path to node {number} they are {path}"
    mend = "correct the payoffs of one of the two, those of nodes above them included"
    if abs(one - other) < Fraction(1, 100):
        mend = "the payoffs look rounded: write exact fractions, as 1/3 for 0.333"
    return Told(line, Entry(data, number).start, said, expected, mend)


def not_recall(data, fault, line):
    number, earlier = int(line.split()[4]), int(line.split()[6])
    game = efg.read_game(data)
    set_ = game.nodes[number - 1].set
    here, there = (choices(game, it, set_.player) for it in (number, earlier))
    who = f"player {set_.player}"
    said = f"node {number}: {who} can't tell this node from node {earlier}, as both are in set {set_.number}, but did"
    said += f" other things before: {here} here, and {there} there"
    mend = "give the two nodes sets of their own: only players who remember what they did are taken"
    return Told(line, told_set(data, number)[0], said, f"what {who} did before node {earlier}", mend)


def choices(game, number, player):
    """What a player chose on the way to a node, in words."""
    above = {child: place for place, node in enumerate(game.nodes) for child in node.children}
    found, place = [], number - 1
    while place in above:
        node = game.nodes[above[place]]
        if node.set.player == player:
            action = efg.shown(node.set.actions[node.children.index(place)])
            found.append(f'"{action}" at set {node.set.number}')
        place = above[place]
    return ", ".join(reversed(found)) or "nothing"


def scale(data, fault, line):
    number = node_of(line)
    said = f"node {number}: {fault.why}, which is more than the program's whole numbers hold"
    expected = f"numbers whose parts are at most {LIMIT} in lowest terms"
    mend = "write probabilities and payoffs with smaller common denominators, or payoffs in a larger unit"
    return Told(line, Entry(data, number).start, said, expected, mend)


WORDS = {
    1: too_long,
    2: syntax,
    3: ended,
    4: trailing,
    5: number_fault,
    6: players,
    7: player_number,
    8: set_undefined,
    9: set_mismatch,
    10: outcome_undefined,
    11: outcome_mismatch,
    12: payoff_count,
    13: too_many_nodes,
    14: action_count,
    15: chance_negative,
    16: chance_sum,
    17: not_constant_sum,
    18: not_recall,
    19: scale,
}
