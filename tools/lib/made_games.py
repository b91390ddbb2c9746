"""Games that papers report numbers on, written as game files: what `make_game` prints."""

MOST_NODES = 1_048_576


class TooLarge(Exception):
    """The game has more nodes than a file may have."""


class Writer:
    """Writes nodes in the order of the file. Sets and outcomes get their numbers as they first come, and are described
    there alone."""

    def __init__(self, title, comment):
        self.lines, self.nodes = [f'EFG 2 R "{title}" {{ "First" "Second" }}', f'"{comment}"'], 0
        self.sets, self.counts, self.outcomes = {}, {"c": 0, "p1": 0, "p2": 0}, {}

    def put(self, line):
        self.nodes += 1
        if self.nodes > MOST_NODES:
            raise TooLarge
        self.lines.append(line)

    def mention(self, kind, name, actions):
        """The number of a set, with its description where it is new."""
        if (kind, name) in self.sets:
            return self.sets[kind, name]
        self.counts[kind] += 1
        self.sets[kind, name] = number = self.counts[kind]
        return f'{number} "{name}" {{ {" ".join(actions)} }}'

    def chance(self, name, actions):
        """Chance takes one of these, each as likely."""
        told = [f'"{it}" 1/{len(actions)}' if len(actions) > 1 else f'"{it}" 1' for it in actions]
        self.put(f'c "" {self.mention("c", name, told)} 0')

    def move(self, player, name, actions):
        told = [f'"{it}"' for it in actions]
        self.put(f'p "" {player} {self.mention(f"p{player}", name, told)} 0')

    def leaf(self, payoff):
        if payoff in self.outcomes:
            self.put(f't "" {self.outcomes[payoff]}')
            return
        self.outcomes[payoff] = number = len(self.outcomes) + 1
        self.put(f't "" {number} "First gets {payoff}" {{ {payoff}, {-payoff} }}')

    def text(self):
        return "\n".join(self.lines) + "\n"


class Leduc:
    """Two cards of each rank, a card each and one that is laid open, and a round of betting before and after that."""

    NAME, LEAST, USUAL, MOST = "leduc", 2, 3, 13
    BETS, MOST_BETS = (2, 4), 2

    def __init__(self, ranks):
        what = "Two cards of each rank. An ante of 1, bets of 2 and then 4, a bet and a raise in each round."
        self.writer = Writer(f"Leduc poker of {ranks} ranks", what)
        self.names = "A23456789TJQK"[-ranks:]
        self.deck = [(rank, suit) for rank in range(ranks) for suit in "sh"]
        self.deal((), (), (1, 1))

    def shown(self, cards):
        return " ".join(self.names[rank] + suit for rank, suit in cards)

    def deal(self, cards, said, put_in):
        """Chance deals the next card, to player one, to player two or open."""
        left = [it for it in self.deck if it not in cards]
        name = ("deals First a card", "deals Second a card", "lays a card open")[len(cards)]
        beside = f" beside {self.shown(cards)}" if cards else ""
        self.writer.chance(name + beside, [self.shown([it]) for it in left])
        for card in left:
            if cards:
                self.bet((*cards, card), (*said, ""), 0, put_in, 0)
            else:
                self.deal((card,), said, put_in)

    def bet(self, cards, said, mover, put_in, bets):
        """A player's turn; `said` has what was said in each round."""
        is_facing = put_in[mover] < put_in[1 - mover]
        actions = ["fold", "call"] if is_facing else ["check"]
        if bets < self.MOST_BETS:
            actions.append("raise" if is_facing else "bet")
        seen = self.names[cards[mover][0]]
        if len(cards) == 3:
            seen += f" with {self.names[cards[2][0]]} open"
        self.writer.move(mover + 1, f"{seen}: {' / '.join(said)}".rstrip(": "), actions)
        for action in actions:
            self.act(cards, (*said[:-1], f"{said[-1]} {action}".lstrip()), mover, put_in, bets, action)

    def act(self, cards, said, mover, put_in, bets, action):
        other = 1 - mover
        if action == "fold":
            self.writer.leaf(put_in[1] if mover else -put_in[0])
        elif action in ("bet", "raise"):
            more = put_in[other] + self.BETS[len(cards) - 2]
            self.bet(cards, said, other, (put_in[0], more) if mover else (more, put_in[1]), bets + 1)
        elif said[-1] == "check":
            self.bet(cards, said, other, put_in, bets)
        elif len(cards) == 2:
            self.deal(cards, said, (put_in[other], put_in[other]))
        else:
            self.writer.leaf(put_in[other] * self.winner(cards))

    def winner(self, cards):
        """1 where player one wins, -1 where player two does, 0 where they share."""
        one, two, laid_open = (rank for rank, _ in cards)
        one, two = (one == laid_open, one), (two == laid_open, two)
        return (one > two) - (one < two)


class LiarsDice:
    """One die each; bids rise until one of them is doubted. The highest face counts as each other one, too."""

    NAME, LEAST, USUAL, MOST = "liars_dice", 2, 6, 20

    def __init__(self, sides):
        what = f"One die each. The face {sides} also counts as each other one. Whose word fails pays 1."
        self.writer = Writer(f"Liar's dice of {sides} sides", what)
        self.sides = range(1, sides + 1)
        self.bids = [(count, face) for count in (1, 2) for face in self.sides]
        self.writer.chance("First rolls", list(self.sides))
        for one in self.sides:
            self.writer.chance(f"Second rolls beside {one}", list(self.sides))
            for two in self.sides:
                self.bid((one, two), (), 0)

    def bid(self, dice, made, mover):
        """A player's turn; `made` has the places of the bids up to now."""
        higher = range(made[-1] + 1 if made else 0, len(self.bids))
        doubt = ["doubt"] if made else []
        name = f"has {dice[mover]}: {' '.join(map(self.shown, made))}".rstrip(": ")
        self.writer.move(mover + 1, name, doubt + [self.shown(it) for it in higher])
        if made:
            is_true = self.holds(dice, made[-1])
            self.writer.leaf(-1 if is_true == (mover == 0) else 1)
        for place in higher:
            self.bid(dice, (*made, place), 1 - mover)

    def shown(self, place):
        return "{}x{}".format(*self.bids[place])

    def holds(self, dice, place):
        count, face = self.bids[place]
        return sum(it in (face, len(self.sides)) for it in dice) >= count


class Goofspiel:
    """Each player lays a card for each prize, and is told who won it. The last cards are laid without a choice."""

    NAME, LEAST, USUAL, MOST = "goofspiel", 1, 4, 13

    def __init__(self, cards):
        what = "Prizes fall from the highest card to the lowest. Who won is told, and not with which card."
        self.writer = Writer(f"Goofspiel of {cards} cards", what)
        hand = tuple(range(1, cards + 1))
        self.lay((hand, hand), ((), ()), 0)

    def lay(self, hands, seen, lead):
        """Both lay a card; `seen` has what each player knows, `lead` what player one's prizes are ahead."""
        prize = len(hands[0])
        if prize == 1:
            self.end(lead + prize * self.winner(hands[0][0], hands[1][0]))
            return
        self.move(1, hands, seen)
        for one in hands[0]:
            self.move(2, hands, seen)
            for two in hands[1]:
                winner = self.winner(one, two)
                told = ("lost", "tied", "won")[winner + 1], ("won", "tied", "lost")[winner + 1]
                after = tuple((*own, f"{card} {it}") for own, card, it in zip(seen, (one, two), told))
                left = tuple(tuple(it for it in hand if it != card) for hand, card in zip(hands, (one, two)))
                self.lay(left, after, lead + prize * winner)

    def move(self, player, hands, seen):
        name = f"prize {len(hands[0])}: {', '.join(seen[player - 1])}".rstrip(": ")
        self.writer.move(player, name, hands[player - 1])

    def winner(self, one, two):
        return (one > two) - (one < two)

    def end(self, lead):
        self.writer.leaf(self.winner(lead, 0))


GAMES = {game.NAME: game for game in (Leduc, LiarsDice, Goofspiel)}
