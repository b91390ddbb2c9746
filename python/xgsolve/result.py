"""What `solve` and `exploitability` give: plans, the bracket that they leave, and what the program proves of it."""
import html
from collections.abc import Iterator, Mapping
from decimal import Decimal
from fractions import Fraction
from typing import Any, NamedTuple, Optional, Union

from . import _lib, _program
from .faults import Refused
from .game import Game

certificate, certifying, plan_data, plans, rounding = _lib.load(
    "certificate", "certifying", "plan_data", "plans", "rounding"
)

Key = Union[int, str]


def outward(low: Fraction, high: Fraction, digits: int = 6) -> tuple[Decimal, Decimal]:
    """Bounds with so many digits that count: LOW rounded down and HIGH up, so that what is shown holds, too."""
    return rounding.to_digits(low, digits, rounding.DOWN), rounding.to_digits(high, digits, rounding.UP)


class Checked(NamedTuple):
    """What `xg_solve check` accepted, which is what is proved: player one's plan gets at least `low` against every plan
    of player two, and player two's concedes at most `high` to every plan of player one, in units of the game file's
    payoffs to player one. `certificate` is the text that was checked; `notes` say whether its plans were rounded."""

    low: Fraction
    high: Fraction
    certificate: bytes
    notes: tuple[str, ...]

    @property
    def width(self) -> Fraction:
        """`high` less `low`: what both players together could gain, called NashConv or total exploitability."""
        return self.high - self.low

    def rounded(self, digits: int = 6) -> tuple[Decimal, Decimal]:
        """Both ends with so many digits, rounded outward."""
        return outward(self.low, self.high, digits)


class Named(Mapping[Key, Any]):
    """Values in an order. Each has a number, and a label that is its name where all of them have names of their own;
    either finds it. The labels are the keys that `plan_table --csv` prints, and those that are iterated over."""

    def __init__(self, kind: str, numbers: list[int], labels: list[str], values: list[Any]):
        self.kind, self.labels, self.values_of = kind, labels, values
        self.places: dict[Key, int] = {number: place for place, number in enumerate(numbers)}
        self.places |= {label: place for place, label in enumerate(labels)}

    def __getitem__(self, key: Key) -> Any:
        if key not in self.places:
            raise KeyError(f"no {self.kind} {key!r}; there are {', '.join(self.labels[:8])}")
        return self.values_of[self.places[key]]

    def __iter__(self) -> Iterator[str]:
        return iter(self.labels)

    def __len__(self) -> int:
        return len(self.labels)

    def __repr__(self) -> str:
        return repr(dict(zip(self.labels, self.values_of)))


class TraceRow(NamedTuple):
    """The bracket after a round, in units of the game file's payoffs to player one."""

    round: int
    low: Fraction
    high: Fraction


class Result:
    """A text of `solve` or `plus`, or a certificate of a profile, with its game.

    `low`, `high` and `width` are its bracket, in units of the game file's payoffs to player one: the value of the game
    lies between `low` and `high` where the text is true, which `check` proves. `second` is the bracket in player two's
    payoff. `plans[player][set][action]` is a probability, None in a set that the player's own plan never reaches:
    players are 1 and 2, sets go by their names or numbers in the file, and actions by their names or by their places
    from 1 on. `notes` say what was scaled or rounded on the way."""

    def __init__(self, game: Game, text: bytes, notes: tuple[str, ...] = (), program: Optional[_program.Path] = None):
        self.game, self.text, self.notes, self.program = game, text, notes, program
        try:
            self.read = certificate.read_text(text)
            plans.compare_head(game.read, self.read)
            self.choices = list(plan_data.choices_of(game.read, self.read))
        except (certificate.Fault, plans.Differs) as fault:
            raise Refused(str(fault), str(fault)) from None
        self.low: Fraction = self.read.low
        self.high: Fraction = self.read.high
        self.width: Fraction = self.high - self.low
        self.second: tuple[Fraction, Fraction] = self.read.bracket_of_two()
        self.trace = [TraceRow(row[0], *self.read.bracket_after(row)) for row in self.read.trace]
        self.plans: dict[int, Named] = {player: self.plan_of(player) for player in (1, 2)}

    def plan_of(self, player: int) -> Named:
        sets: dict[int, list[Any]] = {}
        for it in self.choices:
            if it.player == player:
                sets.setdefault(it.set.number, []).append(it)
        plans = [
            Named("action", [it.place for it in own], [it.label for it in own], [it.probability for it in own])
            for own in sets.values()
        ]
        return Named("set", list(sets), [own[0].set_label for own in sets.values()], plans)

    @property
    def is_certificate(self) -> bool:
        """Whether the text is a certificate: that of rounds of CFR+ is none, and `check` makes one of its plans."""
        return self.read.is_certificate()

    def to_rows(self) -> list[dict[str, Any]]:
        """A row for each action of both plans, as `pandas.DataFrame` takes them. `probability` is exact and `decimal`
        the nearest float, None in a set that the plan never reaches; `weight` of `before` units go to the action."""
        return [
            {
                "player": it.player,
                "player_name": self.game.players[it.player - 1],
                "set": it.set.number,
                "set_name": plan_data.shown(it.set.name),
                "action": it.place,
                "action_name": plan_data.shown(it.set.actions[it.place - 1]),
                "probability": it.probability,
                "decimal": None if it.probability is None else float(it.probability),
                "weight": it.weight,
                "before": it.before,
            }
            for it in self.choices
        ]

    def to_csv(self) -> str:
        """The plans as the table that `tools/certify` takes."""
        return plan_data.table_of(self.game.read, self.read)

    def to_dict(self) -> dict[str, Any]:
        """All that the text says, as `tools/plan_table --json` prints it."""
        return plan_data.object_of(self.game.read, self.read)

    def certificate(self) -> tuple[bytes, tuple[str, ...]]:
        """A certificate of the plans, and what is to be said of it: the text itself, or one that `certify --text` makes
        of a text of CFR+, without rounding wherever some scale of a certificate has both plans."""
        if self.is_certificate:
            return self.text, self.notes
        told = certifying.told_by_text(self.game.form, self.read, (1, 2))
        made = certifying.Certified(self.game.form, told)
        return made.data(), (*made.notes(), *certifying.notes_beside(self.read, made))

    def check(self, program: Optional[_program.Path] = None) -> Checked:
        """What `xg_solve check` accepts of the plans. This answer alone is what is proved, by the program's contracts
        (README, "What is proved"); a text that isn't true is the exception `Refused`."""
        data, notes = self.certificate()
        files = {_program.GAME: self.game.data, _program.CERTIFICATE: data}
        out = _program.call(["check", *files], files, program or self.program)
        word, low, high = out.decode().split()
        if word != "accepted":
            raise Refused(out.decode(), f"the program answers {word} and not accepted")
        return Checked(Fraction(low), Fraction(high), data, notes)

    def save(self, path: _program.Path) -> None:
        """Writes the text to a file."""
        with open(path, "wb") as file:
            file.write(self.text)

    def rounded(self, digits: int = 6) -> tuple[Decimal, Decimal]:
        """Both ends of the bracket with so many digits, rounded outward."""
        return outward(self.low, self.high, digits)

    def __repr__(self) -> str:
        low, high = self.rounded()
        return f"<Result of {self.game.title!r}: {low:g} to {high:g}>"

    def _repr_html_(self) -> str:
        """The bracket and both plans, as a notebook shows them."""
        low, high = self.rounded()
        kind = "certificate" if self.is_certificate else "text of CFR+, which is no certificate"
        names = [html.escape(it) for it in self.game.players]
        said = f"{low:g} to {high:g} to {names[0]}, by a {kind}; what is proved is the answer of <code>check()</code>"
        head = "".join(f"<th>{it}</th>" for it in ("player", "set", "action", "probability"))
        rows = "".join(row_of(names[it.player - 1], it) for it in self.choices)
        return (
            f"<p><b>{html.escape(self.game.title)}</b>: {said}<br>LOW {self.low}, HIGH {self.high}</p>"
            f"<table><thead><tr>{head}</tr></thead><tbody>{rows}</tbody></table>"
        )


def row_of(name: str, it: Any) -> str:
    """A row of the table; the set stands in the row of its first action."""
    first = it.place == 1
    set_ = f"{it.set.number} {plan_data.shown(it.set.name) or ''}".strip() if first else ""
    action = plan_data.shown(it.set.actions[it.place - 1])
    told = "never reached" if it.probability is None else f"{float(it.probability):.6f}"
    fields = (name if first else "", html.escape(set_), html.escape(action), told)
    return "<tr>" + "".join(f"<td>{field}</td>" for field in fields) + "</tr>"
