"""Draws the bracket of a text over its rounds as SVG: what `bracket_plot` prints, and what a report shows."""
import math
from fractions import Fraction
from xml.sax.saxutils import escape

from rounding import DOWN, UP, to_digits

LOW_COLOUR, HIGH_COLOUR, VALUE_COLOUR = "#1f5fa8", "#b3471d", "#555555"
# So many digits of a mark there is room for, and no mark has more than so many.
MOST_DIGITS, MOST_PLACES = 6, 100


class Canvas:
    """The size of a picture, the room around its curves, the size of its letters, and what is said of units."""

    def __init__(self, width, height, left, right, top, bottom, letters, units):
        self.width, self.height, self.letters, self.units = width, height, letters, units
        self.left, self.right, self.top, self.bottom = left, width - right, top, height - bottom


WIDE = Canvas(720, 440, left=84, right=96, top=44, bottom=56, letters=12, units=", in the game file's units")
# For a page that a phone shows too, and that tells of the units elsewhere.
NARROW = Canvas(500, 330, left=80, right=124, top=14, bottom=54, letters=14, units="")


class Axis:
    """From numbers to places on the picture, with round numbers as marks."""

    def __init__(self, marks, least, most, start, end, is_log=False):
        self.marks, self.start, self.end, self.is_log = marks, start, end, is_log
        self.least, self.most = self.scaled(least), self.scaled(most)

    def scaled(self, number):
        return math.log10(number) if self.is_log else number

    def place(self, number):
        width = self.most - self.least
        part = float((self.scaled(number) - self.least) / width) if width else 0.5
        return self.start + part * (self.end - self.start)


def round_numbers(least, most, least_step=0):
    """Multiples of 1, 2 or 5 times a power of ten, at most about six of them."""
    width = Fraction(most - least)
    power = Fraction(10) ** math.floor(math.log10(width / 6))
    step = max(least_step, next(k * power for k in (1, 2, 5, 10) if k * power * 6 >= width * Fraction(999, 1000)))
    first, last = math.ceil(least / step), math.floor(most / step)
    return [k * step for k in range(first, last + 1)]


def powers(least, most):
    """The powers of ten from one number of rounds to the other, and also twice and five times them."""
    return [k * 10**n for n in range(6) for k in (1, 2, 5) if least <= k * 10**n <= most]


def number(value):
    return f"{float(value):.{MOST_DIGITS}g}"


def told_marks(marks):
    """What is said of marks, and above which number that counts, or an empty text: of numbers that have to be long to
    be told apart, how much each is above the first."""
    step = min((later - mark for mark, later in zip(marks, marks[1:])), default=0)
    largest = max(map(abs, marks), default=0)
    if not step or largest < step * 10**MOST_DIGITS:
        return [number(mark) for mark in marks], ""
    # A mark is a multiple of a power of ten, so its decimal ends.
    first = to_digits(marks[0], MOST_PLACES, DOWN).normalize()
    return [number(mark - marks[0]) for mark in marks], f" above {first:f}"


def bound(name, value):
    """An end of the bracket with four digits, rounded outward."""
    return f"{float(to_digits(value, 4, DOWN if name == 'LOW' else UP)):.4g}"


def steps(points, x_axis, y_axis, last):
    """A step curve from its points to the last round, without points that fall on the same place of the picture."""
    places = []
    for x, y in points:
        at = (round(x_axis.place(x), 1), round(y_axis.place(y), 1))
        if places and at[1] != places[-1][1]:
            places.append((at[0], places[-1][1]))
        if not places or at[1] != places[-1][1]:
            places.append(at)
    places.append((round(x_axis.place(last), 1), places[-1][1]))
    return " ".join(f"{x:g},{y:g}" for x, y in places)


def line(x1, y1, x2, y2, style):
    return f'<line x1="{x1:g}" y1="{y1:g}" x2="{x2:g}" y2="{y2:g}" {style}/>'


def label(x, y, text, style=""):
    return f'<text x="{x:g}" y="{y:g}" {style}>{escape(text)}</text>'


def frame(canvas, x_axis, y_axis, units):
    """The axes with their marks and what they measure."""
    left, floor = canvas.left, canvas.bottom
    thin, grid = 'stroke="#333333"', 'stroke="#dddddd"'
    right, middle = 'text-anchor="end"', 'text-anchor="middle"'
    parts = []
    told, above = told_marks(y_axis.marks)
    for mark, it in zip(y_axis.marks, told):
        y = round(y_axis.place(mark), 1)
        parts += [line(left, y, canvas.right, y, grid), label(left - 8, y + 4, it, right)]
    for mark in x_axis.marks:
        x = round(x_axis.place(mark), 1)
        parts += [line(x, canvas.top, x, floor, grid), label(x, floor + 18, number(mark), middle)]
    parts.append(line(left, canvas.top, left, floor, thin))
    parts.append(line(left, floor, canvas.right, floor, thin))
    parts.append(label((left + canvas.right) / 2, canvas.height - 14, "rounds played", middle))
    up = (canvas.top + floor) / 2
    whose, comma, where = units.partition(",")
    parts.append(label(20, up, f"{whose}{above}{comma}{where}", f'{middle} transform="rotate(-90 20 {up:g})"'))
    return parts


def for_player_two(text, player):
    """What a text's bracket says of player two's own payoff, or None where that is player one's with the sign
    turned."""
    if text.sum == 0:
        return None
    least = bound("LOW", text.bracket_of_two()[0])
    return f"Both payoffs add up to {text.sum}: {player}'s plan gets at least {text.sum} less HIGH, {least}"


def picture(text, title, player, value=None, is_log=False, canvas=WIDE, below=None):
    """The picture of a text that has a trace, with the name of player one; a title, a line below it and a known value,
    or None."""
    rows = [(row[0], *text.bracket_after(row)) for row in text.trace]
    heights = [it for row in rows for it in row[1:]] + ([value] if value is not None else [])
    room = (max(heights) - min(heights)) / 20 or Fraction(1, 2)
    first, last = rows[0][0], rows[-1][0]
    least, most = min(heights) - room, max(heights) + room
    y_axis = Axis(round_numbers(least, most), least, most, canvas.bottom, canvas.top)
    begin, marks = (first, powers(first, last)) if is_log else (0, round_numbers(0, last, 1))
    x_axis = Axis(marks, begin, last, canvas.left, canvas.right, is_log)
    width, height = canvas.width, canvas.height
    parts = [
        f'<svg xmlns="http://www.w3.org/2000/svg" width="{width}" height="{height}" viewBox="0 0 {width} {height}"',
        f' font-family="sans-serif" font-size="{canvas.letters}">',
        f'<rect width="{width}" height="{height}" fill="white"/>',
        *([label(canvas.left, 24, title, 'font-size="14"')] if title is not None else []),
        *([label(canvas.left, 38, below, 'font-size="11"')] if below is not None else []),
        *frame(canvas, x_axis, y_axis, f"{player}'s payoff{canvas.units}"),
    ]
    beside = canvas.right + 6
    if value is not None:
        y = round(y_axis.place(value), 1)
        parts.append(line(canvas.left, y, canvas.right, y, f'stroke="{VALUE_COLOUR}" stroke-dasharray="5 4"'))
        parts.append(label(canvas.left + 6, y - 5, f"value {value}", f'fill="{VALUE_COLOUR}"'))
    for name, place, colour, down in (("HIGH", 2, HIGH_COLOUR, -4), ("LOW", 1, LOW_COLOUR, 12)):
        points = steps([(row[0], row[place]) for row in rows], x_axis, y_axis, last)
        parts.append(f'<polyline id="{name}" points="{points}" fill="none" stroke="{colour}" stroke-width="1.8"/>')
        if first == last:
            x, y = x_axis.place(last), y_axis.place(rows[-1][place])
            parts.append(f'<circle cx="{x:g}" cy="{y:.1f}" r="3.5" fill="{colour}"/>')
        y = y_axis.place(rows[-1][place]) + down
        parts.append(label(beside, round(y, 1), f"{name} {bound(name, rows[-1][place])}", f'fill="{colour}"'))
    return "\n".join(parts + ["</svg>", ""])


def span(low, high, pay, player):
    """The bracket as a bar over payoffs, as wide as the page, with a mark at what player one gets where both plans
    meet. All places are parts of the width, so that letters stay as large as they are."""
    height, floor = 92, 52
    room = (high - low) / 10 or abs(low) / 10 or Fraction(1, 2)
    axis = Axis(round_numbers(low - room, high + room), low - room, high + room, 1, 99)
    left, right, met = (part_of(axis, it) for it in (low, high, pay))
    parts = [
        f'<svg xmlns="http://www.w3.org/2000/svg" width="100%" height="{height}"',
        ' font-family="sans-serif" font-size="12">',
        f'<rect width="100%" height="{height}" fill="white"/>',
        wide_line("1%", floor, "99%", floor),
    ]
    told, above = told_marks(axis.marks)
    for mark, it in zip(axis.marks, told):
        x = part_of(axis, mark)
        parts += [wide_line(x, floor, x, floor + 5), wide_label(x, floor + 19, it)]
    if low == high:
        is_exact = bound("LOW", low) == bound("HIGH", high)
        parts.append(wide_label(left, 18, f"LOW and HIGH {'' if is_exact else 'about '}{float(low):.4g}"))
    else:
        parts.append(wide_label(left, 18, f"LOW {bound('LOW', low)}", "start"))
        parts.append(wide_label(right, 18, f"HIGH {bound('HIGH', high)}", "end"))
    parts.append(wide_line(left, 32, right, 32, 3))
    parts += [wide_line(x, 25, x, floor, 3) for x in (left, right)]
    parts.append(f'<circle cx="{met}" cy="32" r="5" fill="white" stroke="#333333" stroke-width="2"/>')
    parts.append(wide_label("50%", height - 4, f"{player}'s payoff{above}"))
    return "\n".join(parts + ["</svg>", ""])


def part_of(axis, value):
    return f"{axis.place(value):.2f}%"


def wide_line(x1, y1, x2, y2, width=1):
    return f'<line x1="{x1}" y1="{y1}" x2="{x2}" y2="{y2}" stroke="#333333" stroke-width="{width}"/>'


def wide_label(x, y, text, anchor=None):
    """A label at a part of the width; near an end of the picture it begins or ends there."""
    part = float(x[:-1])
    anchor = anchor or ("start" if part < 6 else "end" if part > 94 else "middle")
    return f'<text x="{x}" y="{y}" text-anchor="{anchor}">{escape(text)}</text>'
