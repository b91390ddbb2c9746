"""Places in a file as people find them: by line and column, with the line itself and a mark below."""
import efg

# So many characters of a line are shown, and so many of them before the mark.
SHOWN, BEFORE = 100, 64
MOST_OF_A_TOKEN = 40


class Told:
    """What is wrong: the fault's line as the program says it, or None where it has none, the place in the file or None,
    what is said, what was expected there, and what mends it."""

    def __init__(self, line, at, said, expected="", mend=""):
        self.line, self.at, self.said, self.expected, self.mend = line, at, said, expected, mend


def line_and_column(data, at):
    """Both count from 1, columns in characters of UTF-8."""
    start = data.rfind(b"\n", 0, at) + 1
    return data.count(b"\n", 0, at) + 1, len(data[start:at].decode("utf-8", "replace")) + 1


def start_of_line(data, number):
    """The place of a line, which counts from 1."""
    at = 0
    for _ in range(number - 1):
        at = data.index(b"\n", at) + 1
    return at


def excerpt(data, at):
    """The line of a place, or the part of it that can be shown, and below it the mark."""
    start = data.rfind(b"\n", 0, at) + 1
    end = data.find(b"\n", at)
    end = len(data) if end < 0 else end
    # A character has four bytes at most.
    first = max(start, at - 4 * SHOWN)
    before = visible(data[first:at])
    behind = visible(data[at : min(end, at + 4 * SHOWN)])
    is_short = first == start and len(before) + len(behind) <= SHOWN
    front = before if is_short or len(before) <= BEFORE else "... " + before[-BEFORE:]
    return ["    " + (front + behind)[:SHOWN], "    " + " " * len(front) + "^"]


def visible(data):
    """Bytes as a line can show them. A blank stands for a tab, and nothing for a carriage return."""
    text = data.decode("utf-8", "backslashreplace").replace("\t", " ").rstrip("\r")
    return "".join(it if it.isprintable() else it.encode("unicode_escape").decode() for it in text)


def token_at(data, at):
    """The bytes of the token that stands there; of a text that isn't closed its line."""
    first = data[at : at + 1]
    if first == b'"':
        mark = efg.MARK.search(data, at + 1)
        return data[at : mark.end()] if mark else data[at:].split(b"\n")[0]
    if first in (b"{", b"}", b","):
        return first
    return efg.RUN.match(data, at)[0]


def this(token):
    """A token as a sentence names it."""
    told = visible(token)
    return "this " + (told if len(told) <= MOST_OF_A_TOKEN else told[:MOST_OF_A_TOKEN] + "..")


def either(words):
    *front, last = words
    return f"{', '.join(front)} or {last}" if front else last
