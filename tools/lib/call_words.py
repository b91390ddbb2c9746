"""What is wrong with the words of a call of the program, by docs/words.md."""
import difflib
import re

COMMANDS = {
    "solve": ("FILE",),
    "check": ("FILE", "CERT"),
    "upgrade": ("FILE", "CERT"),
    "info": ("FILE",),
    "gen": ("N",),
    "drill": ("N",),
    "plus": ("FILE",),
    "batch": ("FILE",),
}
MOST_FILES = 16
CARDS = (2, 64)
RANGES = {
    "--rounds": (0, 65_536),
    "--every": (1, 65_536),
    "--scale": (1, 1_048_576),
    "--workers": (1, 64),
    "--atomic": (0, 1),
}
RANGES_OF_PLUS = {**RANGES, "--rounds": (0, 2_048), "--scale": (1, 16_384)}
OPTIONS = {
    "solve": RANGES,
    "drill": RANGES,
    "plus": RANGES_OF_PLUS,
    "batch": {name: it for name, it in RANGES.items() if name != "--atomic"},
}
HELPS = ("help", "man", "version", "--help", "-h", "-?", "--version", "-V", "-v")
DIGITS = re.compile(r"[0-9]+")
NOTHING = "the program takes no word for help: README.md has its commands, docs/words.md exactly its words"
# Words of the other program, which says of its own words itself what is wrong with them.
OF_CLOSE = ("--width", "--quiet")
CLOSE = "which says what is wrong with its words; docs/xg_close.md has them"


def faults(words):
    """What is wrong with the words, in their order; nothing where they are a call."""
    if not words:
        return [f"no command; the first word is one of {', '.join(COMMANDS)}"]
    command, *rest = words
    if any(not is_utf8(it) for it in words):
        return ["a word isn't UTF-8; rename the file, or call its link"]
    if command not in COMMANDS:
        return [no_command(command, rest)]
    found, others = option_faults(command, rest)
    return found or other_faults(command, others)


def is_utf8(word):
    try:
        word.encode("utf-8")
    except UnicodeEncodeError:
        return False
    return True


def hint(word, known):
    near = difflib.get_close_matches(word.lower(), known, 1, 0.6)
    return f"; did you mean {near[0]}?" if near else ""


def no_command(word, rest):
    if word in HELPS:
        return f"no command {word}: {NOTHING}"
    if word == "xg_close":
        return f"no command xg_close: it is a program of its own, {CLOSE}"
    later = next((it for it in rest if it in COMMANDS), None)
    if later:
        return f"the command stands first, {later} before {word}"
    return f"no command {word}{hint(word, COMMANDS) or '; the first word is one of ' + ', '.join(COMMANDS)}"


def option_faults(command, words):
    """The faults of options, and the words that aren't one."""
    known, seen, found, others = OPTIONS.get(command, {}), set(), [], []
    coming = iter(words)
    for word in coming:
        if not word.startswith("-"):
            others.append(word)
            continue
        name, is_joined, number = word.partition("=")
        if name not in known:
            found.append(no_option(command, name, known))
            continue
        if not is_joined:
            number = next(coming, "")
        if name in seen:
            found.append(f"{name} stands twice")
        elif fault := number_fault(name, number, *known[name]):
            found.append(fault)
        seen.add(name)
    return found, others


def no_option(command, name, known):
    if name in HELPS:
        return f"no option {name}: {NOTHING}"
    if name in OF_CLOSE:
        return f"no option {name}: it is one of xg_close, {CLOSE}"
    if name in ("-", "--") or not re.fullmatch(r"--?[a-zA-Z]+", name):
        return f"{name} is taken for an option; a file whose name begins with - is written ./{name}"
    if name in RANGES:
        return f"{command} has no option {name}" if known else f"{command} has no options, and {name} is one of others"
    return f"no option {name}{hint(name, known or RANGES)}" + ("" if known else f"; {command} has none")


def number_fault(name, word, least, most):
    """What is wrong with a number, or None."""
    takes = f"{name} takes {least:,} to {most:,}"
    if word == "":
        return f"{takes}, and its number is missing"
    if not DIGITS.fullmatch(word):
        return f"{takes}, and {word} isn't digits alone"
    digits = word.lstrip("0") or "0"
    if len(digits) > 7 or int(digits) > most:
        return f"{takes}, and {word} is more"
    return f"{takes}, and {word} is less" if int(digits) < least else None


def other_faults(command, words):
    """The faults of the words that aren't options: too few, too many, or no number."""
    wanted = COMMANDS[command]
    if command == "batch":
        if len(words) > MOST_FILES:
            return [f"batch takes 1 to {MOST_FILES} files, and {len(words)} are here"]
        return [] if words else [f"batch takes 1 to {MOST_FILES} files, and none is here"]
    if len(words) < len(wanted):
        return [f"{command} takes {' and '.join(wanted)}, and {wanted[len(words)]} is missing"]
    if len(words) > len(wanted):
        many = ", ".join(words[len(wanted) :])
        return [f"{command} takes {' and '.join(wanted)}, and here is more: {many}"]
    fault = number_fault(command, words[0], *CARDS) if wanted == ("N",) else None
    return [fault] if fault else []


def files_of(words):
    """The game files of a call, and its certificate or None."""
    command, *rest = words
    if COMMANDS[command] == ("N",):
        return [], None
    others = option_faults(command, rest)[1]
    return (others[:1], others[1]) if "CERT" in COMMANDS[command] else (others, None)
