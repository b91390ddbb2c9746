"""The commands of the repository, as they say of themselves what they take: its programs and its tools."""
import dataclasses
import os
import pathlib
import re
import subprocess

ROOT = pathlib.Path(__file__).resolve().parents[2]
NOT_INSTALLED = frozenset((ROOT / "tools" / "lib" / "not_installed.txt").read_text().split())
# So wide that the parser of words breaks no line.
WIDE = "10000"
MAIN = "xg_solve"


def tools():
    """The names of the tools: what can be called in tools/ and has no ending."""
    found = (it for it in (ROOT / "tools").iterdir() if it.is_file() and not it.suffix)
    return sorted(it.name for it in found if os.access(it, os.X_OK))


def is_checkout():
    """Whether this is the repository, and no archive of a release or what was installed of one."""
    return (ROOT / "crates.txt").is_file()


def programs():
    """The names of the programs: launchers of bin/ that a crate is named as, or, beside no crates, all in bin/."""
    names = sorted(it.name for it in (ROOT / "bin").iterdir())
    return [it for it in names if not is_checkout() or (ROOT / "crates" / it / "src" / "main.rt").is_file()]


def page_of(program):
    """The page that says which words a program takes."""
    return ROOT / "docs" / ("words.md" if program == MAIN else f"{program}.md")


@dataclasses.dataclass
class Help:
    """What a tool says with `--help`: the words, the text, and below each heading the words with what they mean."""

    usage: str
    text: str
    sections: dict


def help_of(tool):
    env = {**os.environ, "COLUMNS": WIDE, "LC_ALL": "C.UTF-8"}
    said = subprocess.run([ROOT / "tools" / tool, "--help"], env=env, capture_output=True, text=True, check=True).stdout
    usage, _, rest = said.partition("\n\n")
    parts = re.split(r"^([a-z ]+):\n(?=  \S)", rest, flags=re.M)
    sections = {title: items_of(text) for title, text in zip(parts[1::2], parts[2::2])}
    return Help(usage.removeprefix("usage: ").strip(), parts[0].strip(), sections)


def items_of(text):
    """The words of a section with what they mean, which may stand on the next line."""
    items = []
    for line in filter(str.strip, text.splitlines()):
        if re.match(r"  \S", line):
            word, _, meaning = line.strip().partition("  ")
            items.append((word, meaning.strip()))
        else:
            items[-1] = (items[-1][0], " ".join([items[-1][1], *line.split()]).strip())
    return items
