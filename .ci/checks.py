"""What the checks share: calls of the built program, the texts it says, parts of pages, and the count of what passed.
Behind this module those of tools/lib and of bench can be imported."""
import json
import pathlib
import re
import shutil
import signal
import subprocess
import sys
import tempfile

sys.dont_write_bytecode = True
ROOT = pathlib.Path(__file__).resolve().parent.parent
sys.path[1:1] = [str(ROOT / "tools" / "lib"), str(ROOT / "bench")]
from named_games import game  # noqa: E402

# A check in the background ignores the keyboard's signal, and one below nohup a hangup, and so would what it calls.
signal.signal(signal.SIGINT, signal.default_int_handler)
signal.signal(signal.SIGHUP, signal.SIG_DFL)

LAUNCHER = ROOT / "bin" / "xg_solve"
VERSION = (ROOT / "VERSION").read_text().strip()
GAMES = sorted((ROOT / "games").glob("*.efg"))
KUHN, BLUFF, NETWORKS, TOLL = (ROOT / "games" / f"{it}.efg" for it in ("kuhn_poker", "bluff", "networks", "toll"))


def built_program(name):
    """Where a program is. The toolchain's gate makes the first, and tools/prove.py both, of which a gate that was cut
    off leaves the second."""
    places = (ROOT / "crates" / name / "out" / name, ROOT / "out" / name)
    return next((it for it in places if it.exists()), places[0])


PROGRAM = built_program("xg_solve")

USAGE = (
    b"usage: xg_solve solve FILE [--rounds N] [--every N] [--scale N] [--workers N] [--atomic N]"
    b" | check FILE CERT | upgrade FILE CERT | info FILE | gen N | drill N | plus FILE | batch FILE...\n"
)
READ_FAULT = b"read fault\n"
WRITE_FAULT = b"write fault\n"
NO_MEMORY = b"want of memory\n"

ONE_LEAF = game("one_leaf")


def text(nodes, leaves, sets=(0, 0), sequences=(1, 1), unit=1, mass=0, total=0):
    """What is printed for a game with these numbers that is solved in no rounds. Each leaf pays both players together
    the total."""
    lines = [
        "XGCERT 2",
        f"nodes {nodes} leaves {leaves}",
        f"sets {sets[0]} {sets[1]}",
        f"sequences {sequences[0]} {sequences[1]}",
        f"unit {unit}",
        f"mass {mass}",
        f"sum {total}",
        "rounds 0 every 1 scale 1048576",
        "end",
    ]
    return "".join(line + "\n" for line in lines).encode()


def leaf_text(rounds, every, scale=1_048_576, is_plus=False):
    """What `solve` prints for the game of `ONE_LEAF` after so many rounds, or `plus`, whose round k weighs k: the first
    evaluation is never improved."""
    first = min(every, rounds)
    root = scale * (first * (first + 1) // 2 if is_plus else first)
    lines = [
        "XGPLUS 1" if is_plus else "XGCERT 2",
        *text(1, 1).decode().splitlines()[1:7],
        f"rounds {rounds} every {every} scale {scale}",
        *(f"trace {min(k, rounds)} {first} 0 {first} 0" for k in range(every, rounds + every, every)),
        *(f"plan 1 {root}", "reply 2 0", f"plan 2 {root}", "reply 1 0"),
        *("bracket 0 0", "second 0 0", "end"),
    ]
    return "".join(line + "\n" for line in lines).encode()


def call(words, name="xg_solve", program=PROGRAM, **options):
    """The status, the standard output and the standard error of a call with these words and this name of its own."""
    options = {"stdout": subprocess.PIPE, "stderr": subprocess.PIPE, "stdin": subprocess.DEVNULL, **options}
    ended = subprocess.run([name, *words], executable=program, timeout=120, **options)
    return ended.returncode, ended.stdout, ended.stderr


def built(name, folder):
    """A library for LD_PRELOAD, of a source of this folder."""
    library = folder / f"{name}.so"
    compiler = shutil.which("cc") or shutil.which("clang") or "cc"
    source = ROOT / ".ci" / f"{name}.c"
    subprocess.run([compiler, "-O2", "-shared", "-fPIC", "-o", library, source, "-ldl"], check=True)
    return library


def solve(file):
    return ["solve", file, "--rounds", "0"]


def settings(rounds, every, scale):
    """The options of rounds."""
    return [f"--rounds={rounds}", f"--every={every}", f"--scale={scale}"]


def rows_of(name):
    """The rows of a check, which stand beside it."""
    return json.loads((ROOT / ".ci" / f"{name}.json").read_text())


def indented(page, first):
    """The indented lines of a page that begin with this one."""
    lines = (ROOT / "docs" / page).read_text()
    return re.search(rf"^    {re.escape(first)}\n(?:    .*\n)*", lines, re.MULTILINE)[0].replace("    ", "").encode()


def commands_of(page):
    """The commands that a page shows, each with what stands under it."""
    found = re.findall(r"^    \$ (.*)\n((?:    (?!\$ ).*\n)*)", page, re.M)
    return [(command, re.sub("^    ", "", told, flags=re.M)) for command, told in found]


class Checks:
    """Counts what passed, and says what did not."""

    def __init__(self, name):
        self.name, self.passed, self.failed = name, 0, 0

    def expect(self, what, told, *wanted):
        self.that(what, told == wanted, f"got {shown(told)}, want {shown(wanted)}")

    def that(self, what, holds, why):
        self.passed, self.failed = self.passed + bool(holds), self.failed + (not holds)
        if not holds:
            print(f"{self.name}: {what}: {why}")

    def run(self, parts, make=lambda _, folder: folder):
        """Calls each part with a folder that goes then, or what is made in it; the status of the script."""
        with tempfile.TemporaryDirectory() as name:
            given = make(self, pathlib.Path(name))
            for part in parts:
                part(self, given)
        return self.end()

    def end(self):
        print(f"{self.name}: {self.passed} passed, {self.failed} failed", flush=True)
        return 1 if self.failed else 0


def checks_of_program(name):
    """Checks of the program, which the launcher proves and builds first where that is needed."""
    checks = Checks(name)
    status, out, said = call([], program=LAUNCHER)
    checks.expect("the launcher", (status, out, said[-len(USAGE) :]), 2, b"", USAGE)
    return checks


def shown(values):
    return ", ".join(repr(it if it is None or isinstance(it, int) else it[:200]) for it in values)
