"""The programs that are built in a repository: whether one is fresh, and what was said when it was proved."""
import re
import subprocess

from commands import ROOT, is_checkout

# What the gate said, which its script keeps, and what bin/ keeps of each crate that it proves.
GATE = ROOT / "out" / "gate.txt"
FRESH = 'root=$1; . "$root/bin/launch.sh"; ! is_stale "$2" src specs proofs'
PROVED = re.compile(r"^logic=proved .*$", re.M)


def program(name):
    """The file of a program, where it is built or where it was installed."""
    return ROOT / "crates" / name / "out" / name if is_checkout() else ROOT / "bin" / name


def is_fresh(name):
    """Whether a program is there, and no source of the repository is newer, by the rule of the launchers."""
    if not is_checkout():
        return program(name).is_file()
    return subprocess.run(["bash", "-c", FRESH, "fresh", ROOT, program(name)], check=False).returncode == 0


def time_of(file):
    return file.stat().st_mtime_ns if file.is_file() else -1


def newest_of(name):
    """When what is built of a crate, or its newest source, was last changed."""
    parts = [ROOT / "crates" / name / it for it in ("src", "specs", "proofs")]
    return max(map(time_of, [program(name), *(it for part in parts for it in part.rglob("*"))]))


def lines_of_gate():
    """What the gate said of each crate, where it passed."""
    said = GATE.read_text(errors="replace") if GATE.is_file() else ""
    if not re.search(r"^\d+ passed, 0 failed$", said, re.M):
        return {}
    parts = re.findall(r"^== (\w+)\n((?:(?!== ).*\n)*)", said, re.M)
    return {name: found[-1] for name, text in parts if (found := PROVED.findall(text))}


def verdicts():
    """Of each crate the line that said that it is proved, where that is no older than its sources and its program."""
    kept = [(GATE, *it) for it in lines_of_gate().items()]
    files = sorted(ROOT.glob("crates/*/out/verdict"))
    kept += [(it, it.parents[1].name, it.read_text().strip()) for it in files]
    kept = [it for it in kept if time_of(it[0]) >= newest_of(it[1])]
    return {name: line for _, name, line in sorted(kept, key=lambda it: time_of(it[0]))}
