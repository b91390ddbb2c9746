#!/usr/bin/env python3
"""Runs the gate and measures the processor minutes that each crate's proof, tests and edits take.

Usage: python3 bench/gate.py [--save FILE] [--before FILE] [--log FILE] [-- COMMAND ..]
       python3 bench/gate.py --from FILE [--before FILE]
       python3 bench/gate.py --meter [--from FILE]

The command is `rt ci` where none is given; one that measures all is `bench/gate.py -- .ci/run`. It runs at the top
of the repository, and what it says goes to standard output and to the log. A table follows: for each crate the minutes
of its proof, of its tests' proof, of its edits, of running its program and its tests, and all together; how many of its
edits were tried, and when each began and ended, in minutes that passed. The lines below it tell what is in none of
these (the gate itself, the layout, the repository's own checks), the time that passed, and the longest chain. The
status is that of the command. --save writes the measures, --from prints those that were saved, and --before adds their
column of all minutes. --meter runs nothing: it prints the megabytes that checks of each crate kept, the minutes of a
proof that they stand for, and where measures are given the minutes of its proof in them, with the ratio; and the crates
of which nothing is kept.

A minute is the processor's, as the system counts it, with all threads and all children that were waited for. The
processes below the command are looked at once a second. What a check takes after it was last seen is known when the
process that waited for it is looked at again; where several checks ended within that second, it is shared out among
them. A process that began and ended between two looks is counted, but for no crate. The total is the system's own.

A proof is `rattle build` or `check` in the crate's folder; with --test it is that of the tests. An edit is a check of a
copy of the crate, and so is the check of the crate as it stands that its edits begin with, and the one that ends them.
"""
import collections
import dataclasses
import json
import os
import pathlib
import re
import selectors
import signal
import subprocess
import sys
import tempfile
import time

sys.path.append(str(pathlib.Path(__file__).resolve().parent.parent / "tools" / "lib"))

import command_line
import crates
import meter

ROOT = pathlib.Path(__file__).resolve().parent.parent
TICK = os.sysconf("SC_CLK_TCK")
KINDS = ("proof", "tests", "edits", "runs")
# The parts of a number of the system's are cut to its ticks.
CUT = 0.1
# For so many looks the time of a check that ended is waited for.
PATIENCE = 5


@dataclasses.dataclass
class Process:
    """What the system tells of a process: its parent, when it began, its own time and that of children waited for."""

    number: int
    parent: int
    begin: float
    own: float
    waited: float


def look_at(number):
    """What the system tells of a process, or none where it has ended."""
    try:
        text = pathlib.Path(f"/proc/{number}/stat").read_text(errors="replace")
    except OSError:
        return None
    fields = text.rpartition(")")[2].split()
    own, waited = sum(map(int, fields[11:13])) / TICK, sum(map(int, fields[13:15])) / TICK
    return Process(number, int(fields[1]), int(fields[19]) / TICK, own, waited)


def processes_below(root):
    """The processes below one, each after its parent, so that none is counted by its parent and once more as itself."""
    children = collections.defaultdict(list)
    for it in filter(str.isdigit, os.listdir("/proc")):
        if found := look_at(it):
            children[found.parent].append(int(it))
    numbers, found = [root], []
    for it in numbers:
        if process := look_at(it):
            found.append(process)
            numbers += children[it]
    return found


def words_and_folder(number):
    try:
        words = pathlib.Path(f"/proc/{number}/cmdline").read_bytes().decode(errors="replace").split("\0")[:-1]
        return words, os.readlink(f"/proc/{number}/cwd")
    except OSError:
        return [], ""


def value_after(word, words):
    return words[words.index(word) + 1] if word in words[:-1] else ""


def work_of(words, folder):
    """The crate that a command is for, its kind, and whether it tries no edit of its own; none of another command."""
    names = [os.path.basename(it) for it in words]
    if program := next((it for it in words if re.search(r"/rt-run-\d+-[^/]*/bin/\w+$", it)), ""):
        name = os.path.basename(program)
        return name.removesuffix("_tests") if "rattle-test" in names else name, "runs", False
    if "rattle-link" in names:
        crate = os.path.basename(folder)
        return crate, "tests" if value_after("-o", words).endswith(f"/{crate}_tests") else "proof", False
    crate = value_after("--crate-name", words)
    if not crate or value_after("rattle", names) not in ("check", "build"):
        return None
    if re.match(r"(rt|xg)-edit-", os.path.basename(folder)):
        return crate, "edits", value_after("--incremental", words).endswith("/seed")
    return crate, "tests" if "--test" in words else "proof", False


@dataclasses.dataclass
class Check:
    """A command of one crate, while it runs: how much it took when it was last seen, with all below it."""

    crate: str
    kind: str
    is_base: bool
    jobs: int
    parent: int
    begin: float
    took: float = 0.0
    seen: float = 0.0


def new_row():
    return {it: {"took": 0.0, "passed": 0.0, "count": 0, "begin": None, "end": None} for it in KINDS}


class Sampler:
    """Looks at the processes below one, and adds up what each crate's checks took."""

    def __init__(self, root):
        self.root, self.start = root, time.clock_gettime(time.CLOCK_BOOTTIME)
        self.crates, self.bases = collections.defaultdict(new_row), 0.0
        self.running, self.unknown = {}, collections.Counter()
        # What each process had waited for when it was last looked at; the checks below it that ended, and its new time.
        self.waited, self.ended, self.owed, self.tries = {}, collections.defaultdict(list), {}, collections.Counter()

    def look(self):
        now = time.clock_gettime(time.CLOCK_BOOTTIME)
        took, above, alive = collections.Counter(), {}, {}
        for it in processes_below(self.root):
            key = above.get(it.parent) or self.check_of(it)
            alive[it.number] = it
            if key:
                above[it.number] = key
                took[key] += it.own + it.waited
        for key, all_of_it in took.items():
            self.running[key].took, self.running[key].seen = max(self.running[key].took, all_of_it), now
        for key in [it for it in self.running if it not in took]:
            check = self.running.pop(key)
            self.ended[check.parent].append(check)
        self.settle({number: it.waited for number, it in alive.items() if number not in above}, now)

    def check_of(self, process):
        """The key of the check that this process is the first of, if it is one."""
        key = process.number, process.begin
        if key in self.running:
            return key
        # A process may yet become another program; one that has been none of a crate's for long stays so.
        if self.unknown[key] > 10:
            return None
        words, folder = words_and_folder(process.number)
        found = work_of(words, folder)
        if not found:
            self.unknown[key] += 1
            return None
        jobs = value_after("--jobs", words)
        self.running[key] = Check(*found, int(jobs) if jobs.isdigit() else 1, process.parent, process.begin)
        return key

    def settle(self, waited, now):
        """Gives the checks that ended what the processes that waited for them were told, beyond what was seen."""
        for parent in [*self.ended]:
            checks, self.tries[parent] = self.ended[parent], self.tries[parent] + 1
            fresh = waited.get(parent, 0.0) - self.waited.get(parent, 0.0)
            owed = self.owed[parent] = self.owed.get(parent, 0.0) + max(fresh, 0.0)
            rest = owed - sum(it.took for it in checks)
            if rest >= -CUT * len(checks) or self.tries[parent] >= PATIENCE or parent not in waited:
                self.share(checks, max(rest, 0.0), now)
                del self.ended[parent], self.owed[parent], self.tries[parent]
        self.waited = waited

    def share(self, checks, rest, now):
        most = [(now - it.seen) * it.jobs for it in checks]
        part = min(1.0, rest / sum(most)) if sum(most) else 0.0
        for check, bound in zip(checks, most):
            check.took += part * bound
            self.add(check, now)

    def add(self, check, end):
        row = self.crates[check.crate][check.kind]
        row["took"] += check.took
        row["passed"] += end - check.begin
        row["count"] += not check.is_base
        row["begin"] = min(check.begin - self.start, row["begin"] or check.begin - self.start)
        row["end"] = end - self.start
        self.bases += check.took * check.is_base

    def finish(self):
        """Adds what was still running when it was last looked at."""
        now = time.clock_gettime(time.CLOCK_BOOTTIME)
        for checks in [*self.ended.values(), [*self.running.values()]]:
            self.share(checks, 0.0, now)


class Edits:
    """Counts in what the gate says the edits that were tried in this run."""

    def __init__(self):
        self.count = collections.Counter()

    def take(self, line):
        if tried := re.match(r"rt: must-fail (\w+)/\S+: (?!BAD EDIT)", line):
            self.count[tried[1]] += 1
        elif kept := re.match(r"rt: (\w+): (\d+) of its \d+ must-fail edits were tried by an earlier run", line):
            self.count[kept[1]] -= int(kept[2])
        elif tried := re.match(r"refused: edits of (\w+) that were tried: (\d+)", line):
            self.count[tried[1]] += int(tried[2])


def write_no_more():
    os.dup2(os.open(os.devnull, os.O_WRONLY), 1)


def pass_on(piece, log):
    """Writes a piece of what the gate says; whoever reads it may have gone, and the gate goes on."""
    log.write(piece)
    log.flush()
    try:
        sys.stdout.buffer.write(piece)
        sys.stdout.flush()
    except BrokenPipeError:
        write_no_more()


def follow(gate, log, sampler, edits):
    """Passes on what the gate says, and looks at its processes once a second, until it says no more."""
    output, rest, due = gate.stdout.fileno(), b"", 0.0
    with selectors.DefaultSelector() as selector:
        selector.register(output, selectors.EVENT_READ)
        while True:
            if time.monotonic() >= due:
                sampler.look()
                due = time.monotonic() + 1
            if not selector.select(max(0.0, due - time.monotonic())):
                continue
            piece = os.read(output, 1 << 16)
            if not piece:
                return
            pass_on(piece, log)
            *lines, rest = (rest + piece).split(b"\n")
            for line in lines:
                edits.take(line.decode(errors="replace"))


def measure(command, log):
    """Runs the gate, and answers its status and what was measured."""
    begin, clock = time.monotonic(), time.time()
    streams = {"stdin": subprocess.DEVNULL, "stdout": subprocess.PIPE, "stderr": subprocess.STDOUT}
    gate = subprocess.Popen(command, cwd=ROOT, **streams)
    for it in (signal.SIGINT, signal.SIGTERM):
        signal.signal(it, lambda number, _: gate.send_signal(number))
    sampler, edits = Sampler(gate.pid), Edits()
    follow(gate, log, sampler, edits)
    _, ended, used = os.wait4(gate.pid, 0)
    sampler.finish()
    gate.returncode = os.waitstatus_to_exitcode(ended)
    return {
        "command": command,
        "begin": time.strftime("%Y-%m-%d %H:%M", time.localtime(clock)),
        "status": gate.returncode if gate.returncode >= 0 else 128 - gate.returncode,
        "passed": time.monotonic() - begin,
        "processors": len(os.sched_getaffinity(0)),
        "took": used.ru_utime + used.ru_stime,
        "bases": sampler.bases,
        "crates": sampler.crates,
        "edits": {name: count for name, count in edits.count.items() if count > 0},
        "chain": longest_chain(sampler.crates),
    }


def longest_chain(measured):
    """The crates whose proofs wait for one another the longest, each with the seconds that its proof or tests took."""
    passed = lambda name, kind: measured[name][kind]["passed"] if name in measured else 0.0
    chains = {}
    for name, uses in crates.uses().items():
        length, chain = max((chains[it] for it in uses if it in chains), default=(0.0, []))
        chains[name] = length + passed(name, "proof"), [*chain, (name, "proof", passed(name, "proof"))]
    ends = [*chains.values()]
    for length, chain in chains.values():
        name, _, proof = chain[-1]
        ends.append((length - proof + passed(name, "tests"), [*chain[:-1], (name, "tests", passed(name, "tests"))]))
    return [it for it in max(ends, default=(0.0, []))[1] if it[2] >= 0.5]


def minutes(seconds):
    return f"{seconds / 60:.1f}"


def span(row):
    return "" if row["end"] is None else f"{row['begin'] / 60:.1f}-{row['end'] / 60:.1f}"


def all_of(row):
    return sum(row[it]["took"] for it in KINDS)


def add_up(measured, kind):
    return sum(row[kind]["took"] for row in measured["crates"].values())


def table(measured, before):
    """The rows of the table, as texts: what each column is, each crate in the order of crates.txt, and all."""
    yield ["crate", *KINDS, "all", *["before"] * bool(before), "tried", "proof at", "tests at", "edits at"]
    rows, old = measured["crates"], before["crates"] if before else {}
    known = [*crates.uses()]
    names = sorted({*rows, *old}, key=lambda it: (known.index(it) if it in known else len(known), it))
    for name in names:
        row = rows.get(name) or new_row()
        was = [minutes(all_of(old[name])) if name in old else ""] * bool(before)
        took, spans = [minutes(row[it]["took"]) for it in KINDS], [span(row[it]) for it in KINDS[:3]]
        yield [name, *took, minutes(all_of(row)), *was, str(measured["edits"].get(name, 0) or ""), *spans]
    for what, it in (("all crates", measured), ("before", before)):
        if it:
            took, tried = [minutes(add_up(it, kind)) for kind in KINDS], str(sum(it["edits"].values()))
            every = minutes(sum(map(all_of, it["crates"].values())))
            yield [what, *took, every, *[""] * bool(before), tried, "", "", ""]


def show(measured, before):
    print_rows(table(measured, before))
    print()
    for what, it in (("", measured), ("before: ", before)):
        if it:
            tell(what, it)


def tell(what, measured):
    """Says what no row has."""
    took, passed, processors = measured["took"], measured["passed"], measured["processors"]
    others = took - sum(map(all_of, measured["crates"].values()))
    used = 100 * took / (passed * processors) if passed else 0.0
    print(f"{what}{' '.join(measured['command'])}, {measured['begin']}: status {measured['status']}")
    print(f"{what}{minutes(took)} processor minutes, {minutes(others)} of them of no crate's checks")
    print(f"{what}{minutes(measured['bases'])} of the edits' minutes went into checks of crates as they stand")
    print(f"{what}{minutes(passed)} minutes passed, with {used:.0f} % of {processors} processors in use")
    chain = [f"{name}{' (tests)' * (kind == 'tests')} {minutes(it)}" for name, kind, it in measured["chain"]]
    whole = minutes(sum(it for _, _, it in measured["chain"]))
    print(f"{what}the longest chain took {whole} minutes: {', '.join(chain) or 'none'}")


def meter_rows(measured):
    """The rows of the meter's table, as texts: each crate for which something is kept, and all of them."""
    yield ["crate", "MB", "meter", *["proof", "ratio"] * bool(measured)]
    sums = [0.0, 0.0, 0.0]
    for name, below in crates.below().items():
        kept = meter.kept(name)
        row = measured["crates"].get(name) if measured else None
        if kept is None or measured and not row:
            continue
        found = [kept, sum(meter.parts(len(below), kept)), row["proof"]["took"] if row else 0.0]
        sums = [a + b for a, b in zip(sums, found)]
        yield meter_row(name, found, measured)
    yield meter_row("all of these", sums, measured)


def meter_row(name, found, measured):
    kept, told, took = found
    ratio = f"{took / told:.2f}" if told else ""
    return [name, f"{kept:.1f}", minutes(told), *([minutes(took), ratio] if measured else [])]


def print_rows(rows):
    rows = [*rows]
    widths = [max(map(len, column)) for column in zip(*rows)]
    for name, *cells in rows:
        print("  ".join([name.ljust(widths[0]), *map(str.rjust, cells, widths[1:])]).rstrip())


def read(file):
    return json.loads(pathlib.Path(file).read_text()) if file else None


def main():
    parser = command_line.parser(__doc__)
    parser.add_argument("command", metavar="COMMAND", nargs="*", default=["rt", "ci"])
    parser.add_argument("--save", metavar="FILE")
    parser.add_argument("--from", metavar="FILE", dest="saved")
    parser.add_argument("--before", metavar="FILE")
    parser.add_argument("--log", metavar="FILE")
    parser.add_argument("--meter", action="store_true")
    given = parser.parse_args()
    before = read(given.before)
    if given.meter:
        print_rows(meter_rows(read(given.saved)))
        lacking = [name for name in crates.uses() if meter.kept(name) is None]
        if lacking:
            print(f"\nnothing is kept of {len(lacking)} crates, which aren't counted: {', '.join(lacking)}")
        return 0
    if given.saved:
        show(read(given.saved), before)
        return 0
    with open(given.log or tempfile.mkstemp(prefix="gate-", suffix=".log")[1], "wb") as log:
        measured = measure(given.command, log)
    if given.save:
        pathlib.Path(given.save).write_text(json.dumps(measured, indent=1) + "\n")
    try:
        print(f"\nwhat the gate said is in {log.name}")
        show(measured, before)
        sys.stdout.flush()
    except BrokenPipeError:
        write_no_more()
    return measured["status"]


if __name__ == "__main__":
    sys.exit(main())
