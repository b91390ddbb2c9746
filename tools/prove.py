#!/usr/bin/env python3
"""Proves a program and all that it stands on, builds it, and says how far that is on standard error.

Usage: tools/prove.py [xg_solve | xg_close]

Without a word that is `xg_solve`.

Crates are proved side by side, each once those that it stands on are proved, and first those with the longest chain of
others behind them. A crate gets the processors that no other waits for. How long that takes is told from what checks
kept, or from lines of code, and from the first crates on as this machine took for those. The status is 0 where the
program is proved and built, and then it stands in out/, too, which the toolchain's gate leaves alone. Where it isn't,
the status is 1, and what the toolchain said is shown. Words are refused with status 2. A signal ends it with 128 and
the signal's number.

In one copy of the repository the toolchain proves one crate at a time. So each check has a copy of its own, with the
libraries that were proved before. The repository then takes what was proved there, as the toolchain has the copies of a
machine do; where it doesn't, that is moved. The program is proved and built in the repository itself. What is moved
stays on one file system, in the repository's folder .git where there is one, which no check reads.
"""
import dataclasses
import fcntl
import os
import pathlib
import re
import shutil
import signal
import subprocess
import sys
import tempfile
import time

sys.path.append(str(pathlib.Path(__file__).resolve().parent / "lib"))

import crates
import meter

ROOT = pathlib.Path(__file__).resolve().parent.parent
PROGRAMS = ("xg_solve", "xg_close")
CRATE = next(iter(sys.argv[1:]), PROGRAMS[0])
PROGRAM = ROOT / "crates" / CRATE / "out" / CRATE
KEPT = ROOT / "out" / CRATE
RT = [sys.executable, str(ROOT / "tools" / "lib" / "toolchain.py")]
ROOM = "xg-prove-"
SIGNALS = (signal.SIGINT, signal.SIGTERM, signal.SIGHUP)
PARTS = ("src", "specs", "proofs")
# What one job of a check takes at the most, in bytes, and the jobs beyond which a check gains little.
MEMORY_OF_A_JOB = 2 << 30
MOST_JOBS = 4
# What is measured counts for as much as the meter once so many seconds of it are known.
SECONDS_OF_TRUST = 60.0


def jobs_at_once():
    available = int(re.search(r"MemAvailable: *(\d+) kB", pathlib.Path("/proc/meminfo").read_text()).group(1)) << 10
    return max(1, min(len(os.sched_getaffinity(0)), available // MEMORY_OF_A_JOB))


def say(text):
    print(f"{CRATE}: {text}", file=sys.stderr, flush=True)


def told(seconds):
    return f"{int(seconds) // 60} min" if seconds >= 60 else f"{int(seconds)} s"


def newest(crate):
    """When a source of the crate was last changed. A folder changes where a file comes or goes."""
    tops = [ROOT / "crates" / crate / part for part in PARTS]
    return max((it.stat().st_mtime for top in tops if top.is_dir() for it in [top, *top.rglob("*")]), default=0.0)


def parts_of(crate, below):
    """The seconds of a check that no further job shortens, and those that jobs share."""
    stamp = ROOT / "crates" / crate / "out" / "rlib" / "stamp"
    if stamp.exists() and stamp.stat().st_mtime > max(map(newest, [crate, *below])):
        # Nothing is to be proved again, most likely.
        return 1.0, 0.0
    return meter.parts(len(below), meter.kept(crate) or meter.by_lines(crate))


class Plan:
    """Which crates are proved when, by how many jobs, and how long that takes."""

    def __init__(self, below, jobs):
        self.jobs, self.crates = jobs, [it for it in below if it in below[CRATE] or it == CRATE]
        self.below = {it: below[it] for it in self.crates}
        self.parts = {it: parts_of(it, below[it]) for it in self.crates}
        self.behind = {it: self.seconds(it) for it in self.crates}
        for it in reversed(self.crates):
            above = [other for other in self.crates if it in self.below[other]]
            self.behind[it] += max((self.behind[other] for other in above), default=0.0)

    def seconds(self, crate, jobs=1):
        alone, shared = self.parts[crate]
        return alone + shared / jobs

    def next(self, proved, running):
        """The crates to begin, each with its jobs. The program comes last, and alone."""
        ready = [it for it in self.crates if it not in proved and it not in running and self.below[it] <= proved]
        ready.sort(key=self.behind.get, reverse=True)
        idle = self.jobs - sum(running.values())
        for place, crate in enumerate(ready):
            jobs = min(MOST_JOBS, max(idle // (len(ready) - place), 1), idle)
            if jobs:
                yield crate, jobs
            idle -= jobs

    def left(self, proved, running, pace):
        """The seconds that are left. Of each running check its jobs and its seconds are given; `pace` stretches all."""
        now, proved, jobs, ends = 0.0, set(proved), {it: jobs for it, (jobs, _) in running.items()}, {}
        ends.update({it: max(pace * self.seconds(it, jobs) - passed, 1.0) for it, (jobs, passed) in running.items()})
        while len(proved) < len(self.crates):
            for crate, number in [*self.next(proved, jobs)]:
                jobs[crate], ends[crate] = number, now + pace * self.seconds(crate, number)
            crate = min(ends, key=ends.get)
            now = ends.pop(crate)
            proved.add(crate)
            del jobs[crate]
        return now


class Progress:
    """What is proved, and the lines that say so."""

    def __init__(self, plan):
        self.plan, self.start, self.proved = plan, time.monotonic(), set()
        self.planned = self.taken = SECONDS_OF_TRUST
        processors = f"{plan.jobs} idle processor{'s' * (plan.jobs > 1)}"
        say(f"proving {len(plan.crates)} crates; on {processors} this takes about {told(self.left([]))}")

    def left(self, running):
        now = time.monotonic()
        passed = {it.crate: (it.jobs, now - it.begin) for it in running}
        return self.plan.left(self.proved, passed, self.taken / self.planned)

    def end(self, check, running):
        """Says that a crate is proved, and keeps the line that says so; nothing of one that was proved before."""
        now = time.monotonic()
        self.proved.add(check.crate)
        if check.verdict:
            (ROOT / "crates" / check.crate / "out" / "verdict").write_text(f"{check.verdict}\n")
            self.planned += self.plan.seconds(check.crate, check.jobs)
            self.taken += now - check.begin
            left = f", about {told(self.left(running))} left" if len(self.proved) < len(self.plan.crates) else ""
            of = f"{len(self.proved)} of {len(self.plan.crates)}"
            say(f"proved {check.crate} ({of}), {told(now - self.start)}{left}")


def make_room():
    """A folder for the copies, beside which nothing is left of calls that were killed."""
    above = ROOT / ".git"
    if not above.is_dir():
        return pathlib.Path(tempfile.mkdtemp(prefix=ROOM))
    for it in above.glob(f"{ROOM}*"):
        if not pathlib.Path("/proc", it.name.removeprefix(ROOM)).exists():
            shutil.rmtree(it, ignore_errors=True)
    room = above / f"{ROOM}{os.getpid()}"
    room.mkdir()
    return room


def move(one, other):
    """Moves what a crate's checks left, where there is something."""
    if one.exists():
        shutil.rmtree(other, ignore_errors=True)
        shutil.move(one, other)


def link_or_copy(one, other):
    """The toolchain makes a file of a library anew, and never writes into one."""
    try:
        os.link(one, other)
    except OSError:
        shutil.copyfile(one, other)


@dataclasses.dataclass
class Check:
    """A crate while it is proved in a copy of the repository, and while the repository then takes what was proved."""

    crate: str
    jobs: int
    copy: pathlib.Path
    lock: int
    child: subprocess.Popen
    begin: float
    is_taking: bool = False
    # What the toolchain said where it proved something, and nothing where all was proved before.
    verdict: str = ""

    def said(self):
        return (self.copy / "said").read_text(errors="replace").replace(str(self.copy), str(ROOT))


class Copies:
    """Copies of the crates' sources, one for each check that runs."""

    def __init__(self, plan):
        self.plan, self.room, self.idle, self.count = plan, make_room(), [], 0
        # Whether the repository takes what was proved in a copy.
        self.is_shared = True

    def copy(self):
        """A copy in which nothing runs."""
        if self.idle:
            return self.idle.pop()
        self.count += 1
        copy = self.room / str(self.count)
        (copy / "crates").mkdir(parents=True)
        shutil.copyfile(ROOT / "crates.txt", copy / "crates.txt")
        for folder in [it for part in PARTS for it in ROOT.glob(f"crates/*/{part}")]:
            shutil.copytree(folder, copy / folder.relative_to(ROOT))
        return copy

    def lend(self, crate, copy):
        """Gives a copy the library that was proved of this crate."""
        library, place = [it / "crates" / crate / "out" / "rlib" for it in (ROOT, copy)]
        if library.is_dir() and not place.exists():
            shutil.copytree(library, place, copy_function=link_or_copy)

    def begin(self, crate, jobs):
        """Begins the check of a crate, or answers none where another command works in the crate."""
        lock = os.open(ROOT / "crates" / crate, os.O_RDONLY)
        try:
            # The toolchain's own lock of a crate.
            fcntl.flock(lock, fcntl.LOCK_EX | fcntl.LOCK_NB)
        except BlockingIOError:
            os.close(lock)
            return None
        copy = self.copy()
        for it in self.plan.below[crate]:
            self.lend(it, copy)
        move(ROOT / "crates" / crate / "out", copy / "crates" / crate / "out")
        child = start(["lib", "--jobs", str(jobs)], copy / "crates" / crate, copy / "said")
        return Check(crate, jobs, copy, lock, child, time.monotonic())

    def take(self, check):
        """Has the repository take what was proved, and answers whether that goes on."""
        if check.is_taking or check.child.returncode != 0 or not self.is_shared:
            return False
        check.is_taking, check.verdict = True, verdict(check.said())
        os.close(check.lock)
        check.child = start(["lib", "--jobs", "1"], ROOT / "crates" / check.crate, check.copy / "said")
        return True

    def end(self, check):
        """Frees the copy of a check. What it made is moved where the repository hasn't taken it."""
        self.idle.append(check.copy)
        if check.is_taking:
            self.is_shared = not verdict(check.said())
        else:
            check.verdict = verdict(check.said())
            os.close(check.lock)
        made, kept = [it / "crates" / check.crate / "out" for it in (check.copy, ROOT)]
        if not (kept / "rlib" / "stamp").exists():
            move(made, kept)
        elif (made / "verdict").exists():
            shutil.copy2(made / "verdict", kept / "verdict")


def start(words, folder, said):
    streams = {"stdin": subprocess.DEVNULL, "stderr": subprocess.STDOUT}
    with open(said, "wb") as out:
        return subprocess.Popen([*RT, *words], cwd=folder, stdout=out, **streams)


def verdict(said):
    found = re.findall("^logic=proved.*", said, re.MULTILINE)
    return found[-1] if found else ""


def prove_libraries(plan, progress, copies, running):
    """Proves all but the program, and answers none, or what the toolchain said of the crate that it refused."""
    while len(progress.proved) < len(plan.crates) - 1:
        for crate, jobs in [*plan.next(progress.proved, {it.crate: it.jobs for it in running})]:
            if check := copies.begin(crate, jobs):
                running.append(check)
        ended = next((it for it in running if it.child.poll() is not None), None)
        if not ended:
            time.sleep(0.1)
        elif not copies.take(ended):
            running.remove(ended)
            copies.end(ended)
            if ended.child.returncode != 0:
                return f"== {ended.crate}\n{ended.said()}"
            progress.end(ended, running)
    return None


def prove_program(plan, progress, room):
    """Proves, builds and runs the program, and answers none, or what the toolchain said where it isn't proved."""
    # It is run without words; its status there is of no interest.
    PROGRAM.unlink(missing_ok=True)
    jobs, begin = min(plan.jobs, MOST_JOBS), time.monotonic()
    child = start(["run", "--jobs", str(jobs)], ROOT / "crates" / CRATE, room / "said")
    try:
        child.wait()
    finally:
        child.terminate()
    check = Check(CRATE, jobs, room, -1, child, begin)
    check.verdict = verdict(check.said())
    # Another call of this may have built it meanwhile.
    is_done = check.verdict or "\nrt: nothing has changed since the last proved build" in f"\n{check.said()}"
    if not is_done or not os.access(PROGRAM, os.X_OK):
        return check.said()
    keep_program()
    progress.end(check, [])
    return None


def keep_program():
    """Has the program stand where the toolchain's gate, which takes all that checks made, leaves it alone. Both names
    are of one file, so that the launcher sets the time of both."""
    KEPT.parent.mkdir(exist_ok=True)
    made = KEPT.with_name(f"{CRATE}.{os.getpid()}")
    try:
        os.link(PROGRAM, made)
    except OSError:
        shutil.move(PROGRAM, made)
    made.replace(KEPT)


def prove():
    """Proves and builds all, and answers none, or what the toolchain said of what it refused."""
    plan = Plan({name: set(it) for name, it in crates.below().items()}, jobs_at_once())
    progress, copies, running = Progress(plan), Copies(plan), []
    try:
        return prove_libraries(plan, progress, copies, running) or prove_program(plan, progress, copies.room)
    finally:
        # What checks made is moved back after a signal, too.
        for it in SIGNALS:
            signal.signal(it, signal.SIG_IGN)
        for it in running:
            it.child.kill()
        for it in running:
            it.child.wait()
            copies.end(it)
        # Many files take longer to remove than a signal may take.
        subprocess.Popen(["rm", "-rf", copies.room], start_new_session=True)


def main():
    if sys.argv[2:] or CRATE not in PROGRAMS:
        print(f"usage: tools/prove.py [{' | '.join(PROGRAMS)}]", file=sys.stderr)
        return 2
    if not shutil.which("rt"):
        say("the toolchain's command rt isn't on the PATH")
        return 1
    for it in SIGNALS:
        if signal.getsignal(it) is not signal.SIG_IGN:
            signal.signal(it, lambda number, _: sys.exit(128 + number))
    refused = prove()
    sys.stderr.write(refused or "")
    return 1 if refused else 0


if __name__ == "__main__":
    sys.exit(main())
