"""Edits that the prover must refuse: what each changes, and how the toolchain judges it.

An edit is a wrong body in place of a right one. It is tried on the functions whose bodies it changes: where one of them
isn't proved, the crate isn't. What they call keeps its contract and gets a hole for its proof, as a function's proof
rests on the contracts alone of those that it calls; edits of several functions are tried by one check (edit_groups).
Where this doesn't decide, or the edit stands in no function, the whole crate is checked with it. The judgement is the
toolchain's own, which this module calls as `rt must-fail` does; it needs the libraries that a proof of the crates below
left.

What was refused is kept, by the sum of all that a judgement depends on, in a folder xg_solve-edits below the user's
cache; what it doesn't hold is tried.
"""
import dataclasses
import hashlib
import json
import os
import pathlib
import re
import shutil
import signal
import subprocess
import sys
import tempfile
import threading
import time

import edit_groups
import edited
import toolchain

ROOT = pathlib.Path(__file__).resolve().parent.parent.parent
INTERRUPTS = (signal.SIGINT, signal.SIGTERM, signal.SIGHUP)
NAME = re.compile(r"[A-Za-z0-9_-][A-Za-z0-9_.-]*\.edit")
# The files of a function's proof, and a proof that is a hole.
PROOF = ("Proof", "Invariants", "Answers")
HOLE = """use Rattle.{crate}.proofs.{path}.Statement.{{statement}}

pub {name}_spec : {{M : Type 1}} → statement M
{name}_spec = ?
"""
# What the toolchain says of an edit that takes away a name which a proof file has.
ONLY_NAMES = "only because a proof file names what the edit took away"
# What it says of one whose check met a limit of the prover's own.
AT_A_LIMIT = "refused, as it must be (only by a limit of the prover"
# What was kept and not asked for in so many seconds is removed.
LONGEST = 90 * 24 * 3600


def by_crate(folder):
    """For each crate with files below this folder of it, their names in order. A .md file is only to be read."""
    found = {}
    for top in sorted((ROOT / "crates").glob(f"*/{folder}")):
        files = sorted(it for it in top.rglob("*") if it.is_file() and it.suffix != ".md")
        if files:
            found[top.parent.name] = [str(it.relative_to(top)) for it in files]
    return found


def words_of(functions):
    """The words of a check that is asked for these functions, or of a whole one."""
    return ["--jobs", "1", *(word for it in functions for word in ("--only", it))]


def put_holes(crate, functions, room):
    """Gives each other function of a copy of the crate a hole for its proof, but one whose proof others name, and those
    that are proved together."""
    proofs = "".join(it.read_text() for it in room.glob("proofs/**/*.antt"))
    for name in {*edited.bodies_of(room)} - {*functions} - edited.in_cycles(room):
        path, folder = name.replace("::", "."), room / "proofs" / name.replace("::", "/")
        if any(f"Rattle.{crate}.proofs.{path}.{it}" in proofs for it in PROOF):
            continue
        folder.mkdir(parents=True, exist_ok=True)
        for it in PROOF:
            (folder / f"{it}.antt").unlink(missing_ok=True)
        (folder / "Proof.antt").write_text(HOLE.format(crate=crate, path=path, name=name.rpartition("::")[2]))


class Runs:
    """The checks that run, which an interrupt ends."""

    def __init__(self):
        self.lock, self.children, self.is_over = threading.Lock(), set(), False

    def run(self, words, **how):
        with self.lock:
            if self.is_over:
                raise InterruptedError
            child = subprocess.Popen(words, **how)
            self.children.add(child)
        said, _ = child.communicate()
        with self.lock:
            self.children.discard(child)
        return subprocess.CompletedProcess(words, child.returncode, said)

    def end(self):
        with self.lock:
            self.is_over = True
            for it in self.children:
                it.kill()


@dataclasses.dataclass
class Result:
    """What became of an edit: whether the prover refuses it, what was said, and whether that was kept."""

    is_refused: bool
    said: str
    is_kept: bool = False


class Kept:
    """What was refused before, by the sum of all that it depends on."""

    def __init__(self):
        above = os.environ.get("XDG_CACHE_HOME", "")
        above = pathlib.Path(above) if os.path.isabs(above) else pathlib.Path.home() / ".cache"
        self.folder = above / "xg_solve-edits"

    def of(self, key):
        try:
            said = (self.folder / key).read_text()
            os.utime(self.folder / key)
        except OSError:
            return None
        return Result(True, said, True) if said.startswith("refused") else None

    def keep(self, key, said):
        try:
            self.folder.mkdir(parents=True, exist_ok=True)
            with tempfile.NamedTemporaryFile("w", dir=self.folder, prefix=".", delete=False) as file:
                file.write(said)
            os.replace(file.name, self.folder / key)
        except OSError:
            # What can't be kept is tried again.
            pass

    def remove_old(self):
        for it in self.folder.glob("*"):
            try:
                if time.time() - it.stat().st_mtime > LONGEST:
                    it.unlink()
            except OSError:
                pass


class Trial:
    """Tries edits, given by crate, in a folder of these, over the libraries that proofs left in the repository."""

    def __init__(self, folder, edits, room):
        self.folder, self.edits, self.room = folder, edits, room
        self.toolchain, self.runs, self.kept = toolchain.load(), Runs(), Kept()
        # What checks of several edits said of each; what the gate keeps; and which libraries are of that.
        self.told, self.store, self.of_store = {}, None, {}
        self.rtlib = self.toolchain.rtlib
        self.toolchain.checked = self.check
        self.toolchain.rtlib.guarded()
        self.crates = {it.name: it for it in self.rtlib.crates_below(str(ROOT))}
        for it in self.crates.values():
            it.out = sys.stderr
        self.below = {}
        for it in self.crates.values():
            self.below[it.name] = list(dict.fromkeys(n for d in it.deps for n in [*self.below[d.name], d.name]))
        self.sums = {name: self.sum_of(it) for name, it in self.crates.items()}

    def sum_of(self, crate):
        """A sum of all that a crate's own files and its line of crates.txt say."""
        found = hashlib.sha256(repr((crate.name, crate.said)).encode())
        for file in self.rtlib.files_of(crate.folder):
            found.update(repr((os.path.relpath(file, crate.folder), self.rtlib.sum_of(file))).encode())
        return found.hexdigest()

    def key(self, crate, edit):
        """A sum of all that the judgement of an edit depends on."""
        tools = [f"{self.rtlib.KIT}/{it}" for it in ("WHAT", "KIT-ID", "bin/rt", "bin/rtlib.py")]
        modules = [__file__, edit_groups.__file__, edited.__file__]
        parts = [self.rtlib.sum_of(it) for it in [*tools, *modules, edit]]
        parts += [self.sums[it] for it in [*self.below[crate.name], crate.name]]
        return hashlib.sha256(repr(parts).encode()).hexdigest()

    def check(self, crate, texts, flags, kept):
        """Checks a copy of the crate with these texts for its own, and answers in the words of a whole check. What was
        said of them by a check of several edits is answered as it is."""
        functions = [flags[at + 1] for at, it in enumerate(flags) if it == "--only"]
        if functions and (said := self.told.pop((crate.name, repr(sorted(texts.items()))), "")):
            return subprocess.CompletedProcess([], 1, said)
        with tempfile.TemporaryDirectory(prefix="xg-edit-", dir=self.room, ignore_cleanup_errors=True) as room:
            for part in self.rtlib.PARTS:
                if os.path.isdir(f"{crate.folder}/{part}"):
                    shutil.copytree(f"{crate.folder}/{part}", f"{room}/{part}")
            for path, text in texts.items():
                pathlib.Path(room, path).write_text(text, encoding="utf-8")
            if functions:
                put_holes(crate.name, functions, pathlib.Path(room))
                flags = [*flags, "--allow-holes", "--short-goals"]
            words = [self.rtlib.RATTLE, "check", *crate.words(flags, keeps=False)]
            how = {"cwd": room, "stdin": subprocess.DEVNULL, "stdout": subprocess.PIPE, "stderr": subprocess.STDOUT}
            ran = self.runs.run([*self.rtlib.guarded(), *words], errors="replace", **how)
        if ran.returncode == 1 and functions and edit_groups.is_refused(crate.name, functions, ran.stdout):
            lines = [it for it in ran.stdout.split("\n") if not edit_groups.OF_A_PROOF.match(it)]
            ran.stdout = "\n".join([*lines, edit_groups.LAST])
        return ran

    def check_group(self, crate, group):
        """Checks a copy of the crate with the changes of several edits, and notes what that says of each. Where one
        can't be read, each is tried alone."""
        ran = self.check(crate, group.texts, words_of(group.all_functions()), None)
        is_read = not any(self.toolchain.unread(it, group.texts) for it in ran.stdout.split("\n"))
        parts = group.parts(crate.name, ran.stdout) if ran.returncode == 1 and is_read else {}
        for name, said in parts.items():
            texts = self.toolchain.read_edit(pathlib.Path(crate.folder, self.folder, name), crate.folder)[0]
            self.told[crate.name, repr(sorted(texts.items()))] = said

    def ask(self, crate, edit, flags):
        """Whether the toolchain refuses an edit, and what it says. It has a word for that, or, in older ones, a truth.
        A limit of the prover's is no verdict, though the toolchain lets it pass."""
        came, said = self.toolchain.must_fail(crate, edit, flags)
        said = said.replace(AT_A_LIMIT, "NOT REFUSED (stopped by a limit of the prover")
        return came == getattr(self.toolchain, "REFUSED", True), said

    def before(self, crate, name):
        """What became of an edit, where that is certain before it is tried."""
        edit = pathlib.Path(crate.folder, self.folder, name)
        if not NAME.fullmatch(name):
            return Result(False, f"BAD EDIT: an edit stands right in {self.folder}/, and its name ends in .edit")
        if why := self.toolchain.read_edit(edit, crate.folder)[1]:
            return Result(False, f"BAD EDIT: {why}")
        return self.kept.of(self.key(crate, edit))

    def judge(self, crate, name):
        """What the toolchain says of an edit: on its functions, and where they don't decide, on the whole crate."""
        edit = pathlib.Path(crate.folder, self.folder, name)
        functions = edited.functions_of(edit, pathlib.Path(crate.folder))
        is_refused, said = self.ask(crate, edit, words_of(functions)) if functions else (False, "")
        if not is_refused:
            is_refused, said = self.ask(crate, edit, words_of([]))
        said = " ".join(said.partition(f"{name}: ")[2].split())
        if is_refused:
            self.kept.keep(self.key(crate, edit), said)
        return Result(is_refused, said)

    def needs_build(self, name):
        """Whether the libraries below a crate have to be built: those of `rt ci` have no stamp and are new or old
        together, or are those that it keeps; those of other commands have a stamp."""
        crates = [self.crates[it] for it in self.below[name]]
        is_any = lambda holds: all(map(holds, crates))
        return not (is_any(self.is_of_gate) or is_any(self.is_kept_by_gate) or is_any(lambda it: it.is_built()))

    def is_of_gate(self, crate):
        """Whether a library is newer than its sources and than the libraries below it, and was built by `rt ci`."""
        if os.path.exists(f"{crate.folder}/out/rlib/stamp") or not os.path.isdir(crate.rlib):
            return False
        files = [*self.rtlib.files_of(crate.folder), *(f"{it.rlib}/format" for it in crate.deps)]
        made = os.path.getmtime(f"{crate.rlib}/format")
        return all(os.path.exists(it) and os.path.getmtime(it) < made for it in files)

    def is_kept_by_gate(self, crate):
        """Whether a library is the one that `rt ci` keeps of these sources, over the libraries below it. A checkout's
        files are newer than what is kept of them."""
        if crate.name not in self.of_store:
            self.of_store[crate.name] = all(map(self.is_kept_by_gate, crate.deps)) and self.is_in_store(crate)
        return self.of_store[crate.name]

    def is_in_store(self, crate):
        has_store = os.path.isdir(getattr(self.toolchain, "STORE", ""))
        if not has_store or os.path.exists(f"{crate.folder}/out/rlib/stamp") or not os.path.isdir(crate.rlib):
            return False
        if not self.store:
            # What `rt ci` keeps goes by the handles that it allows, too.
            self.toolchain.Crate.allowed = self.toolchain.handles_of(str(ROOT))
            self.store = self.toolchain.Kept([])
        self.store.is_built(crate)
        place = pathlib.Path(self.store.place(crate, False, self.store.key(crate)))
        try:
            files = [(path, sum) for path, sum in json.loads((place / "made.json").read_text())["files"]]
        except (OSError, ValueError, KeyError, TypeError):
            return False
        return self.store.rlibs[crate.name] == hashlib.sha256(repr(files).encode()).hexdigest()

    def build(self, crate, given, jobs):
        """Builds a library as `rt must-fail` does, over what checks kept, and answers whether it is built."""
        if not all(given[it, "library"] for it in self.below[crate.name]):
            return False
        return not crate.build_rlib(["--jobs", str(jobs)], anew=False)

    def tasks(self, edits):
        """All that is to be done for these edits, given by crate, in the form of the toolchain's lanes."""
        lacking = {name for name in edits if self.needs_build(name)}
        low = {it for name in lacking for it in self.below[name]}
        found = {}
        for name, crate in self.crates.items():
            lines, needs = crate.count(rb"\n"), self.toolchain.need(crate)
            if name in low:
                waits = [(it, "library") for it in self.below[name]]
                found[name, "library"] = waits, lines, needs, lambda given, jobs, it=crate: self.build(it, given, jobs)
            waits = [(it, "library") for it in self.below[name] if name in lacking]
            for number, group in enumerate(self.groups(crate, edits.get(name, []))):
                call = lambda given, _, it=crate, group=group: self.try_group(it, group, given)
                found[name, "edits", number] = waits, lines, needs, call
        return found

    def groups(self, crate, names):
        """Edits of a crate in groups that are tried by one check; the others each by themselves."""
        folder = pathlib.Path(crate.folder)
        found = edit_groups.groups(folder, [folder / self.folder / it for it in names])
        grouped = {it for group in found for it in group.functions}
        return [*found, *(edit_groups.Group({it: []}, {}) for it in names if it not in grouped)]

    def try_group(self, crate, group, given):
        """What became of each edit of a group, by its name."""
        if not all(given.get((it, "library"), True) for it in self.below[crate.name]):
            lacks = Result(False, "NOT TRIED: a library below its crate isn't proved")
            return {it: lacks for it in group.functions}
        if len(group.functions) > 1:
            self.check_group(crate, group)
        return {it: self.judge(crate, it) for it in group.functions}

    def results(self):
        """What became of each edit, by crate and name, side by side on as many processors as there are."""

        def stop(number, _):
            self.runs.end()
            sys.exit(128 + number)

        for it in INTERRUPTS:
            if signal.getsignal(it) is not signal.SIG_IGN:
                signal.signal(it, stop)
        found = {(name, it): self.before(self.crates[name], it) for name, edits in self.edits.items() for it in edits}
        left = {name: [it for it in edits if not found[name, it]] for name, edits in self.edits.items()}
        tried = self.toolchain.in_lanes(self.tasks({name: edits for name, edits in left.items() if edits}))
        for (name, kind, *_), results in tried.items():
            found.update({(name, it): result for it, result in results.items()} if kind == "edits" else {})
        self.kept.remove_old()
        return found


def try_edits(folder, edits):
    """Tries edits of a folder of the crates, given by crate, and answers the result of each, by crate and name."""
    room = tempfile.mkdtemp(prefix="xg-edits-")
    try:
        return Trial(folder, edits, room).results()
    finally:
        for it in INTERRUPTS:
            signal.signal(it, signal.SIG_IGN)
        shutil.rmtree(room, ignore_errors=True)
