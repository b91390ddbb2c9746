#!/usr/bin/env python3
"""Measures on the built program how files are read: time and memory as files grow.

Usage: python3 bench/reading.py [--runs N] [--beside PROGRAM]

Each line says what was measured, the measure and its bound; the last line counts what passed and failed, and the status
is 1 where something failed. Times are the best of N runs (5 where nothing else is said). How they grow with the file is
told by the processor's time, the best of four times as many runs, in which the sizes take turns: what changes the
machine's speed for a while, or takes a processor away, then meets no size alone. User and system time are taken
together, since Linux counts their sum exactly and parts it by ticks of some milliseconds. With PROGRAM, which reads the
same files for the same words, each kind of file is also measured with it, in turn, and the ratio is printed, of the
time that passes and of the processor's time; it has no bound.
"""
import os
import pathlib
import random
import resource
import subprocess
import sys
import tempfile

ROOT = pathlib.Path(__file__).resolve().parent.parent
# Behind this module those of .ci and of tools/lib can be imported.
sys.path += [str(ROOT / ".ci"), str(ROOT / "tools" / "lib")]
import command_line  # noqa: E402

PROGRAM = ROOT / "crates" / "xg_solve" / "out" / "xg_solve"
MOST_NODES = 1_048_576
SIZES = (131_072, 262_144, 524_288, MOST_NODES)
MOST_BYTES = 67_108_864
# So many times as many runs are made where sizes are compared.
TURNS = 4

PROLOGUE = 'EFG 2 R "wide" { "A" "B" }\n'


def wide(nodes, name=""):
    """A game with so many nodes in a wide tree of depth 2: each inner node in a set of its own, each leaf with an
    outcome of its own."""
    inner, sizes = split(nodes)
    lines = [personal(1, 1, inner, name)]
    leaf = 0
    for number, size in enumerate(sizes, 1):
        lines.append(personal(2, number, size, name))
        for _ in range(size):
            leaf += 1
            lines.append(f't "{name}" {leaf} {{ {leaf % 7}, -{leaf % 7} }}')
    return file_of(lines)


def split(nodes):
    inner = max(1, -(-(nodes - 1) // 1_025))
    leaves = nodes - 1 - inner
    sizes = [leaves // inner + (1 if i < leaves % inner else 0) for i in range(inner)]
    assert inner <= 1_024 and all(1 <= size <= 1_024 for size in sizes), nodes
    return inner, sizes


def personal(player, number, size, name):
    actions = " ".join('"a"' for _ in range(size))
    return f'p "{name}" {player} {number} "s" {{ {actions} }} 0'


def file_of(lines):
    return (PROLOGUE + "\n".join(lines) + "\n").encode()


def rounds_of_cards(nodes):
    """A game with about so many nodes in which each mention of a set and an outcome has its whole description: chance
    deals three times, and then both players bet, who see no card."""
    tables, seats = (nodes - 1) // 1_026, 41
    shuffle = f'c "" 1 "shuffle" {{ {" ".join([f"{chr(34)}t{chr(34)} 1/{tables}"] * tables)} }} 0'
    seat = f'c "" 2 "seat" {{ {" ".join([f"{chr(34)}s{chr(34)} 1/{seats}"] * seats)} }} 0'
    deal = 'c "" 3 "deal" { "ace" 1/3 "king" 1/6 "queen" .5 } 0'
    first = 'p "" 1 1 "first" { "check" "bet" "raise" } 1 "ante" { 1/2, -1/2 }'
    second = 'p "" 2 1 "second" { "fold" "call" } 0'
    wins, loses, even = 't "" 2 "one wins" { 5/2, -2.5 }', 't "" 3 "two wins" { -1e0, 1 }', 't "" 0 "even"'
    hand = [first, second, wins, loses, second, loses, even, wins]
    table = [seat] + ([deal] + hand * 3) * seats
    return file_of([shuffle] + table * tables)


def binary(nodes):
    """A game with so many nodes, each inner one in a set of its own with two actions, each leaf with an outcome of its
    own with a name."""
    lines = []
    for k in range(nodes // 2):
        lines.append(f'p "" {1 + k % 2} {k + 1} "set {k}" {{ "left" "right" }} 0')
        lines.append(f't "" {k + 1} "end {k}" {{ {k % 9}, -{k % 9} }}')
    lines.append(f't "" {nodes} "end" {{ 0, 0 }}')
    return file_of(lines)


def path_of_sets(nodes):
    """So many nodes below one another, each but the last in a set of player one with one action."""
    return file_of([f'p "" 1 {k} {{ "" }} 0' for k in range(1, nodes)] + ['t "" 0'])


def rare(leaves):
    """About so many leaves, each reached by two deals whose probabilities have denominators of 30 bits."""
    size, whole = round(leaves**0.5), 2**30
    odd = [2 * k + 1 for k in range(size - 1)]
    last = whole - sum(odd)
    chances = " ".join(f'"d" {n}/{whole}' for n in [*odd, last])
    ends = [f't "" {k} {{ {k % 2}, -{k % 2} }}' for k in range(1, size + 1)]
    return file_of([f'c "" 1 {{ {chances} }} 0'] + ([f'c "" 2 {{ {chances} }} 0'] + ends) * size)


def chain(nodes, first, later):
    """So many nodes of one set with one action, and a leaf."""
    return file_of([first] + [later] * (nodes - 2) + ['t "" 0'])


def colliding(count):
    """So many numbers up to 2^62 that lie close together in a hash table whose hash is the toolchain's default, without
    a seed."""
    mask = 2**64 - 1
    groups = 1
    while 9 * groups < count:
        groups *= 2
    found, i = [], 0
    while len(found) < count:
        i += 1
        x = (i * 0x9E3779B97F4A7C15 & mask) >> 2
        product = (x ^ 0x243F6A8885A308D3) * 0x9E3779B97F4A7C05
        folded = (product ^ product >> 64) & mask
        if ((folded ^ folded >> 32) & (groups - 1)) < max(1, groups // 128):
            found.append(x)
    return found


def far(nodes):
    """So many nodes below one another, each but the last in a set of its own with a number of some sixty bits, in no
    order."""
    numbers = random.Random(7).sample(range(2**40, 2**62), nodes - 1)
    return file_of([f'p "" 1 {k} {{ "" }} 0' for k in numbers] + ['t "" 0'])


def sets_of(numbers):
    """A node of each of these sets, one below the other."""
    return file_of([f'p "" 1 {number} {{ "" }} 0' for number in numbers] + ['t "" 0'])


def hurtful():
    """Files that are made to hurt, by what they are, with the status of an answer."""
    described = 'p "" 1 1 "set" { "on" } 0'
    return {
        "a million entries under one set": (chain(MOST_NODES, 'p "" 1 1 { "" } 0', 'p "" 1 1 0'), 1),
        "a million repeated descriptions": (chain(MOST_NODES, described, described), 1),
        "a million sets whose numbers have the same low bits": (sets_of(k << 41 for k in range(1, MOST_NODES)), 0),
        "a million sets whose numbers are far apart, in no order": (far(MOST_NODES), 0),
        "sets whose numbers collide in a table without a seed": (sets_of(colliding(2**16)), 0),
        "a name of 60 MB": (file_of(['t "' + "x" * 60_000_000 + '" 0']), 0),
        "a name of 30 million quotation marks": (file_of(['t "' + '\\"' * 30_000_000 + '" 0']), 0),
        "an outcome of a million digits": (file_of(['t "" ' + "0" * 1_000_000]), 0),
        "a payoff of 60 million digits": (file_of(['t "" 1 { 1' + "0" * 60_000_000 + " 0 }"]), 1),
        "a list of 15 million actions": (file_of(['p "" 1 1 {' + ' ""' * 15_000_000 + " } 0"]), 1),
        "a list of 20 million payoffs": (file_of(['t "" 1 {' + " 0" * 20_000_000 + " }"]), 1),
        "20 million players": (('EFG 2 R "" {' + ' ""' * 20_000_000 + " }").encode(), 1),
    }


# A process of its own starts each call, so that the memory of this one isn't counted.
PROBE = """
import os, sys, time
begin = time.perf_counter()
child = os.posix_spawnp(sys.argv[1], sys.argv[1:], os.environ,
    file_actions=[(os.POSIX_SPAWN_OPEN, fd, "/dev/null", os.O_WRONLY, 0) for fd in (1, 2)])
_, status, usage = os.wait4(child, 0)
passed, work = time.perf_counter() - begin, usage.ru_utime + usage.ru_stime
print(passed, usage.ru_maxrss * 1024, os.waitstatus_to_exitcode(status), work)
"""


def run(words):
    """The time, the greatest resident memory in bytes, the status and the processor's time of a call."""
    told = subprocess.run([sys.executable, "-S", "-c", PROBE, *words], capture_output=True, text=True, check=True)
    seconds, memory, status, work = told.stdout.split()
    return float(seconds), int(memory), int(status), float(work)


def best(words, runs, want):
    """The best time and the most memory of a call."""
    seconds, memory, _ = best_in_turn([words], runs, want)[0]
    return seconds, memory


def best_in_turn(calls, runs, want):
    """The best time, the most memory and the best processor's time of each call. The calls take turns, so that a change
    of the machine's speed meets all of them."""
    turns = [[run(words) for words in calls] for _ in range(runs)]
    for words, results in zip(calls, zip(*turns)):
        for result in results:
            assert result[2] == want, (words, result[2])
    return [
        (min(r[0] for r in results), max(r[1] for r in results), min(r[3] for r in results)) for results in zip(*turns)
    ]


def main():
    parser = command_line.parser(__doc__)
    parser.add_argument("--runs", type=int, default=5)
    parser.add_argument("--beside", metavar="PROGRAM")
    given = parser.parse_args()
    runs, beside = given.runs, given.beside
    os.environ["LC_ALL"] = "C"
    failed = passed = 0

    def report(what, measure, bound, unit):
        nonlocal failed, passed
        ok = measure <= bound
        passed, failed = passed + ok, failed + (not ok)
        print(f"{'ok  ' if ok else 'FAIL'} {what}: {measure:.2f} {unit} (at most {bound})")

    with tempfile.TemporaryDirectory() as folder:
        folder = pathlib.Path(folder)

        def write(name, data):
            path = folder / name
            path.write_bytes(data)
            return str(path)

        def words_of(path):
            return [str(PROGRAM), "solve", path, "--rounds", "0"]

        def solve(path, want=0):
            return best(words_of(path), runs, want)

        def against_other(what, path):
            if not beside:
                return
            both = [[program, "solve", path, "--rounds", "0"] for program in (str(PROGRAM), beside)]
            turns = [list(map(run, both)) for _ in range(runs)]
            least = [[min(turn[who][k] for turn in turns) for who in (0, 1)] for k in (0, 3)]
            time_ratio, work_ratio = (ours / other for ours, other in least)
            print(f"     {what}, against {beside}: {time_ratio:.2f} times the time, {work_ratio:.2f} times the work")

        def against_words(what, path, want):
            ours, memory = solve(path, want)
            words, _ = best(["wc", "-w", path], runs, 0)
            beside_words = f"{what}, against wc -w ({ours:.3f} s, {words:.3f} s, {memory} bytes of memory)"
            report(beside_words, ours / max(words, 0.001), 6, "times")

        for kind, make in (("wide", wide), ("cards", rounds_of_cards), ("binary", binary)):
            paths = {nodes: write(f"{kind}_{nodes}.efg", make(nodes - 1 + nodes % 2)) for nodes in SIZES}
            measures = best_in_turn([words_of(path) for path in paths.values()], TURNS * runs, 0)
            work = {}
            for (nodes, path), (seconds, memory, work[nodes]) in zip(paths.items(), measures):
                size = os.path.getsize(path)
                print(f"     {kind}, {nodes} nodes, {size} bytes: {seconds:.3f} s, {memory} bytes of memory")
                if nodes > SIZES[0]:
                    report(f"{kind}, {nodes} nodes against half of them", work[nodes] / work[nodes // 2], 2.3, "times")
                report(f"{kind}, memory at {nodes} nodes beside the file", (memory - size) / nodes, 400, "bytes a node")
            against_words(f"{kind}, {size} bytes", path, 0)
            against_other(kind, path)

        path = write("rare.efg", rare(200_000))
        seconds, memory = solve(path)
        size = os.path.getsize(path)
        print(f"     200,000 leaves of rare deals, {size} bytes: {seconds:.3f} s, {memory} bytes of memory")
        path = write("long_names.efg", wide(524_288, "a name of a node that is somewhat longer"))
        against_words(f"long names, {os.path.getsize(path)} bytes", path, 0)
        against_other("long names", path)
        for what, (data, want) in hurtful().items():
            against_words(what, write("hurtful.efg", data), want)

        path = write("too_long.efg", b" " * (MOST_BYTES + 1))
        seconds, memory = solve(path, 1)
        what = f"memory at {MOST_BYTES + 1} bytes, which are refused ({seconds:.3f} s)"
        report(what, memory / MOST_BYTES, 1.5, "times the file")
    print(f"{passed} passed, {failed} failed")
    return 1 if failed else 0


if __name__ == "__main__":
    resource.setrlimit(resource.RLIMIT_CORE, (0, 0))
    sys.exit(main())
