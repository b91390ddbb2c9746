"""Calls of the tools of tools/, within this process, so that many of them take little time; of both checkers; and what
all of them say of a game and a certificate."""
import importlib.machinery
import importlib.util
import io
import pathlib
import signal
import sys

from checks import ROOT, call, settings

import certificate

LOADED = {}


def module(name):
    """The module of a tool whose file has no ending."""
    if name not in LOADED:
        loader = importlib.machinery.SourceFileLoader(f"tool_{name}", str(ROOT / "tools" / name))
        LOADED[name] = importlib.util.module_from_spec(importlib.util.spec_from_loader(loader.name, loader))
        loader.exec_module(LOADED[name])
    return LOADED[name]


def stream(data=b""):
    return io.TextIOWrapper(io.BytesIO(data), "utf-8", write_through=True)


def tool(name, *words, stdin=b""):
    """The status, the standard output and the standard error of a tool that is called with these words."""
    kept = sys.argv, sys.stdin, sys.stdout, sys.stderr, signal.getsignal(signal.SIGPIPE)
    out, said = stream(), stream()
    sys.argv = [str(ROOT / "tools" / name), *map(str, words)]
    sys.stdin, sys.stdout, sys.stderr = stream(stdin), out, said
    try:
        status = module(name).main()
    except SystemExit as end:
        status = end.code or 0
    finally:
        sys.argv, sys.stdin, sys.stdout, sys.stderr = kept[:4]
        signal.signal(signal.SIGPIPE, kept[4])
    return status, out.buffer.getvalue(), said.buffer.getvalue()


def in_version(number, data):
    """A text as this version has it."""
    text = certificate.read_text(data)
    text.form = f"XGCERT {number}"
    text.second = text.bracket_of_two() if text.rounds else None
    return certificate.text_of(text)


def accepted(text):
    """What both checkers answer to a text that they accept."""
    return f"accepted {text.low} {text.high}" if text.rounds else "accepted no bounds"


def expect_both(checks, what, game, file, answer):
    """The program and the other checker have this answer to a certificate; and `upgrade` is refused alike, or writes
    version 2 of it."""
    line = f"{answer}\n".encode()
    wanted = (0, line, b"") if answer.startswith("accepted") else (1, b"", line)
    checks.expect(what, call(["check", str(game), str(file)]), *wanted)
    checks.expect(f"{what}, by the other checker", tool("check_certificate", game, file), *wanted)
    if answer.startswith("accepted"):
        wanted = (0, in_version(2, pathlib.Path(file).read_bytes()), b"")
    checks.expect(f"{what}, upgraded", call(["upgrade", str(game), str(file)]), *wanted)


class Files:
    """A game and a certificate, and what the program, the other checker and the tools say of them."""

    def __init__(self, checks, folder):
        self.checks, self.game, self.certificate = checks, folder / "game.efg", folder / "certificate"

    def call(self, command, *words):
        return call([command, str(self.game), *map(str, words)])

    def play(self, command, rounds, every, scale, *words):
        return self.call(command, *settings(rounds, every, scale), *words)

    def check(self, what, answer):
        """Both checkers have this answer, and `upgrade` is refused alike."""
        expect_both(self.checks, what, self.game, self.certificate, answer)

    def check_text(self, what, data, answer):
        """They have this answer to this certificate."""
        self.certificate.write_bytes(data)
        self.check(what, answer)

    def comes_back(self, what, data):
        """What the tools read of a text, which they write again as it is."""
        read = certificate.read_text(data)
        self.checks.that(f"{what}, read", certificate.text_of(read) == data, "it comes back otherwise")
        return read

    def accepted(self, what, data):
        """A text comes back from the tools, and is accepted with its bracket."""
        read = self.comes_back(what, data)
        self.check_text(f"{what}, checked", data, accepted(read))
        return read
