"""The toolchain's command rt as a module, and as a command that takes the sum of each crate once.

The sum of a crate has those of all that it stands on. The command takes that of each crate below once for each way
that leads there, which are thousands in this repository; here it takes it once. Called with words, this runs rt so."""
import importlib.machinery
import importlib.util
import os
import shutil
import sys
import threading

sys.dont_write_bytecode = True


def once(whole):
    """A sum that is taken at once of all crates, and of each once."""
    kept, lock, depth = {}, threading.RLock(), []

    def stamp(crate):
        with lock:
            depth.append(crate)
            try:
                if crate.folder not in kept:
                    kept[crate.folder] = whole(crate)
                return kept[crate.folder]
            finally:
                depth.pop()
                if not depth:
                    kept.clear()

    return stamp


def found_once(whole):
    """The crates below one, which are the same as long as this runs."""
    kept = {}

    def below(crate):
        if id(crate) not in kept:
            kept[id(crate)] = crate, whole(crate)
        return [*kept[id(crate)][1]]

    return below


def load():
    loader = importlib.machinery.SourceFileLoader("rt", os.path.realpath(shutil.which("rt")))
    toolchain = importlib.util.module_from_spec(importlib.util.spec_from_loader("rt", loader))
    loader.exec_module(toolchain)
    crate = toolchain.rtlib.Crate
    crate.stamp, crate.below = once(crate.stamp), found_once(crate.below)
    return toolchain


def main(words):
    try:
        toolchain = load()
    except Exception:
        # A command of another make is called as it is.
        os.execvp("rt", ["rt", *words])
    sys.argv[0] = toolchain.__file__
    return toolchain.main(words)


if __name__ == "__main__":
    sys.exit(main(sys.argv[1:]))
