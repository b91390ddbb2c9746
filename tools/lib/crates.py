"""The crates of a repository and what each stands on, as its crates.txt lists them, lowest first."""
import pathlib

ROOT = pathlib.Path(__file__).resolve().parents[2]


def uses(root=ROOT):
    """For each crate those that it names, the toolchain's too."""
    lines = [it.partition("#")[0].partition(":") for it in (root / "crates.txt").read_text().splitlines()]
    return {name.strip(): named.split() for name, colon, named in lines if colon}


def below(root=ROOT):
    """For each crate those of the repository that it stands on, each once and behind what that stands on itself."""
    found = {}
    for name, named in uses(root).items():
        named = [it for it in named if it in found]
        found[name] = [*dict.fromkeys(it for other in named for it in [*found[other], other])]
    return found
