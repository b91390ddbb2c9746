"""What the proof of a crate takes, by what it leaves behind: no load on the machine changes that.

A proof takes processor seconds for itself, for each crate below and for each megabyte of the modules that its check
keeps in out/incremental. The seconds are those of one machine; what they stand for on another is a ratio.
"""
import pathlib

ROOT = pathlib.Path(__file__).resolve().parent.parent.parent
OF_A_PROOF, OF_A_CRATE_BELOW, OF_A_MEGABYTE = 8, 0.55, 2.05
# What a line of code leaves, where nothing is kept.
MEGABYTES_OF_A_LINE = 0.094


def kept(crate):
    """The megabytes of the modules that checks of the crate keep, or none where they keep nothing."""
    folder = ROOT / "crates" / crate / "out" / "incremental"
    modules = [it for it in folder.rglob("*.oantt") if "records" not in it.parts]
    return sum(it.stat().st_size for it in modules) / 1e6 if modules else None


def by_lines(crate):
    """The megabytes that the proof of so many lines of code keeps, more or less."""
    files = (ROOT / "crates" / crate / "src").rglob("*.rt")
    return MEGABYTES_OF_A_LINE * sum(it.read_text(errors="replace").count("\n") for it in files)


def parts(below, megabytes):
    """The seconds of a proof that no further job shortens, and those that jobs share."""
    return OF_A_PROOF + OF_A_CRATE_BELOW * below, OF_A_MEGABYTE * megabytes
