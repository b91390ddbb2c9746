"""The words of a tool: what each tool says of itself, and the version."""
import argparse
import pathlib

VERSION = pathlib.Path(__file__).resolve().parents[2] / "VERSION"


class SayVersion(argparse.Action):
    """Says the version, which is read no sooner than it is asked for."""

    def __init__(self, *words, **given):
        super().__init__(*words, **given, nargs=0)

    def __call__(self, parser, *_):
        print(parser.prog, VERSION.read_text().strip())
        parser.exit()


def parser(about, **given):
    """The parser of a tool's words. The text about the tool is laid out as it is."""
    made = argparse.ArgumentParser(description=about, formatter_class=argparse.RawDescriptionHelpFormatter, **given)
    made.add_argument("--version", action=SayVersion, help="say the version and exit")
    return made
