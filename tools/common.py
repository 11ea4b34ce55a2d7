"""What the tools of this folder share: the repository's root, options, and the one line said on bad input."""
import argparse
import pathlib
import re
import signal
import sys

ROOT = pathlib.Path(__file__).resolve().parent.parent
signal.signal(signal.SIGPIPE, signal.SIG_DFL)  # a reader that has seen enough is no fault


def fail(message):
    """Ends the tool with one line on standard error and status 2."""
    print(f"{pathlib.Path(sys.argv[0]).name}: {message}", file=sys.stderr)
    sys.exit(2)


class Options(argparse.ArgumentParser):
    """Options whose errors are one line."""

    def __init__(self, description):
        super().__init__(description=description, formatter_class=argparse.RawDescriptionHelpFormatter, allow_abbrev=False)

    def error(self, message):
        fail(message)


def repository(given):
    """The folder given, or this repository; it must have crates."""
    folder = pathlib.Path(given) if given else ROOT
    if not (folder / "crates").is_dir():
        fail(f"{folder} has no folder crates")
    return folder


def crate_names(root):
    return sorted(p.name for p in (root / "crates").iterdir() if p.is_dir())


def known_crate(root, name):
    if name not in crate_names(root):
        fail(f"no crate {name}; crates: {' '.join(crate_names(root))}")
    return name


def at_least_one(word):
    """A number of 1 or more, for an option."""
    if not re.fullmatch(r"[1-9][0-9]*", word):
        raise argparse.ArgumentTypeError(f"{word} is not a number of 1 or more")
    return int(word)


def code_lines(text):
    """The lines that are neither blank nor a comment of their own."""
    return [line for line in text.split("\n") if line.strip() and not line.strip().startswith(("//", "--"))]
