"""What the helpers of this folder and of vectors/ have in common: their arguments, and the program that they ask. It is not proved."""

import argparse
import os
import re
import signal
import sys
from typing import Callable, NoReturn

# Texts are UTF-8 with line feeds, whatever the locale says.
for stream in (sys.stdin, sys.stdout, sys.stderr):
    if hasattr(stream, "reconfigure"):
        stream.reconfigure(encoding="utf-8", errors="backslashreplace" if stream is sys.stderr else "surrogateescape", newline="\n")

# A reader that has read enough, as head, ends the helper.
signal.signal(signal.SIGPIPE, signal.SIG_DFL)

NAME = os.path.basename(sys.argv[0])


def fail(why: str, status: int = 2) -> NoReturn:
    """Says in one line what is wrong, and ends."""
    print(f"{NAME}: {why}", file=sys.stderr)
    sys.exit(status)


class Arguments(argparse.ArgumentParser):
    """The arguments of a helper. --help shows the text at the top of its file, and an error is one line."""

    def __init__(self, text: str) -> None:
        super().__init__(prog=NAME, description=text, formatter_class=argparse.RawDescriptionHelpFormatter)

    def error(self, message: str) -> NoReturn:
        fail(f"{message}; {NAME} --help says more")


def program(path: str) -> str:
    """The kind of an argument that names the program."""
    if not os.access(path, os.X_OK) or os.path.isdir(path):
        raise argparse.ArgumentTypeError(f"there is no program {path}")
    return os.path.realpath(path)


def file(path: str) -> str:
    """The kind of an argument that names a file to read."""
    try:
        with open(path, "rb"):
            return path
    except OSError as why:
        raise argparse.ArgumentTypeError(f"{path} can't be read: {why.strerror}") from why


def number(least: int, most: int) -> Callable[[str], int]:
    """The kind of an argument that is a number from `least` to `most`."""

    def kind(text: str) -> int:
        if not re.fullmatch("[0-9]{1,20}", text) or not least <= int(text) <= most:
            raise argparse.ArgumentTypeError(f"{text} is no number from {least:,} to {most:,}")
        return int(text)

    return kind
