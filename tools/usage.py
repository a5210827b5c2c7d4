"""How the tools begin, and how they end where a file, a number or a reader isn't there."""

import argparse
import os
import pathlib
import signal
import sys


class Words(argparse.ArgumentParser):
    """The words after a tool's name, of which some are options. A wrong one is told in a line, with status 2."""

    def __init__(self):
        super().__init__(usage=argparse.SUPPRESS, add_help=False, allow_abbrev=False)

    def error(self, message):
        ends(message, 2)


def ends(what, status=1):
    """Ends a tool, which says what is wrong."""
    sys.stderr.write(f"{pathlib.Path(sys.argv[0]).name}: {what}; --help tells how it is called\n")
    sys.exit(status)


def helps(text):
    """With --help a tool says its own text alone. A reader that stops early, as `head` does, ends it without a word."""
    signal.signal(signal.SIGPIPE, signal.SIG_DFL)
    if "--help" in sys.argv[1:]:
        print(text.strip())
        sys.exit(0)


def words(text, least, most=None):
    """The words after a tool's name, of which it takes so many at least and, where that is told, at most."""
    helps(text)
    given = sys.argv[1:]
    if len(given) < least or most is not None and len(given) > most:
        takes = f"{least} or more" if most is None else least if least == most else f"{least} to {most}"
        ends(f"{len(given)} words where it takes {takes}")
    return given


def number(word, least=0):
    """The number that a word is."""
    if not (word.isascii() and word.isdigit() and int(word) >= least):
        ends(f"`{word}` is no number from {least} on")
    return int(word)


def program(word):
    """The path of a program, from the top, which is there and can be run."""
    path = pathlib.Path(word).resolve()
    if not os.access(path, os.X_OK) or path.is_dir():
        ends(f"`{word}` is no program")
    return str(path)


def runs(main):
    """Runs a tool; a file or a program that can't be read or run ends it with a line, and not with a trace."""
    try:
        sys.exit(main())
    except OSError as reason:
        ends(f"{reason.filename}: {reason.strerror}")
