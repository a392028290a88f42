"""What the words of `./plan` share: sentences on standard error, decks from files, texts to standard output."""

import argparse
import os
import sys
from typing import Optional

from .deck import Deck
from .faults import Fault, in_file
from .session import Session
from .text import escaped


def tell(sentence: str) -> None:
    """A sentence on standard error, with control characters as `\\x1b`."""
    print(f"{_cleared()}{escaped(sentence)}", file=sys.stderr, flush=True)


def _cleared() -> str:
    """What clears a line of progress on a terminal."""
    return "\r\x1b[K" if sys.stderr.isatty() else ""


def progress(sentence: str) -> None:
    """How far it is, on standard error: a line, or the same line of a terminal."""
    if sys.stderr.isatty():
        print(f"{_cleared()}{escaped(sentence)}", end="", file=sys.stderr, flush=True)
    else:
        tell(sentence)


def write(text: str) -> None:
    """A text to standard output, in UTF-8 whatever the locale, whole; on a terminal with control characters escaped."""
    sys.stdout.flush()
    if sys.stdout.isatty():
        text = "\n".join(escaped(line) for line in text.split("\n"))
    data = text.encode("utf-8", "replace")
    while data:
        data = data[os.write(sys.stdout.fileno(), data):]


def read_file(path: str) -> bytes:
    """The bytes of a file, `-` for standard input."""
    try:
        if path == "-":
            return sys.stdin.buffer.read()
        with open(path, "rb") as file:
            return file.read()
    except OSError as error:
        raise Fault(f"{path} can't be read: {error.strerror}") from error


def open_session(path: str, args: argparse.Namespace, workers: Optional[int] = None) -> Session:
    """A session of the deck in a file; a fault of it has the file's name, and name lines that are left are told."""
    data = read_file(path)
    try:
        count = workers or int(getattr(args, "workers", 1))
        return Session(data, count, args.program, lambda said: tell(f"{path}, {said}"))
    except Fault as fault:
        raise in_file(path, fault) from fault


def read_deck_file(path: str, args: argparse.Namespace) -> Deck:
    """The deck of a file, once the program has accepted it, with its names and comments."""
    with open_session(path, args, 1) as session:
        return session.given


def add_program(parser: argparse.ArgumentParser) -> None:
    """The argument --program of a word within a word."""
    parser.add_argument("--program", metavar="FILE", default=argparse.SUPPRESS,
                        help="the program transyt, built, or the script that builds it")


def workers(word: str) -> int:
    """The number of workers that a word tells, 1 to 8."""
    if word not in ("1", "2", "3", "4", "5", "6", "7", "8"):
        raise argparse.ArgumentTypeError(f"{word} is none of 1 to 8")
    return int(word)


def add_workers(parser: argparse.ArgumentParser) -> None:
    """The argument --workers."""
    count = min(8, len(os.sched_getaffinity(0)) if hasattr(os, "sched_getaffinity") else os.cpu_count() or 1)
    parser.add_argument("--workers", type=workers, default=count, metavar="W",
                        help=f"workers of the program, 1 to 8 ({count})")
