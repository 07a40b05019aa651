"""Words, files and the one line of a fault, for all three programs.

A fault ends a program with one line on standard error and a status: 2 where the words ask for nothing or a package is
missing, 3 where a file cannot be read, 4 where the output cannot be written, 5 where a file is not what it has to be,
7 where there was no memory. Outputs are written by `writing`.
"""
import argparse
import errno
import os
import sys
from collections.abc import Callable, Sequence
from typing import BinaryIO, NoReturn, TextIO, TypeVar

from . import VERSION

USAGE, UNREAD, UNWRITTEN, BAD = 2, 3, 4, 5
NO_MEMORY = 7
Kind = TypeVar("Kind")

INSTALLED = "permit-view-"


def own_name() -> str:
    """The name by which the program was started."""
    return os.path.basename(sys.argv[0])


def other_name(name: str) -> str:
    """The name of another of the three programs, where it is installed and in the repository."""
    return (INSTALLED if own_name().startswith(INSTALLED) else "view/") + name


class Fault(Exception):
    """What is wrong and what to do, in one line, and the status."""

    def __init__(self, status: int, line: str) -> None:
        super().__init__(line)
        self.status = status


def missing(name: str, package: str) -> Fault:
    """A package that is not installed."""
    return Fault(USAGE, f"{name} is not installed: install the Debian package {package}")


class Parser(argparse.ArgumentParser):
    """A parser of words whose fault is one line, as any other."""

    def error(self, message: str) -> NoReturn:
        raise Fault(USAGE, f"{message}: --help says how it is used")


def parser(name: str, text: str) -> argparse.ArgumentParser:
    """A parser of words with the options that all three have."""
    made = Parser(prog=name, description=text, formatter_class=argparse.RawDescriptionHelpFormatter)
    made.add_argument("--version", action="version", version=f"{name} {VERSION}, not proved")
    return made


def read(path: str) -> bytes:
    """All bytes of a file, or of standard input where the path is `-`."""
    return read_by(path, lambda file: file.read())


def read_by(path: str, reader: Callable[[BinaryIO], Kind]) -> Kind:
    """What a reader takes from a file, or from standard input where the path is `-`."""
    try:
        if path == "-":
            return reader(binary(sys.stdin))
        with open(path, "rb") as file:
            return reader(file)
    except OSError as fault:
        raise Fault(UNREAD, f"{shown_path(path)} cannot be read: {fault.strerror}") from fault


def binary(stream: TextIO | None) -> BinaryIO:
    """The bytes of a standard stream, where it was not closed before the program began."""
    if stream is None:
        raise OSError(errno.EBADF, os.strerror(errno.EBADF))
    return stream.buffer


def shown_path(path: str) -> str:
    """A path as it may be shown: what a terminal would obey is escaped."""
    return "standard input" if path == "-" else printable(path)


def printable(text: str) -> str:
    """A text in which nothing is left that a terminal would obey."""
    return "".join(
        letter if letter.isprintable() else letter.encode("unicode_escape", "backslashreplace").decode()
        for letter in text
    )


def run(main: Callable[[Sequence[str]], int], name: str) -> int:
    """Runs a program, and says its fault in one line. A reader of the output who has gone is no fault."""
    try:
        return main(sys.argv[1:])
    except Fault as fault:
        tell(f"{name}: {printable(str(fault))}")
        return fault.status
    except MemoryError:
        tell(f"{name}: there was no memory: end other programs, or give this one more")
        return NO_MEMORY
    except BrokenPipeError:
        sink: BinaryIO = open(os.devnull, "wb")
        os.dup2(sink.fileno(), sys.stdout.fileno())
        return UNWRITTEN


def tell(line: str) -> None:
    """Says a line on standard error, where that is open."""
    if sys.stderr is not None:
        print(line, file=sys.stderr)
