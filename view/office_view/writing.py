"""Outputs, written whole or not at all, and never onto an input.

An output goes into a new file beside the one that is meant, and takes its place when all of it is written. So whoever
opens it sees the old one or the new one, and a full disk leaves the old one as it is. What can have nothing beside it,
as a pipe, a device or `/dev/stdout`, is written to as it stands.
"""
import os
import secrets
import stat
import sys
from collections.abc import Sequence

from .command import UNWRITTEN, USAGE, Fault, binary, shown_path

STANDARD = "-"
# what stands here is no file that could be replaced: other programs have it open
OPEN_ELSEWHERE = ("/dev/", "/proc/")
STANDARD_OUTPUT = ("/dev/stdout", "/dev/fd/1", "/proc/self/fd/1")


def write(path: str | None, data: bytes, inputs: Sequence[str | None] = ()) -> None:
    """Writes to a file, or to standard output where there is no path. Each of `inputs` is a path that was read, `-` for
    standard input; none of them is written onto."""
    path = None if path in STANDARD_OUTPUT else path
    try:
        refuse_an_input(path, inputs)
        if path is None:
            output = binary(sys.stdout)
            output.write(data)
            output.flush()
        else:
            write_file(path, data)
    except BrokenPipeError:
        raise
    except OSError as fault:
        raise Fault(UNWRITTEN, f"{shown_output(path)} cannot be written: {fault.strerror}") from fault


def shown_output(path: str | None) -> str:
    """An output as it is named in a fault: control characters of a file name are escaped."""
    return "standard output" if path is None else shown_path(path) or "a file without a name"


def identity(path: str) -> os.stat_result | None:
    """What tells one file from another, or nothing where there is none."""
    try:
        return os.fstat(0) if path == STANDARD else os.stat(path)
    except OSError:
        return None


def refuse_an_input(path: str | None, inputs: Sequence[str | None]) -> None:
    """A fault where the output is a file that was read, by whatever name: links count as what they lead to."""
    try:
        output = os.fstat(binary(sys.stdout).fileno()) if path is None else os.stat(path)
    except (OSError, ValueError):
        return
    if not stat.S_ISREG(output.st_mode):
        return
    for name in inputs:
        read = identity(name) if name is not None else None
        if read is not None and os.path.samestat(output, read):
            shown = shown_path(name or "")
            raise Fault(USAGE, f"{shown_output(path)} is the input {shown} too: give the output another name")


def write_file(path: str, data: bytes) -> None:
    """Writes a file whole. A link stays one, and what it leads to is replaced."""
    place = os.path.realpath(path)
    try:
        mode = os.stat(place).st_mode
    except FileNotFoundError:
        mode = 0
    if mode and not stat.S_ISREG(mode) or os.path.abspath(path).startswith(OPEN_ELSEWHERE):
        with open(path, "wb") as file:
            file.write(data)
        return
    beside = os.path.join(os.path.dirname(place), f".permit-view-{secrets.token_hex(8)}")
    try:
        # as open() would make it, with what the user's mask leaves; and never a file that is there
        with open(os.open(beside, os.O_WRONLY | os.O_CREAT | os.O_EXCL, 0o666), "wb") as file:
            if mode:
                os.fchmod(file.fileno(), stat.S_IMODE(mode))
            file.write(data)
            file.flush()
            os.fsync(file.fileno())
        os.replace(beside, place)
    except BaseException:
        remove(beside)
        raise


def remove(path: str) -> None:
    """Takes away a file that was begun, where it is there."""
    try:
        os.unlink(path)
    except OSError:
        pass
