"""What a program says of a journal: its own audit, asked before there is a page.

The program is run by its path, and its sha256 is taken before and after. So the sum that the page shows is that of the
file which was run. Whether this is the program that was proved, nothing but the sum can tell.
"""
import hashlib
import os
import re
import subprocess
import tempfile
from dataclasses import dataclass

from model.records import MOST_BYTES

from .command import BAD, USAGE, Fault, printable, read, shown_path

WORD = "audit"
NOT_LEGAL = 9
# longer lines are no answer of an audit
MOST_LINE = 200


@dataclass(frozen=True)
class Audited:
    """A program that calls a journal legal: its name, its sha256, and whether it is a script that may start others."""

    name: str
    sum: str
    entries: int
    is_script: bool


def audit(path: str, journal: bytes, day: bytes, journal_path: str, entries: int) -> Audited:
    """Has a program audit a journal with its day file behind it. What is not legal is a fault of status 9."""
    shown = shown_path(path)
    data = read(path)
    if len(journal) + len(day) > MOST_BYTES:
        raise Fault(
            BAD,
            f"{shown} audits at most {MOST_BYTES:,} bytes of a journal and its day file, and these have "
            f"{len(journal) + len(day):,}: without --program the page says that it is not audited",
        )
    status, line = said_by(path, shown, journal + day)
    if hashlib.sha256(read(path)).digest() != hashlib.sha256(data).digest():
        raise Fault(BAD, f"{shown} changed while it was run: run this again")
    if status == NOT_LEGAL:
        raise Fault(NOT_LEGAL, f"{journal_path}: {line}{entry_text(line, journal)} ({shown} {WORD})")
    if status != 0 or line != f"legal {entries}":
        raise Fault(BAD, f"{shown} {WORD} does not say that {journal_path} is legal: status {status}, {line}")
    return Audited(printable(os.path.basename(path)), hashlib.sha256(data).hexdigest(), entries, data.startswith(b"#!"))


def said_by(path: str, shown: str, data: bytes) -> tuple[int, str]:
    """The status of a program's audit, and its line. What writes more than a line is stopped."""
    with tempfile.TemporaryFile() as file:
        file.write(data)
        file.seek(0)
        try:
            ran = subprocess.Popen(
                [os.path.abspath(path), WORD], stdin=file, stdout=subprocess.PIPE, stderr=subprocess.DEVNULL
            )
        except OSError as fault:
            raise Fault(USAGE, f"{shown} cannot be run: {fault.strerror}") from fault
        with ran:
            assert ran.stdout is not None
            text = ran.stdout.read(MOST_LINE + 1)
            if len(text) > MOST_LINE:
                ran.kill()
    line = printable(text[:MOST_LINE].decode("utf-8", "backslashreplace").removesuffix("\n"))
    return ran.returncode, line or "no line"


def entry_text(line: str, journal: bytes) -> str:
    """The entry of which an audit speaks, as it stands in the journal."""
    found = re.fullmatch("not legal: entry ([1-9][0-9]{0,8})", line)
    lines = journal.split(b"\n")
    if found is None or int(found[1]) >= len(lines):
        return ""
    text = lines[int(found[1])][:MOST_LINE].decode("utf-8", "backslashreplace")
    return f", line {int(found[1]) + 1} of it: {text}"
