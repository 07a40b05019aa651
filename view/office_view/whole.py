"""What is wrong with a file as a whole, so that nothing has to be said of its rows: it is a workbook, its text is in
UTF-16, its columns are separated by semicolons, its rows were sorted, it is too large.
"""
import os
import re
import stat
from collections.abc import Sequence
from dataclasses import dataclass
from typing import BinaryIO

from model.records import MOST_BYTES, unmarked

from .command import printable, read_by
from .sayings import SEPARATORS
from .sheet import kind_of, kinds_of_all, plain_kind

SAVE = "save the sheet as CSV, with commas, in UTF-8"
UTF_16 = "the text is in UTF-16, not in UTF-8: save it as CSV in UTF-8"
MAGIC = (
    (b"PK\x03\x04", f"this is a workbook of a spreadsheet (xlsx, ods) or another ZIP archive: {SAVE}"),
    (b"\xd0\xcf\x11\xe0", f"this is a workbook of an old spreadsheet (xls): {SAVE}"),
    (b"\x1f\x8b", "this is a file compressed by gzip: unpack it"),
    (b"%PDF", f"this is a PDF file: {SAVE}"),
    (b"{\\rtf", f"this is a text of a word processor (RTF): {SAVE}"),
    (b"\x89PNG", f"this is a picture: {SAVE}"),
    (b"\xff\xd8\xff", f"this is a picture: {SAVE}"),
    (b"\xff\xfe", UTF_16),
    (b"\xfe\xff", UTF_16),
)
MARKUP = re.compile(rb"\s*<(\?xml|!doctype|html|table|office:)", re.I)
LOOKED_AT = 200
LEAST_KINDS = 3


@dataclass(frozen=True)
class Input:
    """What was read, up to a byte more than a file may have; and how many bytes there are, where that is known."""

    data: bytes
    size: int | None


def read(path: str) -> Input:
    """Reads a file or standard input, and no more of it than has to be known."""
    return read_by(path, read_from)


def read_from(file: BinaryIO) -> Input:
    status = os.fstat(file.fileno())
    size = status.st_size if stat.S_ISREG(status.st_mode) else None
    data = file.read(MOST_BYTES + 1)
    return Input(data, size if len(data) > MOST_BYTES else len(data))


def verdict(given: Input) -> str | None:
    """What is wrong with a file as a whole, or nothing."""
    data = given.data
    for magic, text in MAGIC:
        if data.startswith(magic):
            return text
    if MARKUP.match(unmarked(data[:LOOKED_AT])):
        return f"this is a page or a workbook in HTML or XML: {SAVE}"
    if len(data) > MOST_BYTES:
        has = f"{given.size:,} bytes" if given.size else "more bytes than that"
        return f"a file has at most {MOST_BYTES:,} bytes, and this one has {has}: split it"
    if data[:LOOKED_AT].count(0) * 3 > len(data[:LOOKED_AT]):
        return UTF_16
    return separated(unmarked(data))


def separated(text: bytes) -> str | None:
    """Whether the columns are separated by something else than the comma."""
    lines = [line for line in re.split(rb"[\r\n]+", text[:MOST_BYTES // 16])[:LOOKED_AT] if line]
    said = re.fullmatch(rb'"?sep=(.)"?[,;\t]*', lines[0], re.I) if lines else None
    first = printable(lines[0].decode("utf-8", "replace")) if lines else ""
    more = "" if said is None else f", and the first line {first} is no row: take it out"
    rows = lines[said is not None:]
    if sum(re.fullmatch(rb'"[^"]*,[^"]*"', row) is not None for row in rows) * 2 > len(rows):
        return "each row stands in one cell, commas and all: part column A into columns at its commas"
    if begun_by_kinds(rows, b",") * 2 >= len(rows):
        return None
    for separator, name in SEPARATORS:
        if begun_by_kinds(rows, separator) * 2 > len(rows):
            return f"the columns are separated by {name}: save the sheet with the comma as separator{more}"
    return None


def begun_by_kinds(rows: list[bytes], separator: bytes) -> int:
    """How many rows begin with a kind, and have this separator behind it."""
    parted = [row.split(separator) for row in rows if separator in row]
    return sum(plain_kind(kind_of(row)) in kinds_of_all() for row in parted)


def sorted_rows(kinds: Sequence[str]) -> str | None:
    """Whether rows were sorted by their kinds."""
    known = [kind for kind in kinds if kind in kinds_of_all()]
    if "day" in known and known[0] != "day" and known == sorted(known) and len(set(known)) >= LEAST_KINDS:
        return (
            "the rows were sorted by column A: undo it. The day comes first, the end last, and what is named stands "
            "above the rows that name it"
        )
    return None
