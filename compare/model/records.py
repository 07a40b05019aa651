"""From bytes to records: comma-separated text as the Rust crate `csv` reads it by default, without a header row.

A quote opens a quoted field only as the first byte of the field; anywhere else in a field that is not quoted it stands
for itself. In a quoted field two quotes are one. What follows the closing quote, up to the next comma or line end,
belongs to the field. A quote that is never closed runs to the end of the text, and that is no mistake. A line end is a
line feed, a carriage return or both. A line with nothing in it is no record.
"""
import re
from collections.abc import Iterator

MARK = b"\xef\xbb\xbf"
MOST_BYTES = 4194304
PLAIN, QUOTED, CLOSED = range(3)


def unmarked(data: bytes) -> bytes:
    """The text behind the byte order mark, where it begins with one."""
    return data[len(MARK):] if data.startswith(MARK) else data


def records(data: bytes) -> list[list[bytes]]:
    """The records of some bytes, each a list of fields of bytes."""
    return [fields for _, fields in placed_records(data)]


def placed_records(data: bytes) -> Iterator[tuple[int, list[bytes]]]:
    """The same, each with the place of its first byte in the text behind the byte order mark."""
    data = unmarked(data)
    if b'"' not in data:
        return ((line.start(), line[0].split(b",")) for line in re.finditer(b"[^\r\n]+", data))
    return quoted_records(data)


def quoted_records(data: bytes) -> Iterator[tuple[int, list[bytes]]]:
    """The same where quotes stand in the text, byte by byte."""
    fields: list[bytes] = []
    field, how, begun, first = bytearray(), PLAIN, False, 0
    for at in range(len(data)):
        byte = data[at:at + 1]
        if how == QUOTED:
            if byte == b'"':
                how = CLOSED
            else:
                field += byte
        elif byte == b'"' and how == CLOSED:
            field += byte
            how = QUOTED
        elif byte == b'"' and how == PLAIN and not field:
            how, begun = QUOTED, True
        elif byte == b",":
            fields.append(bytes(field))
            field, how, begun = bytearray(), PLAIN, True
        elif byte in b"\r\n":
            if begun:
                yield first, fields + [bytes(field)]
            fields, field, how, begun, first = [], bytearray(), PLAIN, False, at + 1
        else:
            field += byte
            how, begun = PLAIN, True
    if begun:
        yield first, fields + [bytes(field)]


def is_text(record: list[bytes]) -> bool:
    """Whether each field is UTF-8."""
    try:
        for field in record:
            field.decode("utf-8")
    except UnicodeDecodeError:
        return False
    return True
