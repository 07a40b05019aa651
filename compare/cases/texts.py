"""The ways in which the same records may be written down."""
from collections.abc import Iterable, Sequence
from random import Random

# A field is text, a number, or bytes where these are no text.
Field = str | int | bytes
Record = list[Field]
ENDS = (b"\n", b"\n", b"\r\n", b"\r")


def encoded(field: Field) -> bytes:
    """The bytes of a field."""
    return field if isinstance(field, bytes) else str(field).encode()


def full(record: Sequence[Field]) -> Record:
    """A record with empty fields at its end to make eight."""
    return [*record, *[""] * (8 - len(record))]


def plain(records: Iterable[Record]) -> bytes:
    """The text with a line feed behind each record and no quotes."""
    return b"".join(b",".join(map(encoded, record)) + b"\n" for record in records)


def dressed(rng: Random, records: Iterable[Record]) -> bytes:
    """The text in one of the ways of spreadsheets, and in some that none of them has."""
    end, quoting, blanks = rng.choice(ENDS), rng.choice((0, 0, 0.1, 1)), rng.choice((0, 0, 0.2))
    text = [b"\xef\xbb\xbf"] if rng.random() < 0.3 else []
    for record in records:
        while rng.random() < blanks:
            text.append(rng.choice(ENDS))
        text.append(b",".join(written(rng, field, quoting) for field in map(encoded, record)) + end)
    if rng.random() < 0.3:
        text[-1] = text[-1].rstrip(b"\r\n")
    return b"".join(text)


def written(rng: Random, field: bytes, quoting: float) -> bytes:
    """A field, in quotes or not; also with a part of it behind the closing quote, which reads the same."""
    if rng.random() >= quoting and b'"' not in field:
        return field
    if field and b'"' not in field and rng.random() < 0.1:
        at = rng.randrange(len(field)) + 1
        return b'"' + field[:at] + b'"' + field[at:]
    return b'"' + field.replace(b'"', b'""') + b'"'
