"""A check file or a day file that is read on behind each record that is refused.

The proved program stops at the first refused record. Here each record is judged by what the records above it define,
where a refused record counts as mended: the name that it was to define is there, also where the cell of that name is
itself malformed, or has a name that is there already. So no record is named only since one above it is bad. The first
cause of each record is the one that the second program's reader gives, which is compared with the proved program's.
"""
import re
from collections import Counter
from collections.abc import Iterator, Sequence
from dataclasses import dataclass, field
from typing import Any

from model import forms
from model.files import CHECK_KINDS, DAY_KINDS, CheckFile, DayFile, File, Refused, Segment, Span, Values
from model.records import MOST_BYTES, placed_records, unmarked
from model.trucks import broken_rule

WHOLE_RECORD = ("fields", "kind", "order")
# what stands between columns where it is not the comma
OTHER_SEPARATORS = rb"[;\t|]"
MOST_LETTERS = 16
# as many letters may stand in place of one that no name has, as ue in place of its umlaut
MOST_IN_PLACE = 2
# where more cells than this are no names, each unknown name may be one of them
MOST_SPOILED = 200
# no file that the office takes has so many records, and of one with so many mistakes no more are looked for
MOST_REFUSALS = 10_000


@dataclass(frozen=True)
class Refusal:
    """One thing for which a record is refused: its row, its line in an editor, and the cause in the program's word."""

    row: int
    line: int
    cause: str
    status: int
    record: list[bytes] = field(hash=False)

    @property
    def kind(self) -> str:
        return kind_of(self.record)

    @property
    def column(self) -> int | None:
        """The number of the field that is at fault, counted from 1, where it is one field."""
        word, _, number = self.cause.partition(" ")
        if word in ("field", "unknown", "range"):
            return int(number)
        if word == "extra":
            used = len(kinds_of_all()[self.kind]) + 1
            return next(at for at, text in enumerate(self.record, 1) if at > used and text)
        columns = {"kind": 1, "same": 2, "train": 7, "same-place": 5, "broken-route": 6}
        return {**columns, "day-order": 8, "annual-days": 8}.get(word)

    @property
    def field_text(self) -> bytes:
        return self.record[self.column - 1] if self.column and self.column <= len(self.record) else b""


@dataclass(frozen=True)
class Accepted:
    """A record that is accepted, with the values of its fields."""

    row: int
    line: int
    kind: str
    values: Values = field(hash=False)
    record: list[bytes] = field(hash=False)


def kinds_of_all() -> dict[str, list[Any]]:
    return {**CHECK_KINDS, **DAY_KINDS}


def kind_of(record: list[bytes]) -> str:
    """The kind of a record, or the first word of a line that is no record."""
    return record[0].decode("utf-8", "replace") if record else ""


class Lenient(File):
    """A file that is read on: its refusals and its accepted records, in the order of the rows."""

    def __init__(self, data: bytes) -> None:
        self.refusals: list[Refusal] = []
        self.accepted: list[Accepted] = []
        # the kind of each record, refused or not, and the rows in which names are defined
        self.all_kinds: list[str] = []
        self.rows: dict[tuple[str, str], int] = {}
        # names that a record may have meant to define, each with its kind, if that is known; cells of names that are no
        # names; how many records meant to define a name that is not known; and names that are taken for one of these
        self.doubted: set[tuple[str | None, str]] = set()
        self.spoiled: set[tuple[str | None, str]] = set()
        self.nameless: Counter[str | None] = Counter()
        self.claimed: set[tuple[str, str]] = set()
        # segments of which the ends are not known
        self.astray: set[int] = set()
        self.opened = False
        if len(data) > MOST_BYTES:
            # the file is refused for this alone, and may have been read up to here only
            self.refusals.append(Refusal(0, 0, "bytes", 6, []))
            data = b""
        text = unmarked(data)
        self.places = [place for place, _ in placed_records(data)]
        self.lines = line_numbers(text, self.places)
        try:
            super().__init__(data)
        except Refused as refused:
            self.note(refused, [])

    def note(self, refused: Refused, record: list[bytes], cause: str | None = None) -> None:
        """Keeps a refusal of the record at which the file is."""
        cause = cause or cause_of(refused)
        line = self.lines[self.row - 1] if self.row <= len(self.lines) else 0
        self.refusals.append(Refusal(self.row, line, cause, refused.status, record))

    @property
    def is_cut(self) -> bool:
        """Whether there are so many mistakes that the rest of the file is not looked at."""
        return len(self.refusals) >= MOST_REFUSALS

    def take(self, record: list[bytes]) -> None:
        if self.is_cut:
            self.ended = True
            return
        kind, row = kind_of(record), self.row
        self.all_kinds.append(plain_kind(kind))
        if kind == self.first and not self.opened and row > 1:
            # what stands above is refused, and the file begins here
            self.row = 1
        try:
            super().take(record)
        except Refused as refused:
            self.row = row
            for cause in self.causes(record, cause_of(refused)):
                self.note(refused, record, cause)
            self.mend(record, cause_of(refused))
        else:
            self.row = row
            self.keep(record)
        self.opened = self.opened or kind == self.first

    def keep(self, record: list[bytes]) -> None:
        """Keeps an accepted record."""
        kind = kind_of(record)
        columns = self.kinds[kind]
        values = [column.form(text) for column, text in zip(columns, record[1:])]
        self.accepted.append(Accepted(self.row, self.lines[self.row - 1], kind, values, record))
        for column, value in zip(columns, values):
            if column.defines:
                self.rows[column.defines, value] = self.row

    def causes(self, record: list[bytes], first: str) -> list[str]:
        """All that is wrong with a record, the program's own cause first; none where it only names what may be
        there."""
        word = first.split(" ")[0]
        if word in WHOLE_RECORD:
            return [first]
        found = [first] + [cause for cause in self.column_causes(record) if cause != first]
        return [cause for cause in found if not self.is_doubted(record, cause)]

    def column_causes(self, record: list[bytes]) -> list[str]:
        """What is wrong with each field on its own."""
        columns = self.kinds[kind_of(record)]
        values = [column.form(text) for column, text in zip(columns, record[1:])]
        found = []
        for at, (column, value) in enumerate(zip(columns, values), 2):
            if value is None:
                found.append(f"field {at}")
                continue
            kind = column.referred(values)
            hidden = kind_of(record) == "post" and at == 3 and values[2] is None
            if kind and not hidden and not all(name in self.names[kind] for name in column.names(value)):
                found.append(f"unknown {at}")
            elif not column.fits(value, values):
                found.append(f"range {at}")
            elif column.form is forms.axles and broken_rule(value):
                found.append(f"train {broken_rule(value)}")
        return found

    def is_doubted(self, record: list[bytes], cause: str) -> bool:
        """Whether a name is unknown only since the record that was to define it is refused."""
        word, _, number = cause.partition(" ")
        if word != "unknown":
            return False
        column = self.kinds[kind_of(record)][int(number) - 2]
        kind = column.referred([it.form(text) for it, text in zip(self.kinds[kind_of(record)], record[1:])])
        names = column.names(column.form(record[int(number) - 1]))
        return kind is not None and all(self.may_be_there(kind, name) for name in names)

    def may_be_there(self, kind: str, name: str) -> bool:
        """Whether a name is defined above, or a record above may have meant to define it."""
        if name in self.names[kind] or {(kind, name), (None, name)} & self.doubted or (kind, name) in self.claimed:
            return True
        if len(self.spoiled) > MOST_SPOILED:
            return True
        if any(its in (kind, None) and may_mean(text, name) for its, text in self.spoiled):
            return True
        for its in (kind, None):
            if self.nameless[its]:
                self.nameless[its] -= 1
                self.claimed.add((kind, name))
                return True
        return False

    def mend(self, record: list[bytes], cause: str) -> None:
        """Takes a refused record as mended: what it was to define is there."""
        if len(record) == 1 and re.search(OTHER_SEPARATORS, record[0]):
            record = re.split(OTHER_SEPARATORS, record[0])
        kind = plain_kind(kind_of(record))
        if kind.startswith("end") and cause != "order":
            self.ended = True
        for line in swallowed(record):
            self.ended = self.ended or plain_kind(kind_of(line)) == "end"
            self.doubt(None, line)
        columns = self.kinds.get(kind)
        if columns is None:
            self.doubt(None, record)
        elif columns and columns[0].defines:
            name = forms.name(record[1]) if len(record) > 1 else None
            if name is None:
                self.doubt(columns[0].defines, record)
            elif cause == "same":
                self.nameless[columns[0].defines] += 1
            else:
                self.define(kind, name, record)

    def doubt(self, kind: str | None, record: list[bytes]) -> None:
        """Keeps what a record may have meant to define: a name, also with blanks or signs at its ends, or a cell of
        which the name is not known."""
        if len(record) < 2:
            return
        text = record[1].decode("utf-8", "replace")
        name = forms.name(re.sub("^[^A-Za-z0-9_-]+|[^A-Za-z0-9_-]+$", "", text).encode())
        if name is None:
            self.spoiled.add((kind, text))
            self.nameless[kind] += kind is not None
        else:
            self.doubted.add((kind, name))

    def define(self, kind: str, name: str, record: list[bytes]) -> None:
        """A name of a refused record."""
        numbers = self.names[kind + "s"]
        if name in numbers:
            return
        numbers[name] = len(numbers)
        self.rows[kind + "s", name] = self.row
        if isinstance(self, DayFile):
            if kind == "segment":
                nodes = self.names["nodes"]
                ends = [nodes.get(text.decode("utf-8", "replace"), -1) for text in (record + [b""] * 4)[2:4]]
                if -1 in ends:
                    self.astray.add(numbers[name])
                self.segments.append(Segment(ends[0], ends[1], 1))
                self.values.append({what: 0 for what in forms.LIMITS})
            elif kind == "span":
                segment = record[2].decode("utf-8", "replace") if len(record) > 2 else ""
                self.spans.append(Span(self.names["segments"].get(segment, -1), 1, 0))
            elif kind == "actor":
                self.actors += 1


class CheckSheet(Lenient, CheckFile):
    """A check file that is read on."""


class DaySheet(Lenient, DayFile):
    """A day file that is read on."""

    def is_walk(self, route: Sequence[int], start: int, end: int) -> bool:
        """A route over a segment whose ends are not known may be a walk."""
        return any(number in self.astray for number in route) or super().is_walk(route, start, end)


def plain_kind(kind: str) -> str:
    """A kind as it is most likely meant: in small letters, and with nothing but letters."""
    return re.sub("[^a-z]", "", kind.lower())


def swallowed(record: list[bytes]) -> Iterator[list[bytes]]:
    """The lines that a record takes in, where a quote is opened in it and not closed in its line."""
    for text in record:
        for line in re.split(rb"[\r\n]+", text)[1:]:
            yield line.split(b",")


def may_mean(text: str, name: str) -> bool:
    """Whether a cell that is no name may have to be mended to this name.

    The letters that a name may have are those of the name, in their order. In place of another letter the name has up
    to two. Of a text that is too long the name may be a part. A cell that is empty may mean any name.
    """
    kept = re.sub("[^A-Za-z0-9_-]", "", text)
    others = len(text) - len(kept)
    if len(kept) > MOST_LETTERS:
        return is_part(name, kept)
    return not kept or (is_part(kept, name) and len(name) - len(kept) <= MOST_IN_PLACE * others)


def is_part(part: str, whole: str) -> bool:
    """Whether the letters of the one stand in the other, in their order."""
    letters = iter(whole)
    return all(letter in letters for letter in part)


def cause_of(refused: Refused) -> str:
    """The cause in the line of a refusal: what stands behind `refused: record ROW`."""
    words = refused.line.split()
    return " ".join(words[3:]) if words[1] == "record" else words[1]


def line_numbers(text: bytes, places: list[int]) -> list[int]:
    """The number of the line in which each record begins, counted as an editor counts: a return with its feed is one
    end."""
    numbers, line, at = [], 1, 0
    for place in places:
        part = text[at:place]
        line += part.count(b"\n") + part.count(b"\r") - part.count(b"\r\n")
        at = place
        numbers.append(line)
    return numbers


def is_check(data: bytes) -> bool:
    """Whether a file says that it is a check file: its first record is a truck, or is meant as one."""
    first = next(iter(placed_records(data[:4096])), (0, [b""]))[1]
    return first[0] == b"truck" or plain_kind(kind_of(first)) == "truck"


def read_sheet(data: bytes, check: bool) -> Lenient:
    return CheckSheet(data) if check else DaySheet(data)


def first_line(sheet: Lenient) -> str | None:
    """The line with which the proved program would refuse the file, or nothing where it takes it."""
    if not sheet.refusals:
        return None
    first = sheet.refusals[0]
    return "refused: bytes" if first.cause == "bytes" else f"refused: record {first.row} {first.cause}"
