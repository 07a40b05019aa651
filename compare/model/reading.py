"""The journal, read back: docs/FORMATS.md, "The grammar of the journal", form by form and word by word.

Of a reply it is only asked whether it has a form. A call has its values, of which trucks, nodes, segments, spans and
callers count from 0 here.
"""
import re
from collections.abc import Callable, Iterator
from typing import Any, NamedTuple

from . import forms
from .files import Posting, Route, Routes, Trip

FORMATS = {f"permit-journal {number}": number for number in (1, 2, 3)}
FORMAT_OF_TRIDEM, FORMAT_OF_ROUTES = 2, 3
MOST_NUMBER, MOST_INDEX, MOST_PART = 2**32 - 1, 65536, 2**128 - 1

# what a word of a form stands for, one for each way to go on
PARTS = {
    "APPLICATION": ("truck INDEX from INDEX to INDEX asked ROUTE days DAY DAY",),
    "WHAT": ("none", "route ROUTES", "cut LIST", "fails INDEX"),
    "CHANGE": ("segment INDEX closed FLAG", "segment INDEX VALUE NUMBER", "span INDEX rating NUMBER"),
    "VALUE": ("height", "width", "length", "gross", "allowance", "tridem"),
    "STATUS": ("inforce", "recalled NUMBER", "surrendered", "expired"),
    "LIMIT": (
        "segment INDEX closed", "segment INDEX SIZE NUMBER over NUMBER",
        "segment INDEX group AXLES weight NUMBER limit NUMBER allowance NUMBER",
        "segment INDEX tridem AXLES weight NUMBER over NUMBER",
        "segment INDEX span INDEX EFFECT FRACTION hs20 FRACTION rating NUMBER",
    ),
    "SIZE": ("height", "width", "length", "gross"),
    "EFFECT": ("moment", "shear"),
}
CALLS = (
    "snapshot", "submit APPLICATION seen NUMBER WHAT", "held APPLICATION", "post CHANGE", "day DAY", "surrender NUMBER",
    "show NUMBER",
)
REPLIES = (
    "at NUMBER", "issued NUMBER at NUMBER route ROUTES", "refused NUMBER LIMIT", "outdated NUMBER fails LIMIT",
    "outdated NUMBER meets segment INDEX", "late DAY", "day DAY", "dayback DAY", "posted NUMBER recalled NUMBERS",
    "notinforce STATUS", "shown NUMBER caller INDEX truck INDEX days DAY DAY at NUMBER seen NUMBER STATUS", "notneeded",
    "noroad", "range", "surrendered", "notyours", "unknown", "nomemory",
)


class BadLine(Exception):
    """The first line such that no journal begins with the lines up to it."""

    def __init__(self, row: int) -> None:
        super().__init__(f"line {row}")
        self.row = row


class Submit(NamedTuple):
    """An application, the version that was seen, and what was found for it, as it is written."""

    trip: Trip
    seen: int
    found: str


class Held(NamedTuple):
    """An application for which the office looks itself."""

    trip: Trip


class Simple(NamedTuple):
    """A call of one of the other kinds, with a day, or with the number of a permit."""

    kind: str
    what: str | int = ""


class Entry(NamedTuple):
    """Who calls, the call, and the reply as it is written."""

    caller: int
    call: Submit | Held | Posting | Simple
    reply: str


def number(word: str) -> int | None:
    """A number, which has one spelling."""
    spelt = int(word) if re.fullmatch("0|[1-9][0-9]{0,9}", word) else None
    return spelt if spelt is not None and spelt <= MOST_NUMBER else None


def index(word: str) -> int | None:
    """A number that is written from 1 on."""
    spelt = number(word)
    return spelt - 1 if spelt is not None and 1 <= spelt <= MOST_INDEX else None


def flag(word: str) -> int | None:
    """0 or 1."""
    return int(word) if word in ("0", "1") else None


def day(word: str) -> str | None:
    """A day of the calendar."""
    spelt = forms.day(word.encode("latin-1"))
    return spelt if spelt is not None and forms.is_day(spelt) else None


def axles(word: str) -> str | None:
    """A first and a last axle."""
    parts = word.split("-")
    return word if len(parts) == 2 and all(index(part) is not None for part in parts) else None


def fraction(word: str) -> str | None:
    """A fraction in lowest terms."""
    if not re.fullmatch("(0|[1-9][0-9]{0,38})/[1-9][0-9]{0,38}", word):
        return None
    above, below = map(int, word.split("/"))
    rest, common = below, above
    while rest:
        common, rest = rest, common % rest
    return word if common == 1 and max(above, below) <= MOST_PART else None


def items(word: str, item: Callable[[str], int | None]) -> Route | None:
    """A list, with a comma between two items; a dash where it is empty."""
    parts = [] if word == "-" else word.split(",")
    made = [it for it in map(item, parts) if it is not None]
    return tuple(made) if len(made) == len(parts) else None


def routes(word: str, most: int) -> Routes | None:
    """Lists of segments, with a slash between two, and at most so many."""
    parts = word.split("/")
    made = [it for it in (items(part, index) for part in parts) if it is not None]
    return tuple(made) if len(made) == len(parts) <= most else None


def values_of(most_routes: int) -> dict[str, Callable[[str], Any]]:
    """What the words of a form that stand for values spell; None where a word spells no such value."""
    return {
        "NUMBER": number, "INDEX": index, "FLAG": flag, "DAY": day, "AXLES": axles, "FRACTION": fraction,
        "LIST": lambda word: items(word, index), "NUMBERS": lambda word: items(word, number),
        "ROUTES": lambda word: routes(word, most_routes),
        "ROUTE": lambda word: () if word == "none" else routes(word, most_routes),
    }


def ways(form: str) -> Iterator[list[str]]:
    """A form with each of its parts written out, in all ways."""
    words = form.split(" ")
    at = next((at for at, word in enumerate(words) if word in PARTS), None)
    if at is None:
        yield words
        return
    for way in PARTS[words[at]]:
        yield from ways(" ".join((*words[:at], way, *words[at + 1:])))


def written_out(written: tuple[str, ...], has_tridem: bool) -> list[list[str]]:
    """Forms in all ways; without those of tridem groups, where a format has none."""
    return [way for form in written for way in ways(form) if has_tridem or "tridem" not in way]


class Reader:
    """The forms of the lines of a format."""

    def __init__(self, format: int) -> None:
        has_tridem = format >= FORMAT_OF_TRIDEM
        self.calls, self.replies = written_out(CALLS, has_tridem), written_out(REPLIES, has_tridem)
        self.values = values_of(forms.MOST_ROUTES if format >= FORMAT_OF_ROUTES else 1)

    def spelt(self, form: list[str], words: list[str]) -> list[Any] | None:
        """The values of words that have a form; or None where they have not."""
        if len(form) != len(words):
            return None
        found = []
        for part, word in zip(form, words):
            if part in self.values:
                found.append(self.values[part](word))
            if word != part if part not in self.values else found[-1] is None:
                return None
        return found

    def call(self, words: list[str]) -> Submit | Held | Posting | Simple | None:
        """The call that some words are."""
        found = next((it for it in (self.spelt(form, words) for form in self.calls) if it is not None), None)
        if found is None:
            return None
        kind = words[0]
        if kind == "submit":
            return Submit(Trip(*found[:6]), found[6], " ".join(words[words.index("seen") + 2:]))
        if kind == "held":
            return Held(Trip(*found))
        if kind == "post":
            return Posting(found[0], words[3], found[1])
        return Simple(kind, *found)

    def entry(self, line: str) -> Entry | None:
        """The entry that a line is."""
        who, _, rest = line.partition(" ")
        asked, equals, reply = rest.partition(" = ")
        caller, call, words = index(who), self.call(asked.split(" ")), reply.split(" ")
        is_reply = any(self.spelt(form, words) is not None for form in self.replies)
        return Entry(caller, call, reply) if equals and is_reply and caller is not None and call is not None else None


def read(data: bytes) -> list[Entry]:
    """The entries of a journal of any of the three formats."""
    *lines, rest = data.decode("latin-1").split("\n")
    if not lines or lines[0] not in FORMATS:
        raise BadLine(1)
    reader, entries = Reader(FORMATS[lines[0]]), list[Entry]()
    for row, line in enumerate(lines[1:], 2):
        if line == f"end {len(entries)}":
            if row < len(lines) or rest:
                raise BadLine(row + 1)
            return entries
        entry = reader.entry(line)
        if entry is None:
            raise BadLine(row)
        entries.append(entry)
    raise BadLine(len(lines) + 1)
