"""The journal, read back. The grammar is that of docs/FORMATS.md, "The grammar of the journal"; numbers begin at 0
here.

A text that is no journal has a first bad line, and that is what is said of it.
"""
import re
from dataclasses import dataclass
from fractions import Fraction
from typing import NamedTuple

from model.files import MOST
from model.forms import is_day

from .command import BAD, Fault

MOST_NUMBER, MOST_INDEX, MOST_PART = 2**32 - 1, 65536, 2**128 - 1
# a command is tried eight times at most, each time with a look, and then held
MOST_ENTRIES = 17 * MOST["commands"]
N, I, D = r"(0|[1-9][0-9]*)", r"([1-9][0-9]*)", r"([0-9]{4}-[0-9]{2}-[0-9]{2})"
LIST = r"(?:-|[1-9][0-9]*(?:,[1-9][0-9]*)*)"
INDEXES, NUMBERS = rf"({LIST})", r"(-|(?:0|[1-9][0-9]*)(?:,(?:0|[1-9][0-9]*))*)"
MOST_ROUTES = 8
ROUTES = rf"{LIST}(?:/{LIST}){{0,{MOST_ROUTES - 1}}}"
RATIO = r"((?:0|[1-9][0-9]*)/[1-9][0-9]*)"
STATUS = rf"(?:inforce|recalled {N}|surrendered|expired)"
LIMIT_FORMS = (
    ("closed", re.compile(rf"segment {I} closed")),
    ("size", re.compile(rf"segment {I} (height|width|length|gross) {N} over {N}")),
    ("group", re.compile(rf"segment {I} group {I}-{I} weight {N} limit {N} allowance {N}")),
    ("tridem", re.compile(rf"segment {I} tridem {I}-{I} weight {N} over {N}")),
    ("effect", re.compile(rf"segment {I} span {I} (moment|shear) {RATIO} hs20 {RATIO} rating {N}")),
)
APPLICATION = rf"truck {I} from {I} to {I} asked (none|{ROUTES}) days {D} {D}"
CALLS = (
    ("snapshot", re.compile("snapshot")),
    ("submit", re.compile(rf"submit {APPLICATION} seen {N} (?:(none)|(route) ({ROUTES})|(cut) {INDEXES}|(fails) {I})")),
    ("held", re.compile(rf"held {APPLICATION}")),
    ("post", re.compile(rf"post segment {I} (closed) ([01])")),
    ("post", re.compile(rf"post segment {I} (height|width|length|gross|allowance|tridem) {N}")),
    ("post", re.compile(rf"post span {I} (rating) {N}")),
    ("day", re.compile(rf"day {D}")),
    ("surrender", re.compile(rf"surrender {N}")),
    ("show", re.compile(rf"show {N}")),
)
REPLIES = (
    ("at", re.compile(rf"at {N}")),
    ("issued", re.compile(rf"issued {N} at {N} route ({ROUTES})")),
    ("refused", re.compile(rf"refused {N} (segment .*)")),
    ("outdated", re.compile(rf"outdated {N} fails (segment .*)")),
    ("meets", re.compile(rf"outdated {N} meets segment {I}")),
    ("late", re.compile(rf"late {D}")),
    ("day", re.compile(rf"day {D}")),
    ("dayback", re.compile(rf"dayback {D}")),
    ("posted", re.compile(rf"posted {N} recalled {NUMBERS}")),
    ("notinforce", re.compile(rf"notinforce ({STATUS})")),
    ("shown", re.compile(rf"shown {N} caller {I} truck {I} days {D} {D} at {N} seen {N} ({STATUS})")),
    ("word", re.compile("(notneeded|noroad|range|surrendered|notyours|unknown|nomemory)")),
)


# the segments of a route, and one route or several
Route = tuple[int, ...]
Routes = tuple[Route, ...]


class Trip(NamedTuple):
    """An application: truck, from, to, the asked routes (none: the shortest one), and two days."""

    truck: int
    start: int
    end: int
    asked: Routes
    first: str
    last: str


@dataclass(frozen=True)
class Limit:
    """A limit that fails. `has` is what the truck has, and `most` what is allowed; of a span, that of HS20-44."""

    segment: int
    what: str
    has: Fraction = Fraction(0)
    most: Fraction = Fraction(0)
    rate: int = 0
    span: int = -1
    group: tuple[int, int] = (0, 0)

    @property
    def carried(self) -> Fraction:
        """What is allowed here: of a group its limit times the allowance, of a span HS20-44 times the rating."""
        return self.most * self.rate / 1000 if self.what in ("group", "moment", "shear") else self.most


@dataclass(frozen=True)
class Entry:
    """A line of the journal: who calls, what, and the reply. Only what its forms have is set."""

    line: int
    caller: int
    call: str
    reply: str
    trip: Trip | None = None
    seen: int = 0
    found: str = ""
    listed: tuple[int, ...] = ()
    proposed: Routes = ()
    item: int = 0
    what: str = ""
    value: int = 0
    day: str = ""
    version: int = 0
    number: int = 0
    routes: Routes = ()
    recalled: tuple[int, ...] = ()
    limit: Limit | None = None
    segment: int = 0
    status: str = ""
    shown: tuple[int, int, int, str, str, int, int] | None = None


class Bad(Exception):
    """A line that is of no form."""


def number(text: str) -> int:
    if len(text) > 10 or int(text) > MOST_NUMBER:
        raise Bad
    return int(text)


def index(text: str) -> int:
    """A number that is written from 1 on, counted from 0."""
    if len(text) > 5 or int(text) > MOST_INDEX:
        raise Bad
    return int(text) - 1


def indexes(text: str) -> tuple[int, ...]:
    return () if text == "-" else tuple(map(index, text.split(",")))


def routes_of(text: str) -> Routes:
    return tuple(map(indexes, text.split("/")))


def numbers(text: str) -> tuple[int, ...]:
    return () if text == "-" else tuple(map(number, text.split(",")))


def calendar_day(text: str) -> str:
    if not is_day(text):
        raise Bad
    return text


def ratio(text: str) -> Fraction:
    if len(text) > 80:
        # two numbers of 39 digits are the greatest
        raise Bad
    above, _, below = text.partition("/")
    value = Fraction(int(above), int(below))
    if f"{value.numerator}/{value.denominator}" != text or max(value.numerator, value.denominator) > MOST_PART:
        raise Bad
    return value


def status_of(text: str) -> str:
    if text.startswith("recalled "):
        number(text[9:])
    return text


def limit_of(text: str) -> Limit:
    for kind, form in LIMIT_FORMS:
        found = form.fullmatch(text)
        if found is None:
            continue
        segment = index(found[1])
        if kind == "closed":
            return Limit(segment, "closed")
        if kind == "size":
            return Limit(segment, found[2], Fraction(number(found[3])), Fraction(number(found[4])))
        if kind == "group":
            group = index(found[2]), index(found[3])
            has, most, rate = number(found[4]), number(found[5]), number(found[6])
            return Limit(segment, "group", Fraction(has), Fraction(most), rate, group=group)
        if kind == "tridem":
            group = index(found[2]), index(found[3])
            return Limit(segment, "tridem", Fraction(number(found[4])), Fraction(number(found[5])), group=group)
        span, has_text, most_text = index(found[2]), found[4], found[5]
        return Limit(segment, found[3], ratio(has_text), ratio(most_text), number(found[6]), span)
    raise Bad


def trip_of(found: re.Match[str]) -> Trip:
    asked = () if found[4] == "none" else routes_of(found[4])
    first, last = calendar_day(found[5]), calendar_day(found[6])
    return Trip(index(found[1]), index(found[2]), index(found[3]), asked, first, last)


def call_of(text: str) -> dict[str, object]:
    """What a call sets of an entry."""
    for kind, form in CALLS:
        found = form.fullmatch(text)
        if found is None:
            continue
        if kind == "submit":
            set_here = {"call": kind, "trip": trip_of(found), "seen": number(found[7])}
            if found[9]:
                return set_here | {"found": "route", "proposed": routes_of(found[10])}
            listed = indexes(found[12]) if found[11] else (index(found[14]),) if found[13] else ()
            return set_here | {"found": found[8] or found[11] or found[13], "listed": listed}
        if kind == "held":
            return {"call": kind, "trip": trip_of(found)}
        if kind == "post":
            return {"call": kind, "item": index(found[1]), "what": found[2], "value": number(found[3])}
        if kind == "day":
            return {"call": kind, "day": calendar_day(found[1])}
        return {"call": kind, "number": number(found[1])} if kind != "snapshot" else {"call": kind}
    raise Bad


def reply_of(text: str) -> dict[str, object]:
    """What a reply sets of an entry."""
    for kind, form in REPLIES:
        found = form.fullmatch(text)
        if found is None:
            continue
        if kind == "word":
            return {"reply": found[1]}
        if kind in ("late", "day", "dayback"):
            return {"reply": kind, "status": calendar_day(found[1])}
        if kind == "notinforce":
            return {"reply": kind, "status": status_of(found[1])}
        if kind == "shown":
            who = number(found[1]), index(found[2]), index(found[3]), calendar_day(found[4]), calendar_day(found[5])
            shown = (*who, number(found[6]), number(found[7]))
            return {"reply": kind, "shown": shown, "status": status_of(found[8])}
        set_here: dict[str, object] = {"reply": kind, "version": number(found[1])}
        if kind == "issued":
            set_here |= {"number": number(found[1]), "version": number(found[2]), "routes": routes_of(found[3])}
        elif kind in ("refused", "outdated"):
            set_here["limit"] = limit_of(found[2])
        elif kind == "meets":
            set_here["segment"] = index(found[2])
        elif kind == "posted":
            set_here["recalled"] = numbers(found[2])
        return set_here
    raise Bad


def entry_of(text: str, line: int) -> Entry:
    """A line of the journal behind its first one."""
    who, _, rest = text.partition(" ")
    call, equals, reply = rest.partition(" = ")
    if not equals or not re.fullmatch("[1-9][0-9]*", who):
        raise Bad
    return Entry(line=line, caller=index(who), **call_of(call) | reply_of(reply))  # type: ignore[arg-type]


def tells_tridem(entry: Entry) -> bool:
    """Whether an entry needs words for tridem groups, which the first format has not."""
    of_limit = entry.limit is not None and entry.limit.what == "tridem"
    return of_limit or (entry.call == "post" and entry.what == "tridem")


def first_format(entry: Entry) -> int:
    """The first format that has words for an entry: the two older ones have none for several routes."""
    lists = (entry.trip.asked if entry.trip else (), entry.proposed, entry.routes)
    return 3 if any(len(routes) > 1 for routes in lists) else 2 if tells_tridem(entry) else 1


def read_journal(data: bytes, path: str) -> list[Entry]:
    """The entries of a journal, or a fault that names the first bad line."""
    if data.count(b"\n") > MOST_ENTRIES + 2:
        raise Fault(BAD, f"{path} is no journal: it has more than the {MOST_ENTRIES + 2:,} lines that a day may write")
    lines = data.decode("utf-8", "backslashreplace").split("\n")
    whole = lines.pop()

    def bad(line: int, why: str) -> Fault:
        return Fault(BAD, f"{path} is no journal: line {line} {why}")

    if lines and lines[0].startswith("refused: "):
        raise Fault(BAD, f"{path} is no journal, but the line of a refusal: {lines[0]}")
    formats = {f"permit-journal {number}": number for number in (1, 2, 3)}
    if not lines or lines[0] not in formats:
        raise bad(1, "is none of permit-journal 1, permit-journal 2 and permit-journal 3")
    entries: list[Entry] = []
    for line, text in enumerate(lines[1:], 2):
        if text == f"end {len(entries)}":
            if line < len(lines) or whole:
                raise bad(line + 1, "stands behind the end")
            return entries
        try:
            entry = entry_of(text, line)
            if first_format(entry) > formats[lines[0]]:
                raise Bad
            entries.append(entry)
        except Bad as fault:
            raise bad(line, "is of no form that a journal has") from fault
    raise bad(
        len(lines) + 1, "has no line feed: the journal was cut short" if whole else "is missing: there is no end"
    )
