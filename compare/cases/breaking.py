"""Ways to break a file. What comes of one may still be good; that is for the model to say."""
from collections.abc import Callable, Collection, Iterator, Sequence
from dataclasses import dataclass
from random import Random

from model.files import CHECK_KINDS, DAY_KINDS
from model.forms import LIMITS, MOST_ROUTES, POSTED

from .texts import Record

# what breaks some records
Way = Callable[[Random, list[Record]], None]

BAD_NUMBERS = (
    "", "-1", "+1", " 1", "1 ", "1.0", "1e3", "0x10", "1,000", "1234567890", "0000000001", "000000001", "\u0661", "one",
)
BAD_NAMES = ("", "a b", "ann!", "x" * 17, "\u00e4", "a.b", " a", "a\t", "Zz", "A\x00")
BAD_AXLES = (
    "", "0", "0:", ":1", "0:1:2", "0:8000", "0:8000 ", " 0:8000 9:1", "0:8000  168:32000", "0:8000,168:1",
    "0:8000;168:1", "0 :8000 168:32000", "-0:1 2:3", "0:8000\t168:1", "0:8000 168:1234567890", "00:08000 168:32000",
)
BAD_DAYS = (
    "", "2026-3-2", "2026-03-2", "2026/03/02", "02.03.2026", "2026-03-02 ", " 2026-03-02", "20260302", "2026-02-29",
    "2028-02-29", "1900-02-29", "2000-02-29", "2100-02-29", "0000-01-01", "0001-01-01", "9999-12-31", "2026-00-10",
    "2026-13-01", "2026-04-31", "2026-12-00", "2026-12-32", "10000-01-01", "2026-03-0\u0662",
)
BAD_WORDS = ("", "Height", "rating", "closed ", "weight", "height", "allowance", "axle")
BAD_ROUTES = (" ", "a  b", "a ", " a", "a,b", "\u00e4", "x" * 17, "|", "a|", "|a", "a||b", "a/b", "a|b ", "a|b|" * 4)
# one route, and all of an application, with bars where none is to be or only spaces are, or just right
BARS = (
    "{0}|", "|{0}", "{1}|", "|{1}", "{0}||{0}", "{1}||{0}", "{0} |{0}", "{0}| {0}", "{0} | {0}", "|", "||", "{0}|{0}",
    "{1}|{0}", "{0};{0}", "{0}/{0}", "{1}|\u00e4",
)
# days that are a year apart, or one day more
YEARS = (
    ("2026-03-02", "2027-03-02"), ("2026-03-02", "2027-03-03"), ("2027-03-01", "2028-02-29"),
    ("2027-03-01", "2028-03-01"), ("2028-02-29", "2029-02-28"), ("2028-02-29", "2029-03-01"),
    ("2028-03-01", "2029-03-01"), ("2028-03-01", "2029-03-02"), ("2099-03-01", "2100-03-01"),
    ("2099-03-01", "2100-03-02"), ("0001-01-01", "0002-01-01"), ("0001-01-01", "0002-01-02"),
    ("9998-12-31", "9999-12-31"), ("9998-12-30", "9999-12-31"), ("2026-03-02", "9999-12-31"),
)
BAD_KINDS = ("", "Node", "node ", "nodes", " day", "truck", "probe", "day", "end", "span", "#", "\ufeffday")
TRAINS = (
    [(0, 8000)], [(i, 1) for i in range(33)], [(1, 8000), (2, 8000)], [(0, 1), (0, 1)], [(0, 1), (5, 1), (4, 1)],
    [(0, 0), (1, 1)], [(0, 200001), (1, 1)], [(0, 200000), (1, 200000)], [(40 * i, 200000) for i in range(11)],
    [(40 * i, 200000) for i in range(10)],
    [(0, 1), (3000, 1)], [(0, 1), (3001, 1)], [(1, 0)], [(i, 200001) for i in range(33)], [(0, 200000)] * 12,
    [(0, 1), (5000, 200001)], [(900 * i, 200000) for i in range(11)],
)
# The form of each field behind the kind: a day, a name, a number, a word for a limit, axles, or a route.
FORMS = {
    "day": "d", "node": "n", "segment": "nnn#", "limit": "nw#", "span": "nn##", "truck": "nn###a", "actor": "n",
    "apply": "nnnnrdd", "post": "nnw#", "setday": "nd", "surrender": "n#", "show": "n#", "probe": "##", "end": "",
}
BAD = {"n": BAD_NAMES, "#": BAD_NUMBERS, "a": BAD_AXLES, "d": BAD_DAYS, "w": BAD_WORDS, "r": BAD_ROUTES}
BYTES = (
    b'"', b'""', b",", b"\n", b"\r", b" ", b"\0", b"\xff", b"\xc3", b"\xc3\xa4", b"\xef\xbb\xbf", b"0", b"9",
    b":", b"-", b"a", b"\t",
)


@dataclass(frozen=True)
class End:
    """A number at an end of its range or just beyond it, and where it stands.

    What it limits, if that is said in the record, stands in the field before it.
    """

    kind: str
    column: int
    what: str | None
    number: int


def kind_of(record: Record) -> str:
    """The kind of a record, if it has one that is text."""
    return record[0] if record and isinstance(record[0], str) else ""


def place(rng: Random, records: Sequence[Record], kinds: Collection[str] = ()) -> int | None:
    """The place of a record that has fields behind its kind, or of one of these kinds; or None."""
    fit = [at for at, record in enumerate(records)
           if len(record) == 8 and FORMS.get(kind_of(record)) and (not kinds or record[0] in kinds)]
    if not fit:
        return None
    chosen = rng.choice(sorted({kind_of(records[at]) for at in fit}))
    return rng.choice([at for at in fit if records[at][0] == chosen])


def fields(rng: Random, records: list[Record]) -> None:
    """A comma too few or too many, or a field that is no UTF-8."""
    record = rng.choice(records)
    how = rng.randrange(3)
    if how == 0:
        del record[-1:]
    elif how == 1:
        record.append("")
    elif record:
        record[rng.randrange(len(record))] = rng.choice((b"\xff", b"a\xc3", b"\xed\xa0\x80", b"\xc0\x80"))


def kind(rng: Random, records: list[Record]) -> None:
    """A kind that is not there, or is another's."""
    record = rng.choice(records)
    record[:1] = [rng.choice(BAD_KINDS)]


def order(rng: Random, records: list[Record]) -> None:
    """A record that is moved, doubled or left out, the first and the last one most often."""
    at = rng.choice((0, len(records) - 1, rng.randrange(len(records))))
    record = records.pop(at)
    for _ in range(rng.randrange(3)):
        records.insert(rng.choice((0, len(records), rng.randint(0, len(records)))), list(record))
    if not records:
        records.append(list(record))


def extra(rng: Random, records: list[Record]) -> None:
    """Something in a field that is to be empty."""
    record = records[rng.randrange(len(records))]
    used = len(FORMS.get(kind_of(record), "")) + 1
    if used < len(record):
        record[rng.randrange(used, len(record))] = rng.choice(("ft", " ", "0", "-"))


def field(rng: Random, records: list[Record]) -> None:
    """A field that has not its form, or only just has it."""
    at = place(rng, records)
    if at is not None:
        forms = FORMS[kind_of(records[at])]
        column = rng.randrange(len(forms))
        records[at][column + 1] = rng.choice(BAD[forms[column]])


def range_(rng: Random, records: list[Record]) -> None:
    """A number at a limit of its range or beside it."""
    at = place(rng, records, [kind for kind, forms in FORMS.items() if "#" in forms])
    if at is not None:
        record, its_kind = records[at], kind_of(records[at])
        kinds = DAY_KINDS if its_kind in DAY_KINDS else CHECK_KINDS
        column = rng.choice([i for i, form in enumerate(FORMS[its_kind]) if form == "#"])
        least, most = kinds[its_kind][column].range(record[1:])
        numbers = (0, 1, 999999999) if least is None or most is None else (least - 1, least, most, most + 1)
        record[column + 1] = str(max(0, rng.choice(numbers)))


def date(rng: Random, records: list[Record]) -> None:
    """A day that is there or is not."""
    at = place(rng, records, ("day", "setday", "apply"))
    if at is not None:
        column = rng.choice([i for i, form in enumerate(FORMS[kind_of(records[at])]) if form == "d"])
        records[at][column + 1] = rng.choice(BAD_DAYS)


def same(rng: Random, records: list[Record]) -> None:
    """A name that another record of the kind has too."""
    at = place(rng, records, ("node", "segment", "span", "truck", "actor"))
    if at is not None:
        others = [record for record in records if record[:1] == records[at][:1] and len(record) == 8]
        records[at][1] = rng.choice(others)[1]


def unknown(rng: Random, records: list[Record]) -> None:
    """A name that is not there, or is one of another kind, in some place where a name may stand."""
    at = place(rng, records)
    if at is not None:
        columns = [i for i, form in enumerate(FORMS[kind_of(records[at])]) if form in "nr"]
        if columns:
            named = ("node", "segment", "truck", "actor")
            known = [record[1] for record in records if len(record) == 8 and record[0] in named]
            records[at][rng.choice(columns) + 1] = rng.choice([*known, "nowhere"])


def train(rng: Random, records: list[Record]) -> None:
    """A truck whose axles break a rule of trains, or only just keep it."""
    at = place(rng, records, ("truck",))
    if at is not None:
        records[at][6] = " ".join(f"{place}:{weight}" for place, weight in rng.choice(TRAINS))


def trip(rng: Random, records: list[Record]) -> None:
    """An application from a node to itself, on a route that is no walk, or with its days exchanged."""
    trips = [record for record in records if len(record) == 8 and record[0] == "apply"]
    if not trips:
        return
    record, how = rng.choice([record for record in trips if record[5]] or trips), rng.randrange(5)
    nodes, segments = ([it[1] for it in records if len(it) == 8 and it[0] == kind] for kind in ("node", "segment"))
    if how == 0:
        record[4] = record[3]
    elif how == 1:
        record[6], record[7] = record[7], record[6]
    elif how == 2 and nodes:
        record[rng.choice((3, 4))] = rng.choice(nodes)
    elif segments:
        routes = [route.split() for route in routes_of(record)]
        route = rng.choice(routes)
        route.append(str(rng.choice(segments)))
        if how == 3:
            rng.shuffle(route)
        record[5] = "|".join(" ".join(route) for route in routes)


def routes_of(record: Record) -> list[str]:
    """The routes of an application, as they are written."""
    return str(record[5]).split("|")


def bars(rng: Random, records: list[Record]) -> None:
    """An application whose routes are written otherwise, or that has about as many as there may be."""
    record = asking(rng, records)
    if record:
        routes = routes_of(record)
        if rng.random() < 0.5:
            record[5] = rng.choice(BARS).format(routes[0], "|".join(routes))
        else:
            count = rng.choice((MOST_ROUTES - 1, MOST_ROUTES, MOST_ROUTES, MOST_ROUTES + 1, 2 * MOST_ROUTES))
            record[5] = "|".join(rng.choice(routes) for _ in range(count))


def year(rng: Random, records: list[Record]) -> None:
    """An application for one route or for two between days that are about a year apart."""
    record = asking(rng, records)
    if record:
        record[6:] = rng.choice(YEARS)
        if rng.random() < 0.8:
            routes = routes_of(record)
            record[5] = "|".join((*routes, routes[0]))


def second(rng: Random, records: list[Record]) -> None:
    """An application whose first route is good, and whose second one is not."""
    record = asking(rng, records)
    if record:
        route = routes_of(record)[0]
        segments = [str(it[1]) for it in records if len(it) == 8 and it[0] == "segment"] or ["nowhere"]
        backwards = " ".join(reversed(route.split()))
        other = rng.choice((f"{route} {rng.choice(segments)}", rng.choice(segments), backwards, f"{route} nowhere"))
        record[5] = f"{route}|{other}"


def asking(rng: Random, records: Sequence[Record]) -> Record | None:
    """An application for a route or for several, if there is one."""
    asking = [record for record in records if len(record) == 8 and record[0] == "apply" and record[5]]
    return rng.choice(asking) if asking else None


ROUTE_WAYS = (bars, year, year, second)
WAYS = (
    fields, kind, order, extra, field, field, field, range_, range_, date, same, unknown, train, train, trip, trip,
    *ROUTE_WAYS,
)


def ends(is_check: bool) -> Iterator[End]:
    """The ends of each range that a number has in a file, and what lies just beyond them."""
    for kind, columns in (CHECK_KINDS if is_check else DAY_KINDS).items():
        limits: Sequence[str | None] = {"limit": LIMITS, "post": POSTED}.get(kind, (None,))
        for at, column in enumerate(columns):
            if FORMS[kind][at] != "#":
                continue
            for what in limits:
                # what is limited stands in the field before the number
                least, most = column.range([None] * (at - 1) + [what] if what else [])
                if least is not None and most is not None:
                    below = [least - 1] if least > 0 else []
                    yield from (End(kind, at + 1, what, number) for number in (least, most, most + 1, *below))


def set_number(rng: Random, records: list[Record], end: End) -> None:
    """Sets a number in a record of a kind, if there is one, and what it limits there."""
    fit = [record for record in records if record[0] == end.kind]
    # a rating is that of a span, and all else is a segment's
    is_rating = end.what == "rating"
    fit = [record for record in fit if end.kind != "post" or (record[3] == "rating") == is_rating] or fit
    if fit:
        record = rng.choice(fit)
        record[end.column] = str(end.number)
        if end.what:
            record[end.column - 1] = end.what


def broken(rng: Random, records: Sequence[Record], ways: Sequence[Way] = WAYS) -> list[Record]:
    """A file that is broken in one to three places, in some of these ways."""
    copied = [list(record) for record in records]
    for _ in range(rng.choice((1, 1, 1, 2, 3))):
        rng.choice(ways)(rng, copied)
    return copied


def scratched(rng: Random, text: bytes) -> bytes:
    """A text with a few bytes changed, left out or put in."""
    made = bytearray(text)
    for _ in range(rng.choice((1, 1, 2, 4))):
        at, how = rng.randint(0, len(made)), rng.randrange(5)
        if how == 0:
            del made[at:at + 1]
        elif how == 1:
            made[at:at + 1] = rng.choice(BYTES)
        elif how == 2:
            made[at:at] = rng.choice(BYTES)
        elif how == 3:
            del made[at:at + rng.randint(1, 40)]
        else:
            made[at:at] = made[max(0, at - rng.randint(1, 60)):at]
    return bytes(made[:rng.randrange(len(made) + 1)] if rng.random() < 0.1 else made)
