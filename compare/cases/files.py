"""Check files and day files that are good, as lists of records."""
import datetime
from collections.abc import Sequence
from random import Random
from typing import NamedTuple

from model.files import MOST_ANNUAL_DAYS
from model.forms import MOST_ROUTES, RANGES
from model.trucks import Truck

from . import trucks
from .texts import Field, Record, full

LETTERS = "abcXYZ019-_"
USUAL_DAY = datetime.date(2026, 3, 2)
RARE_DAYS = tuple(datetime.date(*it) for it in ((1, 1, 5), (9999, 12, 20), (2028, 2, 28), (1900, 2, 28)))
# the kinds of names that the fields of a record refer to
REFERS = {
    "segment": {2: "node", 3: "node"}, "limit": {1: "segment"}, "span": {2: "segment"}, "setday": {1: "actor"},
    "apply": {1: "actor", 2: "truck", 3: "node", 4: "node"}, "surrender": {1: "actor"}, "show": {1: "actor"},
    "post": {1: "actor"},
}


class Segment(NamedTuple):
    """The names of a segment and of its two nodes."""

    name: str
    start: str
    end: str


class Span(NamedTuple):
    """The name of a span, and its length."""

    name: str
    inches: int


def name(rng: Random, taken: set[str]) -> str:
    """A name that is not taken."""
    while True:
        made = "".join(rng.choice(LETTERS) for _ in range(rng.choice((1, 2, 2, 3, 5, 16))))
        if made not in taken:
            taken.add(made)
            return made


def digits(rng: Random, number: int) -> str:
    """A number, at times with zeros in front."""
    return str(number).zfill(rng.choice((9, min(9, len(str(number)) + 1)))) if rng.random() < 0.03 else str(number)


def truck(rng: Random, made: str) -> tuple[Record, Truck]:
    """The record of a truck, and the truck."""
    height, width, length = trucks.sizes(rng)
    pairs = trucks.axles(rng)
    carrier, sizes = name(rng, set()), [digits(rng, size) for size in (height, width, length)]
    return full(["truck", made, carrier, *sizes, trucks.text(pairs)]), Truck(made, "", height, width, length, pairs)


def check_file(rng: Random, most_probes: int = 6) -> list[Record]:
    """A truck and some probes."""
    record, it = truck(rng, name(rng, set()))
    records = [record]
    for _ in range(rng.randint(0, most_probes)):
        inches = trucks.span(rng, it.axles)
        length = digits(rng, inches)
        rating = digits(rng, trucks.rating(rng, it.effects(inches), inches))
        records.append(full(["probe", length, rating]))
    return records + [full(["end"])]


class Day:
    """A day file that grows record by record. What stands in it is kept, so that commands may name it."""

    def __init__(self, rng: Random, actors: int, commands: int) -> None:
        self.rng = rng
        self.records: list[Record] = []
        self.taken: dict[str, set[str]] = {kind: set() for kind in ("node", "segment", "span", "truck", "actor")}
        self.today = USUAL_DAY if rng.random() < 0.9 else rng.choice(RARE_DAYS)
        self.nodes = [self.define("node") for _ in range(rng.choice((2, 2, 3, 5, 9)))]
        self.trucks = [self.truck() for _ in range(rng.choice((1, 2, 4)))]
        self.lengths = [trucks.span(rng, it.axles) for it in self.trucks]
        self.feet: Sequence[int] = rng.choice(((1, 2, 3), (5280,), (1, 10000000), tuple(range(1000, 6000))))
        self.segments = [self.segment() for _ in range(rng.choice((1, 2, 2, 4, 4)) * len(self.nodes))]
        for _ in range(rng.choice((0, 1, len(self.segments) // 2))):
            self.add("limit", *self.limit(rng.choice(self.segments).name))
        self.spans = [self.span() for _ in range(rng.choice((0, 1, len(self.segments))))]
        self.actors = [self.define("actor") for _ in range(actors)]
        # how many permits there may be, the days that have passed, and the segments that were asked for last
        self.issued, self.passed = 0, 0
        self.asked: list[str] = []
        for _ in range(commands):
            self.command()

    def add(self, *fields: Field) -> None:
        """One more record."""
        self.records.append(full(fields))

    def define(self, kind: str, *fields: Field) -> str:
        """One more record, of a kind that has a name. It gives that."""
        made = name(self.rng, self.taken[kind])
        self.add(kind, made, *fields)
        return made

    def truck(self) -> Truck:
        """One more truck."""
        record, made = truck(self.rng, name(self.rng, self.taken["truck"]))
        self.records.append(record)
        return made

    def segment(self) -> Segment:
        """One more segment."""
        start, end = self.rng.choice(self.nodes), self.rng.choice(self.nodes)
        return Segment(self.define("segment", start, end, digits(self.rng, self.rng.choice(self.feet))), start, end)

    def span(self) -> Span:
        """One more span, whose rating some truck just meets."""
        inches = self.rng.choice(self.lengths)
        effects = self.rng.choice(self.trucks).effects(inches)
        rating = trucks.rating(self.rng, effects, inches)
        segment = self.rng.choice(self.segments).name
        return Span(self.define("span", segment, inches, digits(self.rng, rating)), inches)

    def limit(self, segment: str) -> tuple[str, str, str]:
        """A limit of a segment, mostly about what some truck has."""
        rng, it = self.rng, self.rng.choice(self.trucks)
        what = rng.choice(("closed", "closed", "height", "width", "length", "gross", "allowance", "allowance",
                           "tridem"))
        least, most = RANGES[what]
        if what == "closed":
            value = rng.randrange(2)
        elif what == "allowance":
            value = 1000 * it.worst.weight // it.worst.limit + rng.choice((0, 1))
        elif what == "tridem":
            heaviest = it.heaviest_tridem
            value = (heaviest.weight if heaviest else it.gross) + rng.choice((-1, 0, 0, 1))
        else:
            value = getattr(it, what) + rng.choice((-1, 0, 0, 1))
        value = rng.choice((value, value, value, least, most, most))
        return segment, what, digits(rng, min(max(least, value), most))

    def day(self, apart: int) -> str:
        """A day about the one that it may be by then."""
        number = self.today.toordinal() + self.passed + apart
        return datetime.date.fromordinal(min(max(1, number), datetime.date.max.toordinal())).isoformat()

    def walk(self, start: str) -> tuple[list[str], str]:
        """An asked route from a node, and where it ends."""
        route, at = [], start
        for _ in range(self.rng.randint(1, 6)):
            onward = [segment for segment in self.segments if segment.start == at]
            if not onward:
                break
            segment = self.rng.choice(onward)
            route.append(segment.name)
            at = segment.end
        return route, at

    def walks(self, start: str) -> tuple[list[list[str]], str]:
        """Asked routes from a node, one or several, and where they end."""
        rng = self.rng
        route, end = self.walk(start)
        if rng.random() < 0.5:
            return [route], end
        others = [other for other, at in (self.walk(start) for _ in range(12)) if at == end]
        return [route, *(rng.choice([route, *others]) for _ in range(rng.choice((1, 1, 2, MOST_ROUTES - 1))))], end

    def command(self) -> None:
        """One more command of some actor."""
        rng, actor = self.rng, self.rng.choice(self.actors)
        kind = rng.choices(("apply", "post", "setday", "surrender", "show"), (50, 28, 3, 9, 10))[0]
        if kind == "apply":
            self.apply(actor)
        elif kind == "setday":
            apart = rng.choice((-1, 0, 1, 2))
            self.add("setday", actor, self.day(apart))
            self.passed += max(0, apart)
        elif kind == "post":
            self.post(actor)
        else:
            numbers = (0, 1, 999999999, self.issued, *[rng.randint(0, self.issued // 2 + 1)] * 6)
            self.add(kind, actor, digits(rng, rng.choice(numbers)))

    def post(self, actor: str) -> None:
        """A posting on a span or on a segment, at times on one that was asked for."""
        rng = self.rng
        if self.spans and rng.random() < 0.4:
            span = rng.choice(self.spans)
            effects = rng.choice(self.trucks).effects(span.inches)
            self.add("post", actor, span.name, "rating", trucks.rating(rng, effects, span.inches))
            return
        is_asked = self.asked and rng.random() < 0.3
        segment = rng.choice(self.asked) if is_asked else rng.choice(self.segments).name
        self.add("post", actor, *self.limit(segment))

    def apply(self, actor: str) -> None:
        """An application between two nodes, at times for a route or for several."""
        rng = self.rng
        start, end = rng.choice(self.nodes), rng.choice(self.nodes)
        routes: list[list[str]] = []
        if rng.random() < 0.3:
            routes, end = self.walks(start)
            self.asked = [segment for route in routes for segment in route]
        if start == end:
            routes, end = [], rng.choice([node for node in self.nodes if node != start])
        first = rng.choice((0, 0, 0, 0, 0, 0, 0, 0, -1, 1, 2))
        self.issued += 1
        last = first + rng.choice((0, 1, 5, MOST_ANNUAL_DAYS))
        it = rng.choice(self.trucks).name
        asked = "|".join(" ".join(route) for route in routes)
        self.add("apply", actor, it, start, end, asked, self.day(first), self.day(last))

    def file(self) -> list[Record]:
        """All records, mixed, yet each name defined before it is referred to."""
        records = mixed(self.rng, self.records) if self.rng.random() < 0.5 else self.records
        return [full(["day", self.today.isoformat()]), *records, full(["end"])]


def needed(record: Record) -> set[tuple[Field, Field]]:
    """The names that a record refers to, each with its kind."""
    names: set[tuple[Field, Field]] = {(kind, record[at]) for at, kind in REFERS.get(str(record[0]), {}).items()}
    if record[0] == "apply":
        names |= {("segment", made) for made in str(record[5]).replace("|", " ").split()}
    if record[0] == "post":
        names.add(("span" if record[3] == "rating" else "segment", record[2]))
    return names


def mixed(rng: Random, records: Sequence[Record]) -> list[Record]:
    """The records in another order, in which each name is still defined before it is referred to."""
    waiting, order = list(records), []
    there: set[tuple[Field, Field]] = set()
    while waiting:
        ready = [record for record in waiting if needed(record) <= there]
        record = rng.choice(ready)
        waiting.remove(record)
        order.append(record)
        there.add((record[0], record[1]))
    return order


def day_file(rng: Random, actors: int = 1, commands: int | None = None) -> list[Record]:
    """A day of so many actors, with so many commands or with some."""
    count = rng.choice((0, 3, 10, 30)) if commands is None else commands
    return Day(rng, actors, count if actors else 0).file()
