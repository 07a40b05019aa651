"""The check file and the day file: what some bytes say, or the first record that is refused and the cause.

A kind of record is a list of columns. A column knows the form of its field, whether it defines a name or refers to one,
and the range of its value. So the causes `field`, `same`, `unknown` and `range` are each one pass over the columns, in
that order; what else may be wrong with a record follows them, and that there are too many of its kind comes last.
"""
from collections.abc import Callable, Sequence
from dataclasses import dataclass
from typing import Any, NamedTuple

from . import forms
from .limits import Axles
from .records import MOST_BYTES, is_text, records
from .trucks import Truck, broken_rule

# The values of a record, each as the form of its column gives it.
Values = list[Any]
# The numbers of the segments of a route, and one route or several.
Route = tuple[int, ...]
Routes = tuple[Route, ...]
Bounds = tuple[int | None, int | None]

MOST = {"nodes": 4096, "segments": 16384, "spans": 2048, "trucks": 64, "actors": 16, "commands": 4096, "probes": 64}
MOST_SPANS_OF_SEGMENT = 16
MOST_ANNUAL_DAYS = 365


class Refused(Exception):
    """A file that is refused: the line that is written, and the status."""

    def __init__(self, status: int, what: str) -> None:
        super().__init__(what)
        self.status, self.line = status, f"refused: {what}\n"


class Probe(NamedTuple):
    """The length of a span and its rating."""

    inches: int
    rating: int


class Segment(NamedTuple):
    """The numbers of two nodes, and how far it is from the one to the other."""

    start: int
    end: int
    feet: int


class Span(NamedTuple):
    """The number of its segment, its length, and its rating before anything is posted."""

    segment: int
    inches: int
    rating: int


class Trip(NamedTuple):
    """An application: a truck, two nodes, the routes that are asked for (none: the shortest one), and two days.

    It is annual where two or more are asked for.
    """

    truck: int
    start: int
    end: int
    asked: Routes
    first: str
    last: str


class Posting(NamedTuple):
    """A value of a limit of a segment, or of the rating of a span."""

    item: int
    limit: str
    value: int


class Command(NamedTuple):
    """What an actor gives: of kind `setday` a day, of `surrender` and `show` the number of a permit."""

    actor: int
    kind: str
    what: Trip | Posting | str | int


@dataclass(frozen=True)
class Column:
    """A field of a kind of record: its form, the kind of name that it defines or refers to, and its range.

    What a field refers to, and its range, may rest on the record: then a function of the record's values gives it.
    """

    form: Callable[[bytes], Any]
    defines: str | None = None
    refers: str | Callable[[Values], str] | None = None
    least: int | Callable[[Values], Bounds] | None = None
    most: int | None = None

    def referred(self, record: Values) -> str | None:
        """The kind of name that this field refers to, in this record."""
        return self.refers(record) if callable(self.refers) else self.refers

    def names(self, value: Any) -> list[str]:
        """The names that the field holds: one, or those of all routes."""
        return [name for route in value for name in route] if isinstance(value, list) else [value]

    def range(self, record: Values) -> Bounds:
        """The least and the greatest value of this field, in this record; None where there is no limit."""
        return self.least(record) if callable(self.least) else (self.least, self.most)

    def fits(self, value: Any, record: Values) -> bool:
        """Whether the value is in its range, or is a day of the calendar."""
        if self.form is forms.day:
            return forms.is_day(value)
        least, most = self.range(record)
        return (least is None or least <= value) and (most is None or value <= most)


def defines(kind: str) -> Column:
    """A name that is defined here."""
    return Column(forms.name, defines=kind)


def refers(kind: str) -> Column:
    """A name that has to be defined above."""
    return Column(forms.name, refers=kind)


def number(least: int | None = None, most: int | None = None) -> Column:
    """A number of this range."""
    return Column(forms.number, least=least, most=most)


def value(what: int) -> Column:
    """A value whose range is that of the limit in column `what` of the record."""
    return Column(forms.number, least=lambda record: forms.RANGES.get(record[what], (None, None)))


DAY = Column(forms.day)
ITEM = Column(forms.name, refers=lambda record: "spans" if record[2] == "rating" else "segments")
ROUTES = Column(forms.routes, refers="segments")
TRUCK = [Column(forms.name), number(1, 999), number(1, 999), number(1, 9999), Column(forms.axles)]

CHECK_KINDS: dict[str, list[Column]] = {
    "truck": [Column(forms.name), *TRUCK],
    "probe": [number(1, 6000), number(0, 100000)],
    "end": [],
}
DAY_KINDS: dict[str, list[Column]] = {
    "day": [DAY],
    "node": [defines("nodes")],
    "segment": [defines("segments"), refers("nodes"), refers("nodes"), number(1, 10000000)],
    "limit": [refers("segments"), Column(forms.limit), value(1)],
    "span": [defines("spans"), refers("segments"), number(1, 6000), number(0, 100000)],
    "truck": [defines("trucks"), *TRUCK],
    "actor": [defines("actors")],
    "apply": [refers("actors"), refers("trucks"), refers("nodes"), refers("nodes"), ROUTES, DAY, DAY],
    "post": [refers("actors"), ITEM, Column(forms.posted), value(2)],
    "setday": [refers("actors"), DAY],
    "surrender": [refers("actors"), number()],
    "show": [refers("actors"), number()],
    "end": [],
}
COMMANDS = ("apply", "post", "setday", "surrender", "show")


class File:
    """What some bytes say, record by record. `names` has the number of each name of each kind."""

    kinds: dict[str, list[Column]] = {}
    first = ""

    def __init__(self, data: bytes) -> None:
        self.weigh(data)
        self.names: dict[str, dict[str, int]] = {"nodes": {}, "segments": {}, "spans": {}, "trucks": {}, "actors": {}}
        self.row, self.ended = 0, False
        for record in records(data):
            self.row += 1
            self.take(record)
        if not self.ended:
            self.row += 1
            self.refuse("end")

    def weigh(self, data: bytes) -> None:
        """Whether there are too many bytes."""
        if len(data) > MOST_BYTES:
            raise Refused(6, "bytes")

    def refuse(self, cause: str, status: int = 5) -> None:
        """Refuses the record at hand."""
        raise Refused(status, f"record {self.row} {cause}")

    def demand(self, holds: bool, cause: str) -> None:
        """Refuses the record at hand for this cause, unless something holds of it."""
        if not holds:
            self.refuse(cause)

    def room(self, kind: str, count: int) -> None:
        """One more of this kind, where there are so many already."""
        if count >= MOST[kind]:
            self.refuse(kind, 6)

    def take(self, record: list[bytes]) -> None:
        """Takes in the record at hand, or refuses it for the first cause there is."""
        self.demand(len(record) == 8 and is_text(record), "fields")
        kind = record[0].decode()
        self.demand(kind in self.kinds, "kind")
        self.demand((kind == self.first) == (self.row == 1) and not self.ended, "order")
        columns = self.kinds[kind]
        self.demand(not any(record[len(columns) + 1:]), "extra")
        values = self.in_form(columns, record[1:])
        self.in_place(columns, values)
        if kind == "end":
            self.ended = True
        else:
            getattr(self, f"add_{kind}")(*values)

    def in_form(self, columns: list[Column], fields: list[bytes]) -> Values:
        """The values of the fields, each of which has its form."""
        values: Values = []
        for at, (column, field) in enumerate(zip(columns, fields), 2):
            values.append(column.form(field))
            self.demand(values[-1] is not None, f"field {at}")
        return values

    def in_place(self, columns: list[Column], values: Values) -> None:
        """Whether names are new where defined and known where used, and whether values are in their ranges."""
        for column, it in zip(columns, values):
            self.demand(not column.defines or it not in self.names[column.defines], "same")
        for at, (column, it) in enumerate(zip(columns, values), 2):
            kind = column.referred(values)
            self.demand(not kind or all(name in self.names[kind] for name in column.names(it)), f"unknown {at}")
        for at, (column, it) in enumerate(zip(columns, values), 2):
            self.demand(column.fits(it, values), f"range {at}")

    def truck_of(self, name: str, carrier: str, height: int, width: int, length: int, axles: Axles) -> Truck:
        """A truck whose axles keep the rules of trains."""
        broken = broken_rule(axles)
        self.demand(broken is None, f"train {broken}")
        return Truck(name, carrier, height, width, length, axles)


class CheckFile(File):
    """One truck and its probes."""

    kinds, first = CHECK_KINDS, "truck"
    truck: Truck

    def __init__(self, data: bytes) -> None:
        self.probes: list[Probe] = []
        super().__init__(data)

    def add_truck(self, *values: Any) -> None:
        self.truck = self.truck_of(*values)

    def add_probe(self, inches: int, rating: int) -> None:
        self.room("probes", len(self.probes))
        self.probes.append(Probe(inches, rating))


class DayFile(File):
    """Roads, trucks and actors, each numbered from 0 in the order of the records, and the commands in their order.

    `values` are the limits of each segment before anything is posted, and `command_rows` are the rows of the records of
    the commands.
    """

    kinds, first = DAY_KINDS, "day"
    day: str

    def __init__(self, data: bytes) -> None:
        self.segments: list[Segment] = []
        self.values: list[dict[str, int]] = []
        self.spans: list[Span] = []
        self.trucks: list[Truck] = []
        self.actors = 0
        self.commands: list[Command] = []
        self.command_rows: list[int] = []
        super().__init__(data)

    def add(self, kind: str, name: str) -> None:
        """Gives a name of this kind the next number."""
        numbers = self.names[kind]
        self.room(kind, len(numbers))
        numbers[name] = len(numbers)

    def add_day(self, day: str) -> None:
        self.day = day

    def add_node(self, name: str) -> None:
        self.add("nodes", name)

    def add_segment(self, name: str, start: str, end: str, feet: int) -> None:
        self.add("segments", name)
        nodes = self.names["nodes"]
        self.segments.append(Segment(nodes[start], nodes[end], feet))
        self.values.append({what: 0 if what == "closed" else forms.RANGES[what][1] for what in forms.LIMITS})

    def add_limit(self, segment: str, what: str, it: int) -> None:
        self.values[self.names["segments"][segment]][what] = it

    def add_span(self, name: str, segment: str, inches: int, rating: int) -> None:
        on = self.names["segments"][segment]
        self.room("spans", len(self.spans))
        if sum(segment == on for segment, _, _ in self.spans) >= MOST_SPANS_OF_SEGMENT:
            self.refuse("spans-of-segment", 6)
        self.add("spans", name)
        self.spans.append(Span(on, inches, rating))

    def add_truck(self, *values: Any) -> None:
        truck = self.truck_of(*values)
        self.add("trucks", truck.name)
        self.trucks.append(truck)

    def add_actor(self, name: str) -> None:
        self.add("actors", name)
        self.actors += 1

    def command(self, actor: str, kind: str, what: Trip | Posting | str | int) -> None:
        """Takes in one more command."""
        self.room("commands", len(self.commands))
        self.commands.append(Command(self.names["actors"][actor], kind, what))
        self.command_rows.append(self.row)

    def add_apply(self, actor: str, truck: str, start: str, end: str, routes: list[list[str]], first: str,
                  last: str) -> None:
        nodes, segments = self.names["nodes"], self.names["segments"]
        self.demand(start != end, "same-place")
        asked = tuple(tuple(segments[name] for name in route) for route in routes)
        self.demand(all(self.is_walk(route, nodes[start], nodes[end]) for route in asked), "broken-route")
        self.demand(first <= last, "day-order")
        is_annual = len(asked) > 1
        self.demand(not is_annual or forms.days_between(first, last) <= MOST_ANNUAL_DAYS, "annual-days")
        trip = Trip(self.names["trucks"][truck], nodes[start], nodes[end], asked, first, last)
        self.command(actor, "apply", trip)

    def is_walk(self, route: Sequence[int], start: int, end: int) -> bool:
        """Whether each segment of a route begins where the one before it ends."""
        for number in route:
            begins, ends, _ = self.segments[number]
            if begins != start:
                return False
            start = ends
        return start == end

    def add_post(self, actor: str, item: str, what: str, it: int) -> None:
        kind = "spans" if what == "rating" else "segments"
        self.command(actor, "post", Posting(self.names[kind][item], what, it))

    def add_setday(self, actor: str, day: str) -> None:
        self.command(actor, "setday", day)

    def add_surrender(self, actor: str, permit: int) -> None:
        self.command(actor, "surrender", permit)

    def add_show(self, actor: str, permit: int) -> None:
        self.command(actor, "show", permit)
