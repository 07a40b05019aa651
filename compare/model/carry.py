"""The next day's file: what the office of a whole day leaves, written as a day file with which another office goes on.

It has the day, the roads with what is in force on them, the trucks and the actors. For each permit in force there is
one command, an application of its holder for just the routes that the permit has. So an office that begins with the
file and carries out its commands issues just these permits once more, with the numbers 1, 2 and so on.
"""
from collections.abc import Iterator

from .certify import whole_day
from .files import DayFile, Refused
from .office import Office, Permit
from .records import MOST_BYTES

FIELDS, TOO_MUCH = 8, 6
# the value of each limit of a segment without one, in the order in which the limits of a segment stand
WITHOUT = {"closed": 0, "height": 999, "width": 999, "length": 9999, "gross": 2000000, "allowance": 100000,
           "tridem": 600000}
# the status, what is written, and what standard error is told
Answer = tuple[int, str, str]


def record(*fields: str | int) -> str:
    """A record. No name, number or day has anything in it for which its field would be quoted."""
    return ",".join([*map(str, fields), *[""] * (FIELDS - len(fields))]) + "\n"


class Left:
    """What a day leaves, by the names of its file."""

    def __init__(self, file: DayFile, office: Office) -> None:
        self.file, self.office = file, office
        self.nodes, self.segments, self.spans = (list(file.names[kind]) for kind in ("nodes", "segments", "spans"))
        self.trucks, self.actors = list(file.names["trucks"]), list(file.names["actors"])
        # the permits in force by their numbers, rising
        self.permits = {number: permit for number, permit in enumerate(office.permits, 1)
                        if office.status(permit) == "inforce"}

    def roads(self) -> Iterator[str]:
        """The nodes, the segments, and the spans with the ratings that are in force."""
        for node in self.nodes:
            yield record("node", node)
        for name, segment in zip(self.segments, self.file.segments):
            yield record("segment", name, self.nodes[segment.start], self.nodes[segment.end], segment.feet)
        for number, (name, span) in enumerate(zip(self.spans, self.file.spans)):
            roads = self.office.roads
            rating = roads.posted[span.segment][-1].ratings[roads.spans_of[span.segment].index(number)]
            yield record("span", name, self.segments[span.segment], span.inches, rating)

    def trucks_of(self, is_all: bool) -> Iterator[str]:
        """All trucks, or those alone that have a permit in force."""
        having = {permit.trip.truck for permit in self.permits.values()}
        for number, truck in enumerate(self.file.trucks):
            if is_all or number in having:
                axles = " ".join(f"{place}:{weight}" for place, weight in truck.axles)
                yield record("truck", truck.name, truck.carrier, truck.height, truck.width, truck.length, axles)

    def limits(self) -> Iterator[str]:
        """What is in force on each segment and would not be there without a limit."""
        for name, posted in zip(self.segments, self.office.roads.posted):
            for what, value in WITHOUT.items():
                if getattr(posted[-1], what) != value:
                    yield record("limit", name, what, getattr(posted[-1], what))

    def application(self, permit: Permit) -> str:
        """The application for a permit that is in force, from today on where its first day has passed."""
        trip = permit.trip
        routes = "|".join(" ".join(self.segments[segment] for segment in route) for route in permit.routes)
        return record("apply", self.actors[permit.caller], self.trucks[trip.truck], self.nodes[trip.start],
                      self.nodes[trip.end], routes, max(trip.first, self.office.today), trip.last)

    def records(self, is_all: bool) -> Iterator[str]:
        """The records of the next day's file."""
        yield record("day", self.office.today)
        yield from self.roads()
        yield from self.trucks_of(is_all)
        yield from (record("actor", actor) for actor in self.actors)
        yield from self.limits()
        yield from (self.application(permit) for permit in self.permits.values())
        yield record("end")


def carried(data: bytes, is_in_force: bool = False) -> Answer:
    """What comes of a journal with its day file behind it; with `is_in_force` only trucks with a permit in force."""
    day = whole_day(data)
    if isinstance(day, Refused):
        return day.status, day.line, ""
    left = Left(day.file, day.office)
    text = "".join(left.records(not is_in_force))
    # the text is ASCII
    if len(text) > MOST_BYTES:
        return TOO_MUCH, "refused: bytes\n", ""
    return 0, text, "".join(f"carried {old} {new}\n" for new, old in enumerate(left.permits, 1))
