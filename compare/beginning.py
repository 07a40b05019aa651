"""Whether a next day's file keeps its promise: the office that it begins has just what the day before left.

It asks nothing of how the text is made. It is read as any day file is, and its commands are carried out one after
another: each is answered `issued`, with the next number at version 0. And then the office has the roads with what was
in force on them, the trucks, the actors and the permits of the day before, and no other.
"""
from collections.abc import Iterator, Sequence

from model.certify import whole_day
from model.files import DayFile, Refused
from model.journal import serial
from model.office import Office, Permit
from model.roads import Posted

# of a permit: its holder, its truck, its places and routes by their names, and its two days
Held = tuple[str, ...]


class Named:
    """An office with the names of its file."""

    def __init__(self, file: DayFile, office: Office) -> None:
        self.file, self.office = file, office

    def names(self, kind: str) -> list[str]:
        """The names of a kind, by their numbers."""
        return list(self.file.names[kind])

    def roads(self) -> Sequence[object]:
        """The roads, without what is posted on them."""
        return [self.names(kind) for kind in ("nodes", "segments", "spans", "actors")], self.file.segments, [
            (span.segment, span.inches) for span in self.file.spans]

    def posted(self) -> list[Posted]:
        """What is in force on each segment."""
        return [posted[-1] for posted in self.office.roads.posted]

    def trucks(self) -> list[Sequence[object]]:
        """The trucks."""
        return [(it.name, it.carrier, it.height, it.width, it.length, *it.axles) for it in self.file.trucks]

    def held(self, permit: Permit, today: str) -> Held:
        """What a permit says, from a day on."""
        trip, nodes, segments = permit.trip, self.names("nodes"), self.names("segments")
        routes = (" ".join(segments[number] for number in route) for route in permit.routes)
        return (self.names("actors")[permit.caller], self.names("trucks")[trip.truck], nodes[trip.start],
                nodes[trip.end], *routes, max(trip.first, today), trip.last)

    def in_force(self) -> dict[int, Permit]:
        """The permits in force, by their numbers."""
        return {number: permit for number, permit in enumerate(self.office.permits, 1)
                if self.office.status(permit) == "inforce"}


def endings(permits: Sequence[Permit]) -> Iterator[str]:
    """How the entries of the next day's commands have to end."""
    for number, permit in enumerate(permits, 1):
        routes = "/".join(",".join(str(segment + 1) for segment in route) for route in permit.routes)
        yield " snapshot = at 0"
        yield f" = issued {number} at 0 route {routes}"


def broken(data: bytes, is_in_force: bool, text: str, told: str) -> str | None:
    """What is wrong with the next day's file of a whole day, and with what was told, or None."""
    day = whole_day(data)
    if isinstance(day, Refused):
        return "there is a next day of what is refused"
    old = Named(day.file, day.office)
    permits = old.in_force()
    try:
        file = DayFile(text.encode("latin-1"))
    except Refused as refused:
        return f"the next day is {refused.line.strip()}"
    if told != "".join(f"carried {number} {at}\n" for at, number in enumerate(permits, 1)):
        return f"standard error is told {told!r}, and the permits in force are {list(permits)}"
    office, entries = serial(file)
    new = Named(file, office)
    having = {old.names("trucks")[permit.trip.truck] for permit in permits.values()}
    for name, is_so in (
        ("day", file.day == day.office.today),
        ("roads", new.roads() == old.roads()),
        ("limits and ratings", new.posted() == old.posted()),
        ("trucks", new.trucks() == [it for it in old.trucks() if not is_in_force or it[0] in having]),
        ("answers", len(entries) == 2 * len(permits) and all(map(str.endswith, entries, endings([*permits.values()])))),
        ("permits", [new.held(it, file.day) for it in new.in_force().values()]
         == [old.held(it, file.day) for it in permits.values()] and len(office.permits) == len(permits)),
    ):
        if not is_so:
            return f"the {name} of the next day are not those that the day left"
    return None
