"""The office of one thread: what it answers to each call, and what it keeps.

All numbers begin at 0 here and are printed from 1 on, but for those of permits and versions.
"""
from collections.abc import Sequence
from dataclasses import dataclass
from itertools import chain
from typing import NamedTuple

from .files import DayFile, Posting, Routes, Trip
from .roads import Roads

# how many entries the history of an office has at most
MOST_ENTRIES = 1000000


class Found(NamedTuple):
    """What is found for an application: its kind, and the segments or the nodes that are listed with it, or routes.

    `none` needs no permit, `fails` lists a segment that was asked for and fails the truck, `route` has the routes that
    were asked for or the shortest one, and `cut` lists the nodes that the truck reaches, where the end is not among
    them.
    """

    kind: str
    listed: Sequence[int] = ()
    routes: Routes = ()

    def __str__(self) -> str:
        """What was found, as a submit says it."""
        if self.kind == "none":
            return self.kind
        return f"{self.kind} {routes_text(self.routes) if self.routes else numbers(self.listed)}"


class Recall(NamedTuple):
    """A permit that was recalled, and the version that recalled it."""

    permit: int
    version: int


@dataclass
class Permit:
    """A permit, and the mark that ends it: `recalled` with a version, or `surrendered`."""

    caller: int
    trip: Trip
    routes: Routes
    version: int
    seen: int
    mark: str = ""


def numbers(values: Sequence[int], first: int = 1) -> str:
    """Numbers as the journal lists them, the first of all numbers being this one."""
    return ",".join(str(value + first) for value in values) if values else "-"


def routes_text(routes: Routes) -> str:
    """Routes as the journal has them."""
    return "/".join(map(numbers, routes))


def trip_text(trip: Trip) -> str:
    """An application, as a submit says it."""
    asked = routes_text(trip.asked) if trip.asked else "none"
    return (f"truck {trip.truck + 1} from {trip.start + 1} to {trip.end + 1} asked {asked} "
            f"days {trip.first} {trip.last}")


class Office:
    """The roads with what is posted, the day, the permits so far, and the recalls."""

    def __init__(self, file: DayFile) -> None:
        self.roads, self.trucks, self.today = Roads(file), file.trucks, file.day
        self.permits: list[Permit] = []
        # of these the ones without a mark, by their numbers, rising
        self.live: dict[int, Permit] = {}
        self.recalls: list[Recall] = []
        self.found: dict[tuple[int, int, int, Routes, int], Found] = {}

    def finding(self, trip: Trip, version: int) -> Found:
        """What is found for an application at a version."""
        key = (trip.truck, trip.start, trip.end, trip.asked, version)
        if key not in self.found:
            self.found[key] = self.find(*key)
        return self.found[key]

    def find(self, truck: int, start: int, end: int, asked: Routes, version: int) -> Found:
        """The same, searched for."""
        roads = self.roads
        if self.trucks[truck].is_legal():
            return Found("none")
        for segment in chain.from_iterable(asked):
            if not roads.meets(truck, segment, version):
                return Found("fails", (segment,))
        if asked:
            return Found("route", routes=asked)
        shortest = roads.shortest(truck, start, end, version)
        if shortest:
            return Found("route", routes=(shortest,))
        anywhere = roads.reached(start, lambda segment: True)
        if end not in anywhere:
            return Found("cut", anywhere)
        return Found("cut", roads.reached(start, lambda segment: roads.meets(truck, segment, version)))

    def answer(self, caller: int, trip: Trip, seen: int, found: Found) -> str:
        """The reply to an application for which this was found at the version seen."""
        truck, roads = trip.truck, self.roads
        if trip.first < self.today:
            return f"late {self.today}"
        if self.trucks[truck].is_legal():
            return "notneeded"
        if found.kind == "route":
            return self.answer_routes(caller, trip, seen, found.routes)
        in_the_way = roads.leaving(found.listed) if found.kind == "cut" else found.listed
        if not in_the_way:
            return "noroad"
        for segment in in_the_way:
            if roads.meets(truck, segment, roads.version):
                return f"outdated {roads.version} meets segment {segment + 1}"
        return f"refused {roads.version} {roads.limit(truck, in_the_way[0], roads.version)}"

    def answer_routes(self, caller: int, trip: Trip, seen: int, routes: Routes) -> str:
        """The reply where all routes that were asked for were found to meet, or a route was found."""
        version = self.roads.version
        for segment in chain.from_iterable(routes):
            limit = self.roads.limit(trip.truck, segment, version)
            if limit:
                return f"outdated {version} fails {limit}"
        self.permits.append(Permit(caller, trip, routes, version, seen))
        self.live[len(self.permits)] = self.permits[-1]
        return f"issued {len(self.permits)} at {version} route {routes_text(routes)}"

    def take_back(self, permits: int) -> None:
        """Goes back to the first so many permits, where the others are still without a mark."""
        while len(self.permits) > permits:
            del self.live[len(self.permits)]
            del self.permits[-1]

    def status(self, permit: Permit) -> str:
        """What has become of a permit by today."""
        return permit.mark or ("expired" if permit.trip.last < self.today else "inforce")

    def post(self, posting: Posting) -> str:
        """A posting recalls the permits in force that then list a segment which the truck may not pass."""
        if not self.roads.post(posting):
            return "range"
        version, gone = self.roads.version, []
        for number, permit in self.live.items():
            listed = chain.from_iterable(permit.routes)
            meets = all(self.roads.meets(permit.trip.truck, segment, version) for segment in listed)
            if self.status(permit) == "inforce" and not meets:
                permit.mark = f"recalled {version}"
                gone.append(number)
        for number in gone:
            del self.live[number]
        self.recalls += [Recall(number, version) for number in gone]
        return f"posted {version} recalled {numbers(gone, 0)}"

    def set_day(self, day: str) -> str:
        """The day may stay or go on, and never goes back."""
        if day < self.today:
            return f"dayback {self.today}"
        self.today = day
        return f"day {day}"

    def permit(self, number: int) -> Permit | None:
        """The permit of a number, counted from 1."""
        return self.permits[number - 1] if 1 <= number <= len(self.permits) else None

    def surrender(self, caller: int, number: int) -> str:
        """A permit is surrendered by the actor that has it, while it is in force."""
        permit = self.permit(number)
        if not permit:
            return "unknown"
        if permit.caller != caller:
            return "notyours"
        if self.status(permit) != "inforce":
            return f"notinforce {self.status(permit)}"
        permit.mark = "surrendered"
        del self.live[number]
        return "surrendered"

    def show(self, number: int) -> str:
        """What is known of a permit."""
        permit = self.permit(number)
        if not permit:
            return "unknown"
        trip = permit.trip
        return (f"shown {number} caller {permit.caller + 1} truck {trip.truck + 1} days {trip.first} {trip.last} "
                f"at {permit.version} seen {permit.seen} {self.status(permit)}")

    def notices(self) -> str:
        """What standard error is told of the recalls."""
        return "".join(f"recall {recall.permit} {recall.version}\n" for recall in self.recalls)
