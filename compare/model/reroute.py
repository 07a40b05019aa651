"""What `reroute` writes for a day file: a desk of its own applies again for each permit that a posting recalled.

The commands are carried out one after another, in the order of the file, each for its own actor. After each of them the
desk makes one call for each permit that it recalled, as the caller behind the actors: the office looks for a route
itself, whatever route the permit had, and from today on where the permit's first day has passed.
"""
from collections.abc import Iterator

from .files import DayFile, Refused, Trip
from .journal import Actor
from .office import MOST_ENTRIES, Office

TOO_MANY_ENTRIES = 10
# how a line says what the office replied. No other reply comes: the day is not past, the truck needs a permit, and its
# walk is still there
WORDS = {"issued": "replaced", "refused": "refused"}


class Desk:
    """An office with the desk, and how many entries its history has."""

    def __init__(self, file: DayFile) -> None:
        self.office, self.caller, self.entries = Office(file), file.actors, 0

    def count(self) -> None:
        """One more entry, for which there has to be room."""
        self.entries += 1
        if self.entries > MOST_ENTRIES:
            raise Refused(TOO_MANY_ENTRIES, "entries")

    def carry_out(self, actor: Actor) -> list[int]:
        """Makes all calls of an actor, and gives the permits that they recalled."""
        known = len(self.office.recalls)
        while not actor.is_done():
            actor.call(self.office).reply()
            self.count()
        return [recall.permit for recall in self.office.recalls[known:]]

    def again(self, old: int) -> Trip:
        """The application for a permit once more, for any route."""
        trip = self.office.permits[old - 1].trip
        return trip._replace(asked=(), first=max(trip.first, self.office.today))

    def replace(self, old: int) -> str:
        """Applies again for a recalled permit, and gives the line that tells what came of it."""
        trip, seen = self.again(old), self.office.roads.version
        reply = self.office.answer(self.caller, trip, seen, self.office.finding(trip, seen))
        self.count()
        word, _, rest = reply.partition(" ")
        return f"permit {old} {WORDS[word]} {rest}\n"


def lines(file: DayFile) -> Iterator[str]:
    """A line for each permit that was recalled, those of replacements among them."""
    desk = Desk(file)
    for command in file.commands:
        for old in desk.carry_out(Actor(command.actor, [command])):
            yield desk.replace(old)


def rerouted(data: bytes) -> tuple[int, str]:
    """The status, and what is written."""
    try:
        return 0, "".join(lines(DayFile(data)))
    except Refused as refused:
        return refused.status, refused.line
