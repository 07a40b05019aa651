"""The audit of a journal beside its day file: whether each entry is a step of the office of one thread.

It asks nothing of the file's actors and of their commands: any caller may make any call. What it asks is that a call
may be made, and that its reply is the one that the office gives after the entries above it. Where memory may be
wanting, a reply may say so in the place of some others, and then nothing has changed.
"""
import re

from .files import MOST_ANNUAL_DAYS, DayFile, Posting, Refused, Trip
from .forms import days_between
from .office import MOST_ENTRIES, Office
from .reading import BadLine, Entry, Held, Simple, Submit, read
from .records import MOST_BYTES

NOT_SO = 9
NO_MEMORY = "nomemory"


class NotSo(Refused):
    """A journal that could be read, beside a day file that could, and is not what was asked: the line, and why."""

    def __init__(self, why: str) -> None:
        super().__init__(NOT_SO, why)
        self.line = f"{why}\n"


def parted(data: bytes) -> tuple[bytes, bytes]:
    """The journal, up to its first line that begins with `end` and a space, and the day file behind it."""
    end = re.search(rb"^end [^\n]*\n", data, re.M)
    return (data[:end.end()], data[end.end():]) if end else (data, b"")


def is_sound(file: DayFile, trip: Trip) -> bool:
    """Whether an application may be made: what it names is there, and it keeps the rules of its record."""
    nodes = len(file.names["nodes"])
    if trip.truck >= len(file.trucks) or max(trip.start, trip.end) >= nodes or trip.start == trip.end:
        return False
    if any(segment >= len(file.segments) for route in trip.asked for segment in route):
        return False
    are_walks = all(file.is_walk(route, trip.start, trip.end) for route in trip.asked)
    is_annual = len(trip.asked) > 1
    within = not is_annual or days_between(trip.first, trip.last) <= MOST_ANNUAL_DAYS
    return are_walks and trip.first <= trip.last and within


class Audit:
    """An office that goes through entries as long as each is a step."""

    def __init__(self, file: DayFile) -> None:
        self.file, self.office = file, Office(file)

    def is_step(self, entry: Entry) -> bool:
        """Whether an entry is a step from here; then it is taken."""
        call, reply = entry.call, entry.reply
        if isinstance(call, Submit):
            return self.is_submit(entry.caller, call, reply)
        if isinstance(call, Held):
            return self.is_held(entry.caller, call.trip, reply)
        if isinstance(call, Posting):
            wants_memory = reply == NO_MEMORY and self.office.roads.takes(call)
            return wants_memory or reply == self.office.post(call)
        return reply == self.simple(entry.caller, call)

    def simple(self, caller: int, call: Simple) -> str:
        """The reply to a call that takes no memory."""
        office, what = self.office, call.what
        if isinstance(what, int):
            return office.surrender(caller, what) if call.kind == "surrender" else office.show(what)
        return office.set_day(what) if call.kind == "day" else f"at {office.roads.version}"

    def is_submit(self, caller: int, call: Submit, reply: str) -> bool:
        """What is submitted has to be what is found at the version seen."""
        if not is_sound(self.file, call.trip) or call.seen > self.office.roads.version:
            return False
        found = self.office.finding(call.trip, call.seen)
        if str(found) != call.found:
            return False
        if reply != NO_MEMORY:
            return reply == self.office.answer(caller, call.trip, call.seen, found)
        return self.without_memory(caller, call.trip, call.seen).startswith("issued ")

    def is_held(self, caller: int, trip: Trip, reply: str) -> bool:
        """The office looks itself, at what is posted now."""
        if not is_sound(self.file, trip):
            return False
        seen = self.office.roads.version
        if reply != NO_MEMORY:
            return reply == self.office.answer(caller, trip, seen, self.office.finding(trip, seen))
        return not re.match("late |notneeded$", self.without_memory(caller, trip, seen))

    def without_memory(self, caller: int, trip: Trip, seen: int) -> str:
        """The reply that an application would have had, without the permit that it would have made."""
        permits = len(self.office.permits)
        reply = self.office.answer(caller, trip, seen, self.office.finding(trip, seen))
        self.office.take_back(permits)
        return reply


def read_both(journal: bytes, day: bytes) -> tuple[list[Entry], DayFile]:
    """The entries of a journal, and the day file; or whichever is refused first, the journal or the file."""
    try:
        entries = read(journal)
    except BadLine as bad:
        raise Refused(5, str(bad)) from bad
    return entries, DayFile(day)


def legal(file: DayFile, entries: list[Entry]) -> Office:
    """The office that a history leaves. Refuses entries that are none, or for which no office has room."""
    audit = Audit(file)
    for number, entry in enumerate(entries, 1):
        if number > MOST_ENTRIES or not audit.is_step(entry):
            raise NotSo(f"not legal: entry {number}")
    return audit.office


def audited(data: bytes) -> tuple[int, str]:
    """The status of an audit, and the line that is written."""
    try:
        if len(data) > MOST_BYTES:
            raise Refused(6, "bytes")
        entries, file = read_both(*parted(data))
        legal(file, entries)
    except Refused as refused:
        return refused.status, refused.line
    return 0, f"legal {len(entries)}\n"
