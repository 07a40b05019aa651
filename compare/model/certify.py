"""The certificate of a journal beside its day file: whether it is the journal of the whole day.

It asks all that an audit asks, and then that the entries of each actor are those of its commands, in their order, and
that nobody else has one. A command is one call, and an application is several: up to eight attempts, of which each but
the last was out of date, and each is a snapshot and a submit that names its version; after eight that were out of date
it is one call more, for which the office looks itself.

Each actor is gone through by itself, as a reader goes through a text: its commands say what is read next of its own
entries. So the first entry that fits nowhere is the least of those that the readers stumble at, and the first command
that is not finished is the least of those at which they come to an end.
"""
from collections.abc import Callable
from functools import lru_cache
from typing import NamedTuple

from .audit import NO_MEMORY, NotSo, legal, parted, read_both
from .files import Command, DayFile, Posting, Refused, Trip
from .journal import ATTEMPTS
from .office import Office
from .reading import Entry, Held, Simple, Submit
from .records import MOST_BYTES

MOST_OF_JOURNAL = 268435456
# the word of a command's call, where it is another one
WORDS = {"setday": "day"}


class Strays(Exception):
    """An entry is not the next one of its caller's."""

    def __init__(self, number: int) -> None:
        super().__init__(f"entry {number}")
        self.number = number


class Ends(Exception):
    """An actor has no further entry, where one should come."""


class Own:
    """The entries of one caller, each with its number in the journal, read from the front."""

    def __init__(self, entries: list[tuple[int, Entry]]) -> None:
        self.waiting = entries[::-1]

    def next(self, fits: Callable[[Entry], bool]) -> Entry:
        """The next entry, which has to be one that fits, and whose reply is not that memory was wanting."""
        if not self.waiting:
            raise Ends
        number, entry = self.waiting.pop()
        if entry.reply == NO_MEMORY or not fits(entry):
            raise Strays(number)
        return entry

    def end(self) -> None:
        """There is no further entry."""
        if self.waiting:
            raise Strays(self.waiting[-1][0])


def read_application(own: Own, trip: Trip) -> None:
    """Reads what an application is carried out by."""
    for _ in range(ATTEMPTS):
        look = own.next(lambda entry: entry.call == Simple("snapshot"))
        attempt = own.next(lambda entry: isinstance(entry.call, Submit) and entry.call.trip == trip
                           and look.reply == f"at {entry.call.seen}")
        if not attempt.reply.startswith("outdated "):
            return
    own.next(lambda entry: entry.call == Held(trip))


def read_command(own: Own, command: Command) -> None:
    """Reads what a command is carried out by."""
    what = command.what
    if isinstance(what, Trip):
        read_application(own, what)
        return
    call = what if isinstance(what, Posting) else Simple(WORDS.get(command.kind, command.kind), what)
    own.next(lambda entry: entry.call == call)


def read_script(own: Own, commands: list[tuple[int, Command]]) -> int | None:
    """Reads an actor's commands, each with its row. Gives the row of the first that is not finished, or None."""
    for row, command in commands:
        try:
            read_command(own, command)
        except Ends:
            return row
    own.end()
    return None


def whole(file: DayFile, entries: list[Entry]) -> None:
    """Refuses a history that is not that of the whole day."""
    numbered = list(enumerate(entries, 1))
    stray = [number for number, entry in numbered if entry.caller >= file.actors]
    lacking = list[int]()
    for actor in range(file.actors):
        own = Own([(number, entry) for number, entry in numbered if entry.caller == actor])
        try:
            row = read_script(own, [it for it in zip(file.command_rows, file.commands) if it[1].actor == actor])
        except Strays as at:
            stray.append(at.number)
        else:
            lacking += [] if row is None else [row]
    if stray:
        raise NotSo(f"not whole: entry {min(stray)}")
    if lacking:
        raise NotSo(f"not whole: record {min(lacking)}")


class WholeDay(NamedTuple):
    """The journal of the whole of a day: its entries, the day file, and the office that they leave."""

    entries: list[Entry]
    file: DayFile
    office: Office


def read_whole(data: bytes) -> WholeDay:
    """Reads a journal with its day file behind it. Refuses what is not that of the whole day."""
    journal, day = parted(data)
    if len(journal) > MOST_OF_JOURNAL or len(day) > MOST_BYTES:
        raise Refused(6, "bytes")
    entries, file = read_both(journal, day)
    office = legal(file, entries)
    whole(file, entries)
    return WholeDay(entries, file, office)


@lru_cache(maxsize=1)
def whole_day(data: bytes) -> WholeDay | Refused:
    """The whole day, or its refusal. It is kept, since a certificate and two next days are made of the same bytes."""
    try:
        return read_whole(data)
    except Refused as refused:
        return refused


def certified(data: bytes) -> tuple[int, str]:
    """The status of a certificate, and the line that is written."""
    day = whole_day(data)
    return (day.status, day.line) if isinstance(day, Refused) else (0, f"whole {len(day.entries)}\n")
