"""The journal of a day with one actor, which is one text; and the judge of a journal, whatever turns its actors took.

A journal is right where each entry is a call that its actor may make next, with the reply that the office of one thread
gives after the entries above it, and where every actor's commands are all there at the end.
"""
from collections.abc import Callable, Sequence
from dataclasses import dataclass
from functools import partial

from .files import Command, DayFile, Posting, Trip
from .office import Office, trip_text

ATTEMPTS = 8
FIRST_LINE = "permit-journal 3"


class Wrong(Exception):
    """What is wrong with a journal."""


@dataclass
class Call:
    """A call as the journal has it, and what makes it and gives the reply."""

    text: str
    reply: Callable[[], str]


@dataclass
class Actor:
    """An actor among its commands: how often its application was out of date, and the version it last saw.

    After so many attempts that were out of date it has the office look itself.
    """

    number: int
    commands: Sequence[Command]
    at: int = 0
    tries: int = 0
    seen: int | None = None
    attempts: int = ATTEMPTS

    def is_done(self) -> bool:
        """Whether no command is left."""
        return self.at == len(self.commands)

    def call(self, office: Office) -> Call:
        """The call that this actor makes next."""
        command = self.commands[self.at]
        if isinstance(command.what, Trip):
            return self.apply(office, command.what)
        made = self.simple(office, command.kind, command.what)
        return Call(made.text, lambda: self.done(made.reply()))

    def simple(self, office: Office, kind: str, what: Posting | str | int) -> Call:
        """A command that is one call."""
        if isinstance(what, Posting):
            item = "span" if what.limit == "rating" else "segment"
            return Call(f"post {item} {what.item + 1} {what.limit} {what.value}", partial(office.post, what))
        if isinstance(what, str):
            return Call(f"day {what}", partial(office.set_day, what))
        if kind == "surrender":
            return Call(f"surrender {what}", partial(office.surrender, self.number, what))
        return Call(f"show {what}", partial(office.show, what))

    def apply(self, office: Office, trip: Trip) -> Call:
        """A snapshot, then a submit of what is found in it. After eight that were out of date the office finds it."""
        if self.seen is None and self.tries < self.attempts:
            return Call("snapshot", lambda: self.look(office))
        seen = office.roads.version if self.seen is None else self.seen
        found = office.finding(trip, seen)
        is_held = self.seen is None
        text = f"held {trip_text(trip)}" if is_held else f"submit {trip_text(trip)} seen {seen} {found}"
        return Call(text, lambda: self.answered(office.answer(self.number, trip, seen, found)))

    def look(self, office: Office) -> str:
        """Takes a snapshot."""
        self.seen = office.roads.version
        return f"at {self.seen}"

    def answered(self, reply: str) -> str:
        """Takes the reply to an application, which is made again where that was out of date."""
        if reply.startswith("outdated"):
            self.tries, self.seen = self.tries + 1, None
            return reply
        return self.done(reply)

    def done(self, reply: str) -> str:
        """Takes the reply that ends a command."""
        self.at, self.tries, self.seen = self.at + 1, 0, None
        return reply


def text_of(entries: Sequence[str]) -> str:
    """A journal of these entries."""
    lines = [FIRST_LINE, *entries, f"end {len(entries)}"]
    return "".join(f"{line}\n" for line in lines)


def serial(file: DayFile) -> tuple[Office, list[str]]:
    """The office and the entries where the commands are carried out one after another, each for its own actor."""
    office, entries = Office(file), []
    for command in file.commands:
        actor = Actor(command.actor, [command])
        while not actor.is_done():
            call = actor.call(office)
            entries.append(f"{command.actor + 1} {call.text} = {call.reply()}")
    return office, entries


def alone(file: DayFile) -> tuple[str, str]:
    """The journal of a day of at most one actor, and what standard error is told."""
    office, entries = serial(file)
    return text_of(entries), office.notices()


def entries_of(text: str) -> list[tuple[int, str]]:
    """The lines of a journal between its first and its last, with their row numbers."""
    lines = text.split("\n")
    if len(lines) < 3 or lines[0] != FIRST_LINE or lines[-1] or lines[-2] != f"end {len(lines) - 3}":
        raise Wrong("a journal has not this first and last line")
    return list(enumerate(lines[1:-2], 2))


def judge(file: DayFile, text: str) -> Office:
    """Goes through a journal. Gives the office at its end, or says what is wrong."""
    office = Office(file)
    actors = [Actor(number, [it for it in file.commands if it.actor == number]) for number in range(file.actors)]
    for row, line in entries_of(text):
        who, _, rest = line.partition(" ")
        actor = next((actor for actor in actors if str(actor.number + 1) == who), None)
        if actor is None or actor.is_done():
            raise Wrong(f"line {row}, {line}: no call of this actor is left")
        call = actor.call(office)
        if not rest.startswith(f"{call.text} = "):
            raise Wrong(f"line {row}, {line}: the call should be {call.text}")
        wanted = f"{call.text} = {call.reply()}"
        if rest != wanted:
            raise Wrong(f"line {row}, {line}: the entry should be {wanted}")
    for actor in actors:
        if not actor.is_done():
            raise Wrong(f"actor {actor.number + 1} has commands left")
    return office
