"""A journal over its day file: permits, postings and answers, as the entries say them.

Each entry has to be the next call of its actor's commands, and its reply has to follow from the entries above it, as
far as numbers, versions, days and marks go. What the page says of limits is worked out once more (`reckoning`): a
permit meets all limits, a refusal names the one that fails first, and a posting recalls the permits that then fail and
no other. Where anything contradicts the journal, there is no page. Which route is the shortest, and what a truck
reaches, is not asked again.
"""
from dataclasses import dataclass, field
from typing import Any

from model.files import DayFile

from .command import BAD, Fault
from .journal import Entry, Limit, Routes, Trip
from .reckoning import Found, Reckoning

IN_FORCE, RECALLED, SURRENDERED, EXPIRED = "in force", "recalled", "surrendered", "expired"


@dataclass
class Permit:
    """A permit, and how it stands at the end. Where it is recalled, `limit` is what then fails, where that is known."""

    number: int
    line: int
    caller: int
    trip: Trip
    routes: Routes
    version: int
    seen: int
    status: str = IN_FORCE
    posting: int = 0
    limit: Limit | None = None


@dataclass(frozen=True)
class Posting:
    """A posting that stands, with what stood there before."""

    version: int
    caller: int
    item: int
    what: str
    value: int
    before: int
    recalled: tuple[int, ...]


@dataclass(frozen=True)
class Answer:
    """An application that was answered otherwise than with a permit. What is reached was found at the version seen."""

    number: int
    line: int
    caller: int
    trip: Trip
    reply: str
    seen: int
    version: int
    day: str
    limit: Limit | None
    reached: tuple[int, ...]


@dataclass(frozen=True)
class Other:
    """A new day, a surrender or a show."""

    caller: int
    entry: Entry


@dataclass
class Actor:
    """An actor on its way through its commands."""

    commands: list[tuple[str, Any]]
    at: int = 0
    seen: int | None = None
    tries: int = 0


@dataclass
class Replay:
    """All that a journal says, over its day file."""

    file: DayFile
    day: str
    reckoning: Reckoning
    actors: list[Actor]
    # the permits that use each segment
    using: list[list[int]]
    permits: list[Permit] = field(default_factory=list)
    postings: list[Posting] = field(default_factory=list)
    answers: list[Answer] = field(default_factory=list)
    others: list[Other] = field(default_factory=list)

    @property
    def version(self) -> int:
        return len(self.postings)


# the answers to an application by what was found for it; one that comes too late is answered so whatever was found
FITTING = {
    "none": ("notneeded",),
    "route": ("issued", "outdated"),
    "fails": ("refused", "meets"),
    "cut": ("refused", "noroad", "meets"),
}


class Stray(Exception):
    """Why an entry is not of the day file."""


def demand(holds: bool, why: str) -> None:
    if not holds:
        raise Stray(why)


def replay(file: DayFile, entries: list[Entry], day_path: str, journal_path: str) -> Replay:
    """Goes through a journal, or says at which line it is not of this day file."""
    scripts: list[list[tuple[str, Any]]] = [[] for _ in range(file.actors)]
    for by, kind, what in file.commands:
        scripts[by].append((kind, what))
    using: list[list[int]] = [[] for _ in file.segments]
    made = Replay(file, file.day, Reckoning(file), [Actor(script) for script in scripts], using)
    line = 1
    try:
        for entry in entries:
            line = entry.line
            take(made, entry)
        line += 1
        for number, actor in enumerate(made.actors, 1):
            demand(actor.at == len(actor.commands), f"actor {number} has commands that are not there")
    except Stray as stray:
        raise Fault(BAD, f"{journal_path} is not of {day_path}: line {line}, {stray}") from stray
    for permit in made.permits:
        if permit.status == IN_FORCE and permit.trip.last < made.day:
            permit.status = EXPIRED
    return made


def take(made: Replay, entry: Entry) -> None:
    """One entry."""
    demand(entry.caller < len(made.actors), "there is no such actor")
    actor = made.actors[entry.caller]
    demand(actor.at < len(actor.commands), "this actor has no command left")
    kind, what = actor.commands[actor.at]
    demand(kind_of(entry) == kind, f"the actor's next command is {kind}")
    demand(entry.reply != "nomemory", "there was no memory")
    if kind == "apply":
        take_application(made, actor, entry, Trip(*what))
        return
    if kind == "post":
        take_posting(made, entry, what)
    elif kind == "setday":
        take_day(made, entry, what)
    elif kind == "surrender":
        take_surrender(made, entry, what)
    else:
        take_show(made, entry, what)
    actor.at += 1


def kind_of(entry: Entry) -> str:
    """The kind of command of which a call is."""
    return {"snapshot": "apply", "submit": "apply", "held": "apply", "day": "setday"}.get(entry.call, entry.call)


def take_application(made: Replay, actor: Actor, entry: Entry, trip: Trip) -> None:
    if entry.call == "snapshot":
        demand(actor.seen is None and actor.tries < 8, "this actor has looked at the roads already")
        demand(entry.reply == "at" and entry.version == made.version, f"the roads stand at version {made.version}")
        actor.seen = entry.version
        return
    demand(entry.trip == trip, "the application is not the actor's next command")
    if entry.call == "submit":
        demand(entry.seen == actor.seen, "the version that was seen is not that of the actor's look")
        demand_found(made, entry, trip)
    else:
        demand(actor.seen is None and actor.tries == 8, "the office looks itself before eight tries are over")
    demand(
        entry.reply in ("issued", "refused", "outdated", "meets", "late", "notneeded", "noroad"),
        "no answer to an application",
    )
    demand((trip.first < made.day) == (entry.reply == "late"), f"the office's day is {made.day}")
    is_legal = made.file.trucks[trip.truck].is_legal()
    demand(entry.reply == "late" or is_legal == (entry.reply == "notneeded"), legal_text(is_legal))
    if entry.reply in ("outdated", "meets"):
        take_outdated(made, entry, trip)
        actor.seen, actor.tries = None, actor.tries + 1
        return
    if entry.reply == "issued":
        issue(made, entry, trip, made.version if entry.call == "held" else entry.seen)
    else:
        take_answer(made, entry, trip)
    actor.at, actor.seen, actor.tries = actor.at + 1, None, 0


def demand_found(made: Replay, entry: Entry, trip: Trip) -> None:
    """What was found fits what is asked for, and the answer fits what was found."""
    found, listed, reply = entry.found, entry.listed, entry.reply
    is_legal = made.file.trucks[trip.truck].is_legal()
    demand(is_legal == (found == "none"), legal_text(is_legal))
    demand(reply == "late" or reply in FITTING[found], f"{reply} is no answer where {found} was found")
    if found == "fails":
        demand(any(listed[0] in route for route in trip.asked), "what fails is on no route that is asked for")
        at = entry.segment if entry.limit is None else entry.limit.segment
        demand(reply == "late" or listed[0] == at, "the answer is on another segment than what fails")
    elif found == "cut":
        demand(not trip.asked, "nodes are found, and a route is asked for")
        demand(trip.start in listed and trip.end not in listed, "the nodes are not those of a cut")
    elif found == "route":
        demand(trip.asked in ((), entry.proposed), "the routes that were found are not those that are asked for")
        demand_walks(made, entry.proposed, trip)
        demand(reply != "issued" or entry.routes == entry.proposed, "the routes are not those that were found")
        on = entry.limit is None or any(entry.limit.segment in route for route in entry.proposed)
        demand(on, "what fails is on no route that was found")


def legal_text(is_legal: bool) -> str:
    return "the truck is legal and needs no permit" if is_legal else "the truck is not legal and needs a permit"


def take_outdated(made: Replay, entry: Entry, trip: Trip) -> None:
    """An answer that what was found does not hold any more."""
    demand(entry.version == made.version, f"the roads stand at version {made.version}")
    if entry.limit is not None:
        demand_fails(made, trip, entry.limit)
        return
    demand(entry.segment < len(made.file.segments), "there is no such segment")
    demand_meets(made, trip, entry.segment)


def take_answer(made: Replay, entry: Entry, trip: Trip) -> None:
    """An answer that is no permit."""
    demand(entry.reply != "refused" or entry.version == made.version, f"the roads stand at version {made.version}")
    demand(entry.reply != "late" or entry.status == made.day, f"the office's day is {made.day}")
    reached = entry.listed if entry.found == "cut" else ()
    demand(all(node < len(made.file.names["nodes"]) for node in reached), "there is no such node")
    if entry.limit is not None:
        demand_fails(made, trip, entry.limit)
        demand_in_the_way(made, trip, entry.limit.segment, reached)
    elif entry.reply == "noroad":
        walks = made.reckoning.walks_from(trip.start)
        demand(trip.end not in walks, "there are roads that lead there")
        demand(entry.call == "held" or set(reached) == walks, "the nodes are not those that any walk reaches")
    at = (entry.seen if entry.call == "submit" else made.version, made.version)
    answer = Answer(
        len(made.answers) + 1, entry.line, entry.caller, trip, entry.reply, *at, entry.status, entry.limit, reached
    )
    made.answers.append(answer)


def demand_in_the_way(made: Replay, trip: Trip, segment: int, reached: tuple[int, ...]) -> None:
    """A segment that stands in the way is one of those that were asked for, or leads out of what is reached."""
    name = segment_name(made, segment)
    if trip.asked:
        demand(any(segment in route for route in trip.asked), f"{name} is on no route that is asked for")
    elif reached:
        start, end, _ = made.file.segments[segment]
        demand(start in reached and end not in reached, f"{name} does not lead out of what the truck reaches")


def demand_fails(made: Replay, trip: Trip, limit: Limit) -> None:
    """A limit is the first that fails a truck on its segment, with the numbers of the day file and of postings."""
    demand(known(made.file, limit), "there is no such segment or span")
    found = made.reckoning.first(trip.truck, limit.segment)
    if limit.span >= 0:
        posted, name = made.reckoning.ratings[limit.span], made.reckoning.names["spans"][limit.span]
        demand(limit.rate == posted, f"bridge {name} has a rating of {posted} by then")
    if limit.span >= 0 and not found.is_known:
        demand(limit.has > limit.carried, "what is refused is no more than what is carried")
    elif found.limit != limit:
        raise Stray(f"what fails on {segment_name(made, limit.segment)} is {what_fails(made, found.limit)}")


def demand_meets(made: Replay, trip: Trip, segment: int) -> None:
    """A truck may pass a segment, as far as that is known."""
    limit = made.reckoning.first(trip.truck, segment).limit
    if limit is not None:
        raise Stray(f"its truck may not pass {segment_name(made, segment)}: {what_fails(made, limit)}")


def segment_name(made: Replay, segment: int) -> str:
    return made.reckoning.names["segments"][segment]


def what_fails(made: Replay, limit: Limit | None) -> str:
    """A limit that fails, in a few words for a fault."""
    if limit is None or limit.what == "closed":
        return "closed" if limit else "nothing"
    if limit.span >= 0:
        return f"the {limit.what} on bridge {made.reckoning.names['spans'][limit.span]} at a rating of {limit.rate}"
    return f"the {limit.what}: {limit.has}, and {limit.carried} allowed"


def known(file: DayFile, limit: Limit) -> bool:
    """Whether a limit is of a segment of the file, and of a span on it."""
    if limit.span >= 0:
        return limit.span < len(file.spans) and file.spans[limit.span][0] == limit.segment
    return limit.segment < len(file.segments)


def issue(made: Replay, entry: Entry, trip: Trip, seen: int) -> None:
    demand(entry.number == len(made.permits) + 1, f"the next permit is {len(made.permits) + 1}")
    demand(entry.version == made.version, f"the roads stand at version {made.version}")
    demand_walks(made, entry.routes, trip)
    demand(not trip.asked or entry.routes == trip.asked, "the routes are not those that are asked for")
    demand(bool(trip.asked) or len(entry.routes) == 1, "no route is asked for, and the permit has several")
    for segment in sorted({segment for route in entry.routes for segment in route}):
        demand_meets(made, trip, segment)
        made.using[segment].append(entry.number)
    made.permits.append(Permit(entry.number, entry.line, entry.caller, trip, entry.routes, entry.version, seen))


def demand_walks(made: Replay, routes: Routes, trip: Trip) -> None:
    """Each of some routes leads where the application wants to go."""
    for route in routes:
        demand(all(segment < len(made.file.segments) for segment in route), "there is no such segment")
        demand(bool(route) and made.file.is_walk(route, trip.start, trip.end), "the route is no walk")


def take_posting(made: Replay, entry: Entry, what: tuple[int, str, int]) -> None:
    demand((entry.item, entry.what, entry.value) == what, "the posting is not the actor's next command")
    demand(entry.reply == "posted" and entry.version == made.version + 1, f"the next posting is {made.version + 1}")
    item, limit, value = what
    reckoning = made.reckoning
    before = reckoning.ratings[item] if limit == "rating" else reckoning.values[item][limit]
    segment = reckoning.post(item, limit, value)
    demand(list(entry.recalled) == sorted(set(entry.recalled)), "the recalls do not rise")
    for number in entry.recalled:
        demand(1 <= number <= len(made.permits), f"there is no permit {number}")
        demand(status_now(made, made.permits[number - 1]) == IN_FORCE, f"permit {number} is not in force")
        demand(number in made.using[segment], f"permit {number} does not use what is posted on")
    recall(made, entry, segment)
    made.postings.append(Posting(entry.version, entry.caller, item, limit, value, before, entry.recalled))


def recall(made: Replay, entry: Entry, segment: int) -> None:
    """Recalls the permits that a posting names. They are those in force that then fail, as far as that is known."""
    name, recalled = segment_name(made, segment), set(entry.recalled)
    for number in made.using[segment]:
        permit = made.permits[number - 1]
        if status_now(made, permit) != IN_FORCE:
            continue
        found: Found = made.reckoning.first(permit.trip.truck, segment)
        if number in recalled:
            keeps = found.is_known and found.limit is None
            demand(not keeps, f"permit {number} is recalled, and its truck keeps every limit of {name}")
            permit.status, permit.posting, permit.limit = RECALLED, entry.version, found.limit
        elif found.limit is not None:
            raise Stray(f"permit {number} is not recalled, and fails on {name}: {what_fails(made, found.limit)}")


def status_now(made: Replay, permit: Permit) -> str:
    """How a permit stands at this point of the journal."""
    return EXPIRED if permit.status == IN_FORCE and permit.trip.last < made.day else permit.status


def status_text(made: Replay, permit: Permit) -> str:
    """The same in the words of the journal."""
    status = status_now(made, permit)
    return {IN_FORCE: "inforce", RECALLED: f"recalled {permit.posting}"}.get(status, status)


def take_day(made: Replay, entry: Entry, day: str) -> None:
    demand(entry.day == day, "the new day is not the actor's next command")
    demand(entry.reply == ("dayback" if day < made.day else "day"), f"the office's day is {made.day}")
    demand(entry.status == max(day, made.day), f"the office's day is {made.day}")
    made.day = entry.status
    made.others.append(Other(entry.caller, entry))


def take_surrender(made: Replay, entry: Entry, number: int) -> None:
    demand(entry.number == number, "the surrender is not the actor's next command")
    permit = made.permits[number - 1] if 1 <= number <= len(made.permits) else None
    if permit is None:
        demand(entry.reply == "unknown", f"there is no permit {number}")
    elif permit.caller != entry.caller:
        demand(entry.reply == "notyours", f"permit {number} is another actor's")
    elif status_now(made, permit) != IN_FORCE:
        demand(
            entry.reply == "notinforce" and entry.status == status_text(made, permit),
            f"permit {number} stands otherwise",
        )
    else:
        demand(entry.reply == "surrendered", f"permit {number} is in force")
        permit.status = SURRENDERED
    made.others.append(Other(entry.caller, entry))


def take_show(made: Replay, entry: Entry, number: int) -> None:
    demand(entry.number == number, "the show is not the actor's next command")
    permit = made.permits[number - 1] if 1 <= number <= len(made.permits) else None
    if permit is None:
        demand(entry.reply == "unknown", f"there is no permit {number}")
    else:
        trip = permit.trip
        wanted = (number, permit.caller, trip.truck, trip.first, trip.last, permit.version, permit.seen)
        demand(entry.reply == "shown" and entry.shown == wanted, f"permit {number} says something else")
        demand(entry.status == status_text(made, permit), f"permit {number} stands otherwise")
    made.others.append(Other(entry.caller, entry))
