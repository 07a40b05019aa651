"""Journals to audit, each with its day file behind it: right ones, and ones that are forged in one place or in two."""
import re
from collections.abc import Callable, Iterator, Sequence
from random import Random

from model.files import DayFile, Refused, Trip
from model.forms import MOST_ROUTES
from model.journal import FIRST_LINE, Actor
from model.office import Office, trip_text

from .annual import annual_file
from .breaking import broken, scratched
from .files import check_file, day_file
from .texts import dressed, plain

NO_MEMORY = "nomemory"
Entries = list[str]
Forge = Callable[[Random, Entries], None]
OLDER = ("permit-journal 1", "permit-journal 2")
FIRST_LINES = (
    *OLDER, "permit-journal 4", "permit-journal 03", "permit-journal 3 ", "Permit-journal 3", "", f"\ufeff{FIRST_LINE}",
)


def good_day(rng: Random) -> bytes:
    """A day file that is good, of one actor or several."""
    actors = rng.choice((1, 2, 4))
    if rng.random() < 0.5:
        return plain(annual_file(rng, actors, rng.choice((10, 40))))
    return plain(day_file(rng, actors, rng.choice((10, 40))))


def of_actors(rng: Random, file: DayFile) -> Iterator[str]:
    """The entries of a day whose actors take their turns in any order."""
    office = Office(file)
    actors = [Actor(number, [it for it in file.commands if it.actor == number]) for number in range(file.actors)]
    waiting = [actor for actor in actors if not actor.is_done()]
    while waiting:
        actor = rng.choice(waiting)
        call = actor.call(office)
        yield f"{actor.number + 1} {call.text} = {call.reply()}"
        waiting = [actor for actor in waiting if not actor.is_done()]


def of_anyone(rng: Random, file: DayFile) -> Iterator[str]:
    """The entries of calls that no actor makes so: by any caller, at any version seen, or for want of memory."""
    office = Office(file)
    for command in file.commands * 2:
        caller, trip = rng.choice((0, 1, rng.randrange(65536))), command.what
        if not isinstance(trip, Trip):
            call = Actor(caller, [command]).call(office)
            is_short = command.kind == "post" and rng.random() < 0.1
            yield f"{caller + 1} {call.text} = {NO_MEMORY if is_short else call.reply()}"
            continue
        is_held = rng.random() < 0.4
        seen = office.roads.version if is_held else rng.randint(0, office.roads.version)
        found = office.finding(trip, seen)
        text = f"held {trip_text(trip)}" if is_held else f"submit {trip_text(trip)} seen {seen} {found}"
        permits = len(office.permits)
        reply = office.answer(caller, trip, seen, found)
        is_short = reply.startswith("issued") or (is_held and reply.split()[0] not in ("late", "notneeded"))
        if is_short and rng.random() < 0.1:
            office.take_back(permits)
            reply = NO_MEMORY
        yield f"{caller + 1} {text} = {reply}"


def place(rng: Random, entries: Entries) -> int | None:
    """The place of an entry, more often of one whose reply may say something else."""
    if not entries:
        return None
    long = [at for at, entry in enumerate(entries) if re.search(" = (issued|refused|outdated|posted|shown)", entry)]
    return rng.choice(long) if long and rng.random() < 0.6 else rng.randrange(len(entries))


def number(rng: Random, entries: Entries) -> None:
    """A number in an entry is another one."""
    at = place(rng, entries)
    if at is not None:
        found = rng.choice(list(re.finditer("[0-9]+", entries[at])))
        other = rng.choice((int(found[0]) + 1, max(0, int(found[0]) - 1), 0, rng.randrange(70000), 2**32 - 1, 2**32))
        entries[at] = f"{entries[at][:found.start()]}{other}{entries[at][found.end():]}"


def version(rng: Random, entries: Entries) -> None:
    """A reply or a proposal of another version: that before it or behind it, or a version seen."""
    places = [(at, found) for at, entry in enumerate(entries)
              for found in re.finditer(r"\b(?:at|seen|refused|outdated|posted|recalled) ([0-9]+)", entry)]
    if places:
        at, found = rng.choice(places)
        other = max(0, int(found[1]) + rng.choice((-1, 1)))
        entries[at] = f"{entries[at][:found.start(1)]}{other}{entries[at][found.end(1):]}"


def reply(rng: Random, entries: Entries) -> None:
    """A reply of another entry, or of a kind of its own."""
    at = place(rng, entries)
    if at is not None:
        words = ("notneeded", "noroad", "range", "surrendered", "notyours", "unknown", NO_MEMORY, "notinforce expired")
        other = rng.choice((rng.choice(entries).partition(" = ")[2], rng.choice(words)))
        entries[at] = f"{entries[at].partition(' = ')[0]} = {other}"


def routes(rng: Random, entries: Entries) -> None:
    """Routes in another order, with one left out, with one twice, or with a list that is no route."""
    places = [(at, found) for at, entry in enumerate(entries)
              for found in re.finditer("(?:asked|route) ([0-9,/]+)", entry)]
    if places:
        at, found = rng.choice(places)
        lists = found[1].split("/")
        how = rng.randrange(4)
        if how == 0:
            rng.shuffle(lists)
        elif how == 1:
            lists[rng.randrange(len(lists))] = rng.choice(("-", "1", "", "1,1"))
        elif how == 2:
            lists += [rng.choice(lists)] * rng.choice((1, MOST_ROUTES))
        else:
            del lists[-1:]
        # where they stand first, or in what is asked, found and answered alike
        old, new = re.escape(found[1]), "/".join(lists)
        entries[at] = re.sub(rf"(?<= ){old}(?= |$)", new, entries[at], rng.choice((0, 1)))


def dropped(rng: Random, entries: Entries) -> None:
    """An entry is missing."""
    at = place(rng, entries)
    if at is not None:
        del entries[at]


def doubled(rng: Random, entries: Entries) -> None:
    """An entry stands there twice."""
    at = place(rng, entries)
    if at is not None:
        entries.insert(rng.choice((at, len(entries))), entries[at])


def exchanged(rng: Random, entries: Entries) -> None:
    """An entry stands behind its neighbour."""
    if len(entries) > 1:
        at = rng.randrange(len(entries) - 1)
        entries[at], entries[at + 1] = entries[at + 1], entries[at]


FORGERIES: tuple[Forge, ...] = (number, version, reply, routes, dropped, doubled, exchanged)


def text(entries: Sequence[str], first: str = FIRST_LINE, count: int | None = None) -> bytes:
    """A journal, with the right first line and the right count or with others."""
    lines = [first, *entries, f"end {len(entries) if count is None else count}"]
    return "".join(f"{line}\n" for line in lines).encode()


def bad_journal(rng: Random, entries: Entries) -> bytes:
    """What is no journal, or is one by luck."""
    good = text(entries)
    how = rng.randrange(7)
    if how == 0:
        return text(entries, rng.choice(FIRST_LINES))
    if how == 1:
        return text(entries, count=max(0, len(entries) + rng.choice((-1, 1))))
    if how == 2:
        return good[:good.rindex(b"end ")]
    if how == 3:
        return scratched(rng, good)
    if how == 4:
        return good[:rng.randrange(len(good))]
    if how == 5:
        return rng.choice((b"", b"\n", b"refused: record 2 kind\n", b"end 0\n", b"end \n"))
    return good.replace(rng.choice((b" ", b"\n", b" = ", b"route ")), rng.choice((b"  ", b"\r\n", b"=", b"")), 1)


def bad_day(rng: Random, day: bytes) -> bytes:
    """What is no day file, or is one by luck."""
    how = rng.randrange(4)
    if how == 0:
        return scratched(rng, day)
    if how == 1:
        # a record that looks like the last line of a journal
        rows = day.split(b"\n")
        rows.insert(rng.randrange(len(rows)), rng.choice((b"end 0", b"end ,,,,,,,", b"end 7,,,,,,,")))
        return b"\n".join(rows)
    if how == 2:
        check = plain(check_file(rng, 2))
        return rng.choice((b"", day[:day.rindex(b"end")], text([]), check, b"\xef\xbb\xbf" + day))
    records = [list[str | int | bytes](row.split(",")) for row in day.decode().split("\n")[:-1]]
    return dressed(rng, broken(rng, records))


def history(rng: Random) -> tuple[Entries, bytes]:
    """The entries of a legal history, and its day file."""
    day = good_day(rng)
    try:
        file = DayFile(day)
    except Refused as refused:
        raise ValueError(refused.line) from refused
    return list(rng.choice((of_actors, of_anyone))(rng, file)), day


def legal(rng: Random) -> bytes:
    """A journal of a legal history, with its day file behind it."""
    entries, day = history(rng)
    return text(entries) + day


def forged(rng: Random) -> bytes:
    """The same with an entry that is forged, or two; at times with the first line of an older format."""
    entries, day = history(rng)
    for _ in range(rng.choice((1, 1, 1, 2))):
        rng.choice(FORGERIES)(rng, entries)
    return text(entries, rng.choice((FIRST_LINE,) * 9 + OLDER)) + day


def broken_part(rng: Random) -> bytes:
    """The same where one of both parts, or each, is not what it has to be."""
    entries, day = history(rng)
    which = rng.randrange(5)
    journal = text(entries) if which in (0, 1) else bad_journal(rng, entries)
    return journal + (day if which in (2, 3) else bad_day(rng, day))
