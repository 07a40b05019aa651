"""Journals to certify, each with its day file behind it: whole ones, and ones that are not whole in one place.

A journal that is only not whole is still legal. So what is changed in a journal here is mostly what an office would
answer so as well; and in a day file it is a command, of which an audit knows nothing.
"""
import re
from collections.abc import Callable, Iterator, Sequence
from random import Random

from model.files import DayFile, Posting
from model.journal import ATTEMPTS, Actor
from model.office import Office

from .forging import Entries, text
from .texts import Record, full, plain

Rows = list[bytes]
# changes the entries of a journal, or the rows of its day file
Way = Callable[[Random, Entries, Rows], None]

COMMAND = re.compile(rb'"?(apply|post|setday|surrender|show)\b')
ACTOR = re.compile(rb'"?actor\b')
DAY, LAST = "2026-03-02", "2026-03-06"
# how many attempts are made here before the office looks itself, and how many it should be
TRIES = (ATTEMPTS, ATTEMPTS, ATTEMPTS, ATTEMPTS - 1, ATTEMPTS + 1, 0)


def caller(entry: str) -> str:
    """Who calls."""
    return entry.partition(" ")[0]


def actors(rows: Rows) -> int:
    """How many actors a day file has, as its rows look."""
    return sum(bool(ACTOR.match(row)) for row in rows)


def version(entries: Entries) -> int:
    """The version behind some entries."""
    return sum(" = posted " in entry for entry in entries)


def legal_entry(rng: Random, entries: Entries, rows: Rows) -> str:
    """An entry of any caller that may always stand behind these entries."""
    who = rng.randint(1, actors(rows) + 1)
    return rng.choice((f"{who} snapshot = at {version(entries)}", f"{who} show 0 = unknown",
                       f"{who} surrender 0 = unknown"))


def last_one_lacks(rng: Random, entries: Entries, rows: Rows) -> None:
    """The last entry is missing."""
    del entries[-1:]


def one_lacks(rng: Random, entries: Entries, rows: Rows) -> None:
    """An entry is missing."""
    if entries:
        del entries[rng.randrange(len(entries))]


def one_too_many(rng: Random, entries: Entries, rows: Rows) -> None:
    """One entry more, at the end or anywhere."""
    at = rng.choice((len(entries), rng.randint(0, len(entries))))
    entries.insert(at, legal_entry(rng, entries[:at], rows))


def another_call(rng: Random, entries: Entries, rows: Rows) -> None:
    """An entry with another call in its place."""
    if entries:
        at = rng.randrange(len(entries))
        entries[at] = legal_entry(rng, entries[:at], rows)


def foreign(rng: Random, entries: Entries, rows: Rows) -> None:
    """An entry of another caller, who may be no actor."""
    if entries:
        at, count = rng.randrange(len(entries)), actors(rows)
        who = rng.choice((count + 1, rng.randint(1, count + 1), 65536))
        entries[at] = f"{who} {entries[at].partition(' ')[2]}"


def exchanged(rng: Random, entries: Entries, rows: Rows) -> None:
    """Two entries of one caller stand in each other's place, mostly neighbours among its own."""
    if not entries:
        return
    who = caller(rng.choice(entries))
    own = [at for at, entry in enumerate(entries) if caller(entry) == who]
    if len(own) > 1:
        first = rng.randrange(len(own) - 1)
        second = first + 1 if rng.random() < 0.7 else rng.randrange(first + 1, len(own))
        one, other = own[first], own[second]
        entries[one], entries[other] = entries[other], entries[one]


def repeated(rng: Random, entries: Entries, rows: Rows) -> None:
    """An entry stands there twice, one behind the other or at the end."""
    if entries:
        at = rng.randrange(len(entries))
        entries.insert(rng.choice((at, len(entries))), entries[at])


def cut(rng: Random, entries: Entries, rows: Rows) -> None:
    """Only a front of the journal, at times none of it."""
    del entries[rng.randint(0, len(entries)):]


def one_lacks_of_all(rng: Random, entries: Entries, rows: Rows) -> None:
    """Nothing of one caller."""
    if entries:
        who = caller(rng.choice(entries))
        entries[:] = [entry for entry in entries if caller(entry) != who]


def commands(rows: Rows) -> list[int]:
    """Where the commands stand in a day file, as its rows look."""
    return [at for at, row in enumerate(rows) if COMMAND.match(row)]


def command_lacks(rng: Random, entries: Entries, rows: Rows) -> None:
    """The day file lacks a command."""
    places = commands(rows)
    if places:
        del rows[rng.choice(places)]


def command_doubled(rng: Random, entries: Entries, rows: Rows) -> None:
    """The day file has a command once more, in front of another one or behind all."""
    places = commands(rows)
    if places:
        rows.insert(rng.choice((rng.choice(places), places[-1] + 1)), rows[rng.choice(places)])


def commands_exchanged(rng: Random, entries: Entries, rows: Rows) -> None:
    """Two commands of the day file stand in each other's place."""
    places = commands(rows)
    if len(places) > 1:
        one, other = rng.sample(places, 2)
        rows[one], rows[other] = rows[other], rows[one]


def command_changed(rng: Random, entries: Entries, rows: Rows) -> None:
    """A field of a command is that of another command of its kind: who gives it, or what is given."""
    places = commands(rows)
    if not places:
        return
    at = rng.choice(places)
    fields = rows[at].split(b",")
    others = [other for other in (rows[place].split(b",") for place in places) if other[0] == fields[0]]
    field, other = rng.randrange(1, len(fields)), rng.choice(others)
    if len(other) == len(fields):
        fields[field] = other[field]
        rows[at] = b",".join(fields)


WAYS: tuple[Way, ...] = (
    last_one_lacks, one_lacks, one_too_many, another_call, foreign, exchanged, repeated, cut, one_lacks_of_all,
    command_lacks, command_doubled, commands_exchanged, command_changed,
)


def spoilt(rng: Random, entries: Sequence[str], day: bytes) -> bytes:
    """A journal with its day file, of which one is changed."""
    changed, rows = list(entries), day.split(b"\n")
    rng.choice(WAYS)(rng, changed, rows)
    return text(changed) + b"\n".join(rows)


def halved(rng: Random, entries: Sequence[str], day: bytes) -> bytes:
    """A journal that is cut off in the middle of its text, or half of what is to be certified."""
    journal = text(entries)
    how = rng.randrange(4)
    if how == 0:
        return journal
    if how == 1:
        return day
    return journal[:rng.randrange(len(journal))] + (day if how == 2 else b"")


def pestered_day(rng: Random) -> tuple[DayFile, bytes]:
    """Some apply for trips on one road, and one more shuts and opens it."""
    applicants = rng.choice((1, 1, 2, 3))
    records: list[Record] = [["day", DAY], ["node", "a"], ["node", "b"], ["segment", "s", "a", "b", 1000],
                             ["truck", "t", "c", 168, 110, 720, "0:12000 180:17000 228:17000"]]
    records += [["actor", f"a{number}"] for number in range(applicants + 1)]
    given: list[Record] = [["apply", f"a{rng.randrange(applicants)}", "t", "a", "b", rng.choice(("", "s")), DAY, LAST]
                           for _ in range(rng.choice((1, 2, 3)))]
    given += [["show", f"a{rng.randrange(applicants)}", 1] for _ in range(rng.choice((0, 2)))]
    rng.shuffle(given)
    posts: list[Record] = [["post", f"a{applicants}", "s", "closed", 1 - number % 2]
                           for number in range(rng.choice((9, 12, 30)))]
    # the applications in any places among the postings
    for record in given:
        posts.insert(rng.randint(0, len(posts)), record)
    made = plain([*map(full, [*records, *posts]), full(["end"])])
    return DayFile(made), made


def pestered(rng: Random, file: DayFile, tries: int) -> Iterator[str]:
    """The entries of such a day, on which most attempts are out of date. So many are made before the office looks."""
    office = Office(file)
    waiting = [Actor(number, [it for it in file.commands if it.actor == number], attempts=tries)
               for number in range(file.actors)]
    while waiting := [actor for actor in waiting if not actor.is_done()]:
        actor = rng.choice(waiting)
        if any(it.seen is not None for it in waiting) and rng.random() < 0.95:
            # a posting comes between what was seen and its submit, once
            posting = [it for it in waiting if isinstance(it.commands[it.at].what, Posting)]
            late = [it for it in waiting if it.seen is not None and it.seen < office.roads.version]
            actor = (late or posting or waiting)[0]
        call = actor.call(office)
        yield f"{actor.number + 1} {call.text} = {call.reply()}"


def of_pestered(rng: Random) -> bytes:
    """The journal of such a day, as it has to be or not, with its day file behind it."""
    file, day = pestered_day(rng)
    tries = rng.choice(TRIES)
    entries = list(pestered(rng, file, tries))
    if tries == ATTEMPTS and rng.random() < 0.7:
        return spoilt(rng, entries, day)
    return text(entries) + day


def of_journal(rng: Random, journal: str, day: bytes) -> Iterator[bytes]:
    """What is certified of the journal of a day file: itself, and some that lack, have or change something."""
    entries = journal.split("\n")[1:-2]
    yield text(entries) + day
    for _ in range(2):
        yield spoilt(rng, entries, day)
    yield halved(rng, entries, day)
