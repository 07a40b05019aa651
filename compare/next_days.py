"""Journals of days to carry on, each with its day file behind it, and the next day's file. They were worked by hand.

- A day of two roads, a span and two trucks: what is in force at its end, and what is not.
- The same records, written down in other ways.
- What `certify` refuses, which is refused so here too.
- Next days of as many bytes as a day file may have, and of one more.
- Words that ask for nothing, and the ways in which the same is asked for.
"""
import subprocess
from collections.abc import Iterator, Sequence
from typing import NamedTuple

from certificates import EIGHT, FIRST_LINE, LOOKED, PESTERED, halves, text
from model.carry import carried
from model.records import MOST_BYTES
from model.words import CARRY, CLERK_USAGE, IN_FORCE, clerk_asked

# the status, what is written, and what standard error is told
Answer = tuple[int, str, str]
# lists of words
Lists = tuple[list[str], ...]
DAY = """
day,2026-03-02,,,,,,
node,A,,,,,,
node,B,,,,,,
node,C,,,,,,
segment,S1,A,B,1000,,,
segment,S2,A,C,1500,,,
segment,S3,C,B,1600,,,
span,P,S1,480,1300,,,
limit,S2,height,172,,,,
truck,T1,ACME,168,102,720,0:12000 180:17000 228:17000,
truck,T2,BOLT,170,102,720,0:12000 180:17000 228:17000,
actor,ann,,,,,,
actor,bob,,,,,,
end,,,,,,,
""".lstrip()
TRUCKS = {"T1": "truck,T1,ACME,168,102,720,0:12000 180:17000 228:17000",
          "T2": "truck,T2,BOLT,170,102,720,0:12000 180:17000 228:17000"}


def rows_of(*records: str) -> str:
    """Records of eight fields each, a line for each."""
    return "".join(f"{record}{',' * (7 - record.count(','))}\n" for record in records)


class Left(NamedTuple):
    """What a day leaves, by hand: the day, the rating of the span, the limits and the applications, and what is told.

    `having` are the trucks that have a permit in force.
    """

    day: str = "2026-03-02"
    rating: int = 1300
    limits: Sequence[str] = ("S2,height,172",)
    applies: Sequence[str] = ()
    told: str = ""
    having: Sequence[str] = ()

    def text(self, trucks: Sequence[str]) -> str:
        """The next day's file with these trucks."""
        return rows_of(
            f"day,{self.day}", "node,A", "node,B", "node,C", "segment,S1,A,B,1000", "segment,S2,A,C,1500",
            "segment,S3,C,B,1600", f"span,P,S1,480,{self.rating}", *(TRUCKS[name] for name in trucks), "actor,ann",
            "actor,bob", *(f"limit,{limit}" for limit in self.limits), *(f"apply,{it}" for it in self.applies), "end")


class Row(NamedTuple):
    """The commands of a day and the entries of its journal, what they leave, and what else is changed in the file."""

    commands: Sequence[str]
    entries: Sequence[str]
    left: Left
    old: str = ""
    new: str = ""

    def data(self, first: str = FIRST_LINE) -> bytes:
        """What is to be carried."""
        day = DAY.replace(self.old, self.new, 1).replace("end,", f"{rows_of(*self.commands)}end,")
        return f"{text(self.entries, first)}{day}".encode()

    def answer(self, is_in_force: bool) -> Answer:
        """What comes of it."""
        return 0, self.left.text(self.left.having if is_in_force else tuple(TRUCKS)), self.left.told


def look(version: int, who: int = 1) -> str:
    """A snapshot."""
    return f"{who} snapshot = at {version}"


def issue(number: int, trip: str, version: int, routes: str, who: int = 1) -> tuple[str, str]:
    """An application that is granted at once."""
    submit = f"{who} submit {trip} seen {version} route {routes}"
    return look(version, who), f"{submit} = issued {number} at {version} route {routes}"


WAY = "truck 1 from 1 to 2 asked none days 2026-03-02 2026-03-06"
APPLY, TAKEN = "apply,ann,T1,A,B,,2026-03-02,2026-03-06", "ann,T1,A,B,S1,2026-03-02,2026-03-06"
ONE = issue(1, WAY, 0, "1")
SETDAY = "1 day 2026-03-04 = day 2026-03-04"
# of bob's, for the other truck and the other road
BOBS = "apply,bob,T2,A,B,S2 S3,2026-03-03,2026-03-05"
BOBS_WAY = "truck 2 from 1 to 2 asked 2,3 days 2026-03-03 2026-03-05"
SHUT, SHUT_ENTRY = "post,ann,S1,closed,1", "1 post segment 1 closed 1 = posted 1 recalled "

ROWS = (
    # no permit in force, so nothing is applied for
    Row((), (), Left()),
    Row(("show,ann,0",), ("1 show 0 = unknown",), Left()),
    Row(("apply,ann,T1,B,A,,2026-03-02,2026-03-06",),
        (look(0), "1 submit truck 1 from 2 to 1 asked none days 2026-03-02 2026-03-06 seen 0 cut 2 = noroad"), Left()),
    # the route that was found is written out
    Row((APPLY,), ONE, Left(applies=(TAKEN,), told="carried 1 1\n", having=("T1",))),
    # an annual permit keeps its routes, in their order, and equal ones too
    Row(("apply,ann,T1,A,B,S2 S3|S1|S1,2026-03-02,2027-03-02",),
        issue(1, "truck 1 from 1 to 2 asked 2,3/1/1 days 2026-03-02 2027-03-02", 0, "2,3/1/1"),
        Left(applies=("ann,T1,A,B,S2 S3|S1|S1,2026-03-02,2027-03-02",), told="carried 1 1\n", having=("T1",))),
    # one that was recalled, that was surrendered, or that has expired is gone
    Row((APPLY, SHUT), (*ONE, f"{SHUT_ENTRY}1"), Left(limits=("S1,closed,1", "S2,height,172"))),
    Row((APPLY, "surrender,ann,1"), (*ONE, "1 surrender 1 = surrendered"), Left()),
    Row((APPLY, "setday,ann,2026-03-07"), (*ONE, "1 day 2026-03-07 = day 2026-03-07"), Left("2026-03-07")),
    # a recalled one stays so where the road is open again
    Row((APPLY, SHUT, "post,ann,S1,closed,0"),
        (*ONE, f"{SHUT_ENTRY}1", "1 post segment 1 closed 0 = posted 2 recalled -"), Left()),
    # on its last day a permit is in force, and on the day behind another's last day this one is
    Row((APPLY, "setday,ann,2026-03-06"), (*ONE, "1 day 2026-03-06 = day 2026-03-06"),
        Left("2026-03-06", applies=("ann,T1,A,B,S1,2026-03-06,2026-03-06",), told="carried 1 1\n", having=("T1",))),
    Row((APPLY, BOBS, "setday,ann,2026-03-06"),
        (*ONE, *issue(2, BOBS_WAY, 0, "2,3", 2), "1 day 2026-03-06 = day 2026-03-06"),
        Left("2026-03-06", applies=("ann,T1,A,B,S1,2026-03-06,2026-03-06",), told="carried 1 1\n", having=("T1",))),
    # the first day becomes the office's, and a later one stays
    Row((APPLY, "setday,ann,2026-03-04"), (*ONE, SETDAY),
        Left("2026-03-04", applies=("ann,T1,A,B,S1,2026-03-04,2026-03-06",), told="carried 1 1\n", having=("T1",))),
    Row((APPLY.replace("03-02", "03-05"), "setday,ann,2026-03-04"),
        (*issue(1, WAY.replace("03-02", "03-05"), 0, "1"), SETDAY),
        Left("2026-03-04", applies=("ann,T1,A,B,S1,2026-03-05,2026-03-06",), told="carried 1 1\n", having=("T1",))),
    # a day that was refused is not the office's, and one that was set twice is
    Row(("setday,ann,2026-03-04", "setday,ann,2026-03-03", "setday,ann,2026-03-04"),
        (SETDAY, "1 day 2026-03-03 = dayback 2026-03-04", SETDAY), Left("2026-03-04")),
    Row(("setday,ann,9999-12-31",), ("1 day 9999-12-31 = day 9999-12-31",), Left("9999-12-31")),
    # what was posted is a limit, in the order of the segments, the last value alone
    Row(("post,ann,S3,height,170",), ("1 post segment 3 height 170 = posted 1 recalled -",),
        Left(limits=("S2,height,172", "S3,height,170"))),
    Row(("post,ann,S2,height,160", "post,ann,S1,height,900", "post,ann,S2,height,171"),
        ("1 post segment 2 height 160 = posted 1 recalled -", "1 post segment 1 height 900 = posted 2 recalled -",
         "1 post segment 2 height 171 = posted 3 recalled -"), Left(limits=("S1,height,900", "S2,height,171"))),
    # what lets everything pass is none, whoever said so
    Row(("post,ann,S2,height,999",), ("1 post segment 2 height 999 = posted 1 recalled -",), Left(limits=())),
    Row((), (), Left(), "limit,S2,height,172,,,,\n", rows_of(
        "limit,S2,height,172", "limit,S1,closed,0", "limit,S1,height,999", "limit,S1,width,999", "limit,S1,length,9999",
        "limit,S1,gross,2000000", "limit,S1,allowance,100000", "limit,S1,tridem,600000")),
    # (and what stops the least)
    Row((), (), Left(limits=(
        "S1,closed,1", "S1,height,998", "S1,width,998", "S1,length,9998", "S1,gross,1999999", "S1,allowance,99999",
        "S1,tridem,599999", "S2,height,172")), "limit,S2,height,172,,,,\n", rows_of(
        "limit,S1,tridem,599999", "limit,S1,allowance,99999", "limit,S1,gross,1999999", "limit,S1,length,9998",
        "limit,S1,width,998", "limit,S1,height,998", "limit,S1,closed,1", "limit,S2,height,172")),
    Row(("post,bob,S3,tridem,1", "post,bob,S3,allowance,0", "post,bob,S3,gross,1", "post,bob,S3,length,1",
         "post,bob,S3,width,1", "post,bob,S3,height,1", "post,bob,S3,closed,1"),
        ("2 post segment 3 tridem 1 = posted 1 recalled -", "2 post segment 3 allowance 0 = posted 2 recalled -",
         "2 post segment 3 gross 1 = posted 3 recalled -", "2 post segment 3 length 1 = posted 4 recalled -",
         "2 post segment 3 width 1 = posted 5 recalled -", "2 post segment 3 height 1 = posted 6 recalled -",
         "2 post segment 3 closed 1 = posted 7 recalled -"),
        Left(limits=("S2,height,172", "S3,closed,1", "S3,height,1", "S3,width,1", "S3,length,1", "S3,gross,1",
                     "S3,allowance,0", "S3,tridem,1"))),
    # a rating is that of the span, and a permit over it stays where it carries the truck
    Row(("post,ann,P,rating,1250",), ("1 post span 1 rating 1250 = posted 1 recalled -",), Left(rating=1250)),
    Row((APPLY, "post,ann,P,rating,1250"), (*ONE, "1 post span 1 rating 1250 = posted 1 recalled -"),
        Left(rating=1250, applies=(TAKEN,), told="carried 1 1\n", having=("T1",))),
    Row((APPLY, "post,ann,P,rating,0"), (*ONE, "1 post span 1 rating 0 = posted 1 recalled 1"), Left(rating=0)),
    # each permit is its holder's, by its number, whoever stands first in the file
    Row((APPLY, BOBS), (*issue(1, BOBS_WAY, 0, "2,3", 2), *issue(2, WAY, 0, "1")),
        Left(applies=("bob,T2,A,B,S2 S3,2026-03-03,2026-03-05", TAKEN), told="carried 1 1\ncarried 2 2\n",
             having=("T1", "T2"))),
    # the numbers begin anew, and trucks without a permit may be left out
    Row((APPLY, BOBS, APPLY, "surrender,ann,1"),
        (*ONE, *issue(2, BOBS_WAY, 0, "2,3", 2), *issue(3, WAY, 0, "1"), "1 surrender 1 = surrendered"),
        Left(applies=("bob,T2,A,B,S2 S3,2026-03-03,2026-03-05", TAKEN), told="carried 2 1\ncarried 3 2\n",
             having=("T1", "T2"))),
    Row((APPLY, BOBS, SHUT), (*ONE, *issue(2, BOBS_WAY, 0, "2,3", 2), f"{SHUT_ENTRY}1"),
        Left(limits=("S1,closed,1", "S2,height,172"), applies=("bob,T2,A,B,S2 S3,2026-03-03,2026-03-05",),
             told="carried 2 1\n", having=("T2",))),
    Row((APPLY, BOBS, "surrender,bob,2"), (*ONE, *issue(2, BOBS_WAY, 0, "2,3", 2), "2 surrender 2 = surrendered"),
        Left(applies=(TAKEN,), told="carried 1 1\n", having=("T1",))),
    # a permit that another may not give back is in force, and one that was refused is none
    Row((APPLY, "surrender,bob,1"), (*ONE, "2 surrender 1 = notyours"),
        Left(applies=(TAKEN,), told="carried 1 1\n", having=("T1",))),
    Row((SHUT, APPLY.replace(",,2", ",S1,2")), (f"{SHUT_ENTRY}-", look(1), "1 submit " + WAY.replace("none", "1") +
        " seen 1 fails 1 = refused 1 segment 1 closed"), Left(limits=("S1,closed,1", "S2,height,172"))),
    # what is written otherwise in the file, or stands elsewhere in it, is written in the one way
    Row((APPLY,), ONE, Left(applies=(TAKEN,), told="carried 1 1\n", having=("T1",)), "S1,A,B,1000", "S1,A,B,000001000"),
    Row((APPLY,), ONE, Left(applies=(TAKEN,), told="carried 1 1\n", having=("T1",)), "168,102,720,0:12000 180:17000",
        "0168,00102,720,00:012000 0180:17000"),
    Row((APPLY,), ONE, Left(applies=(TAKEN,), told="carried 1 1\n", having=("T1",)), "day,2026-03-02,,,,,,\n",
        '\ufeff"day","2026-03-02",,,,,,\r\n\r\n'),
    Row((APPLY, "limit,S2,height,172"), ONE, Left(applies=(TAKEN,), told="carried 1 1\n", having=("T1",)),
        "limit,S2,height,172", "limit,S2,height,150"),
    Row((APPLY, "actor,bob"), ONE, Left(applies=(TAKEN,), told="carried 1 1\n", having=("T1",)), "actor,bob,,,,,,\n"),
)


class Refused(NamedTuple):
    """The commands of a day and the entries of its journal, the line that is answered, what is changed in the file."""

    commands: Sequence[str]
    entries: Sequence[str]
    line: str
    old: str = ""
    new: str = ""
    status: int = 9

    def data(self) -> bytes:
        """What is to be carried."""
        return Row(self.commands, self.entries, Left(), self.old, self.new).data()


REFUSED = (
    Refused((APPLY,), (look(1), ONE[1]), "not legal: entry 1"),
    Refused((APPLY, SHUT), (*ONE, f"{SHUT_ENTRY}-"), "not legal: entry 3"),
    Refused((APPLY,), (*ONE, look(0)), "not whole: entry 3"),
    Refused((APPLY,), (look(0), ONE[1].partition(" = ")[0] + " = nomemory"), "not whole: entry 2"),
    Refused((APPLY,), (), "not whole: record 14"),
    Refused((APPLY, SHUT), ONE, "not whole: record 15"),
    Refused((APPLY,), (look(0), "1 submit"), "refused: line 3", status=5),
    Refused(("apply,ann,T1,A,B,,2026-03-02,2026-02-30",), (), "refused: record 14 range 8", status=5),
    Refused((), (), "refused: record 14 end", "end,,,,,,,\n", status=5),
    Refused([f"actor,a{at}" for at in range(15)], (), "refused: record 28 actors", status=6),
    # the journal is read first, and then the file
    Refused(("actor,ann",), ("1 submit",), "refused: line 2", status=5),
    Refused(("actor,ann",), (look(1),), "refused: record 14 same", status=5),
)
CARRIED_LOOKED = rows_of(
    "day,2026-03-02", "node,A", "node,B", "segment,S1,A,B,1000", TRUCKS["T1"], "actor,ann", "actor,eng",
    "apply,ann,T1,A,B,S1,2026-03-02,2026-03-06", "end")
# what asks for nothing, and what asks for the same
NO_WORDS: Lists = (
    [], [CARRY, CARRY], ["certify", CARRY], ["certify", IN_FORCE, IN_FORCE], [IN_FORCE],
    [CARRY, IN_FORCE, IN_FORCE], [IN_FORCE, CARRY, IN_FORCE], [CARRY, "--in-force="], [CARRY, "--in-force=1"],
    [CARRY, "--in-force", "1"], [CARRY, "--in-forc"], [CARRY, "-in-force"], [CARRY, "--", IN_FORCE], [CARRY, "--help"],
    [CARRY, ""], [CARRY, "-"], ["Carry"], ["carry "], ["carr"],
)
ALL_TRUCKS: Lists = ([CARRY], ["--", CARRY], [CARRY, "--"])
IN_FORCE_ALONE: Lists = ([CARRY, IN_FORCE], [IN_FORCE, CARRY], [IN_FORCE, "--", CARRY], [CARRY, IN_FORCE, "--"])


# how many permits a longest day has, for routes of how many segments
TRIPS, SEGMENTS = 238, 3000


def longest(more: int) -> tuple[bytes, str, str]:
    """What is to be carried to a next day of as many bytes as there may be and so many more, and that next day's file.

    There are permits for long routes, which stand in the next day's file in names. The last is the next day's file with
    the truck alone that has them.
    """
    count, trips = SEGMENTS, TRIPS
    road = " ".join(f"s{at}" for at in range(count))
    applies = [f"apply,ann,T1,n0,n{count},{routes},2026-03-02,2026-03-06" for routes in ("", road)]
    front = ["day,2026-03-02", *(f"node,n{at}" for at in range(count + 1))]
    behind = [f"segment,s{at},n{at},n{at + 1},1000" for at in range(count)]
    actor = "actor,ann"

    def next_day(nodes: Sequence[str], trucks: Sequence[str]) -> str:
        return rows_of(*front, *nodes, *behind, *trucks, actor, *[applies[1]] * trips, "end")

    # nodes more, whose rows have 13 to 28 bytes each
    room = MOST_BYTES + more - len(next_day((), TRUCKS.values()))
    nodes, sizes = [], [28] * (room // 28 - 1)
    rest = room - sum(sizes)
    for size in (*sizes, rest // 2, rest - rest // 2):
        nodes.append(f"node,{str(len(nodes)).rjust(size - 12, 'x')}")
    day = rows_of(*front, *nodes, *behind, *TRUCKS.values(), actor, *[applies[0]] * trips, "end")
    way = f"truck 1 from 1 to {count + 1} asked none days 2026-03-02 2026-03-06"
    listed = ",".join(str(at) for at in range(1, count + 1))
    entries = [entry for at in range(1, trips + 1) for entry in issue(at, way, 0, listed)]
    return f"{text(entries)}{day}".encode(), next_day(nodes, TRUCKS.values()), next_day(nodes, [TRUCKS["T1"]])


def longest_rows() -> Iterator[tuple[bytes, bool, Answer]]:
    """Next days of as many bytes as there may be, and of one more."""
    told = "".join(f"carried {at} {at}\n" for at in range(1, TRIPS + 1))
    for more, is_refused in ((0, False), (1, True)):
        data, written, alone = longest(more)
        yield data, False, (6, "refused: bytes\n", "") if is_refused else (0, written, told)
        yield data, True, (0, alone, told)


def rows() -> Iterator[tuple[bytes, bool, Answer]]:
    """What is to be carried, whether with trucks alone that have a permit in force, and what has to come."""
    empty = f"{text(())}{DAY}".encode()
    room = MOST_BYTES - len(DAY)
    made = [(row.data(), row) for row in ROWS]
    made += [(ROWS[3].data("permit-journal 1"), ROWS[3]), (empty + b"\n" * room, ROWS[0])]
    for data, row in made:
        yield from ((data, is_in_force, row.answer(is_in_force)) for is_in_force in (False, True))
    answers = [(it.data(), (it.status, f"{it.line}\n", "")) for it in REFUSED]
    answers.append((empty + b"\n" * (room + 1), (6, "refused: bytes\n", "")))
    answers.append((f"{text((*EIGHT, LOOKED))}{PESTERED}".encode(), (0, CARRIED_LOOKED, "carried 1 1\n")))
    # (what is a half of both, whose lines stand among the certificates)
    answers += [(data, (status, line, "")) for data, (status, line) in halves()]
    for data, answer in answers:
        yield from ((data, is_in_force, answer) for is_in_force in (False, True))
    yield from longest_rows()


def said(clerk: str, words: Sequence[str], data: bytes) -> Answer:
    """What the clerk says of some bytes."""
    run = subprocess.run([clerk, *words], input=data, capture_output=True)
    return run.returncode, run.stdout.decode("latin-1"), run.stderr.decode("latin-1")


def wrong_rows(clerk: str | None, name: str, made: Sequence[tuple[bytes, bool, Answer]]) -> Iterator[str]:
    """Each is answered as it has to be: by the clerk, or by the model where there is none."""
    for number, (data, is_in_force, answer) in enumerate(made, 1):
        words = [CARRY, *([IN_FORCE] if is_in_force else [])]
        told = said(clerk, words, data) if clerk else carried(data, is_in_force)
        if told != answer:
            front = data[:400].decode("latin-1")
            yield (f"{name}: next day {number}, {' '.join(words)}, {len(data)} bytes, from {front!r} on: "
                   f"{shown(told)} is not {shown(answer)}")


def shown(answer: Answer) -> str:
    """An answer, of which no text is long."""
    status, written, told = answer
    return f"{status} {written[:2000]!r} {told[:200]!r}"


def wrong_words(clerk: str | None, name: str) -> Iterator[str]:
    """Words that ask for nothing are refused, and others ask for just this."""
    row = ROWS[3]
    for lists, is_in_force in ((NO_WORDS, None), (ALL_TRUCKS, False), (IN_FORCE_ALONE, True)):
        for words in lists:
            answer = (2, CLERK_USAGE, "") if is_in_force is None else row.answer(is_in_force)
            if clerk is None:
                asked = clerk_asked(words)
                told = carried(row.data(), asked.is_in_force) if asked else (2, CLERK_USAGE, "")
            else:
                told = said(clerk, words, row.data())
            if told != answer:
                yield f"{name}: the words {words}: {told} is not {answer}"


def compared(clerk: str | None) -> tuple[int, list[str]]:
    """How many rows the model and the clerk, where there is one, were compared with, and what is wrong."""
    made = list(rows())
    wrong = [*wrong_rows(None, "model", made), *wrong_words(None, "model")]
    if clerk:
        wrong += [*wrong_rows(clerk, "clerk", made), *wrong_words(clerk, "clerk")]
    return len(made) + len(NO_WORDS) + len(ALL_TRUCKS) + len(IN_FORCE_ALONE), wrong
