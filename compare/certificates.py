"""Journals to certify, each with its day file behind it, and what has to be answered. They were worked by hand.

- The day of an annual permit, with other entries in its journal or other records in its file.
- A day on which one applies for a trip while another shuts and opens the road: eight attempts are out of date, and then
  the office looks itself.
- What is cut off, or is one half of both.
- Journals and day files of as many bytes as there may be, and of one more; and as many entries.
"""
import subprocess
from collections.abc import Iterator, Sequence
from typing import NamedTuple

from model.certify import MOST_OF_JOURNAL, certified
from model.office import MOST_ENTRIES
from model.records import MOST_BYTES

Answer = tuple[int, str]
FIRST_LINE = "permit-journal 3"
ANNUAL = """
day,2026-03-02,,,,,,
node,A,,,,,,
node,B,,,,,,
node,C,,,,,,
segment,S1,A,B,1000,,,
segment,S2,A,C,1000,,,
segment,S3,C,B,1000,,,
truck,T1,ACME,168,102,720,0:12000 180:17000 228:17000,
actor,ann,,,,,,
apply,ann,T1,A,B,S1|S2 S3,2026-03-02,2027-03-02
post,ann,S3,closed,1,,,
end,,,,,,,
""".lstrip()
TRIP = "truck 1 from 1 to 2 asked 1/2,3 days 2026-03-02 2027-03-02"
LOOK = "1 snapshot = at 0"
SUBMIT = f"1 submit {TRIP} seen 0 route 1/2,3 = issued 1 at 0 route 1/2,3"
POST = "1 post segment 3 closed 1 = posted 1 recalled 1"
NONE_RECALLED = "1 post segment 3 closed 1 = posted 1 recalled -"
SHOW = "1 show 1 = shown 1 caller 1 truck 1 days 2026-03-02 2027-03-02 at 0 seen 0 recalled 1"
HELD = f"1 held {TRIP} = issued 1 at 0 route 1/2,3"
DAY = (LOOK, SUBMIT, POST)
# the same for one route
ONE = (LOOK, SUBMIT.replace("1/2,3", "1"), NONE_RECALLED)
# a second actor, whose command is the first of the file
BOB = ("actor,ann,,,,,,", "actor,ann,,,,,,\nactor,bob,,,,,,\nshow,bob,0,,,,,")
BOBS = "2 show 0 = unknown"
APPLIES, POSTS = "apply,ann,T1,A,B,S1|S2 S3,2026-03-02,2027-03-02\n", "post,ann,S3,closed,1,,,\n"


class Row(NamedTuple):
    """The entries of a journal, the line that is answered, what is changed in the day file, and the first line."""

    entries: Sequence[str]
    line: str
    old: str = ""
    new: str = ""
    first: str = FIRST_LINE

    def data(self, day: str) -> bytes:
        """What is to be certified."""
        return f"{text(self.entries, self.first)}{day.replace(self.old, self.new, 1)}".encode()

    def answer(self) -> Answer:
        """The status, and what is written."""
        status = 0 if self.line.startswith("whole") else 9 if self.line.startswith("not") else 5
        return status, f"{self.line}\n"


def text(entries: Sequence[str], first: str = FIRST_LINE) -> str:
    """A journal."""
    return "".join(f"{line}\n" for line in (first, *entries, f"end {len(entries)}"))


ROWS = (
    Row(DAY, "whole 3"),
    Row((), "whole 0", APPLIES + POSTS),
    Row((*DAY, SHOW), "whole 4", "end,", "show,ann,000000001,,,,,\nend,"),
    Row(ONE, "whole 3", "S1|S2 S3", "S1"),
    Row(ONE, "whole 3", "S1|S2 S3", "S1", "permit-journal 1"),
    Row((*DAY, BOBS), "whole 4", *BOB),
    Row((LOOK, BOBS, SUBMIT, POST), "whole 4", *BOB),
    # what an audit refuses
    Row((LOOK, SUBMIT, NONE_RECALLED), "not legal: entry 3"),
    Row((LOOK, SUBMIT.replace("seen 0", "seen 1"), POST), "not legal: entry 2"),
    Row((LOOK, "1 snapshot = nomemory", POST), "not legal: entry 2"),
    Row((LOOK, LOOK, SUBMIT, NONE_RECALLED), "not legal: entry 4"),
    Row((*DAY, "1 show 1"), "refused: line 5"),
    Row(DAY, "refused: line 3", first="permit-journal 2"),
    Row(DAY, "refused: record 9 fields", "actor,ann,,,,,,", "actor,ann,,,,,"),
    Row(DAY, "refused: record 12 end", "end,,,,,,,\n"),
    Row(DAY, "refused: record 10 annual-days", "2027-03-02", "2027-03-03"),
    # an entry too many, or one that is missing
    Row((*DAY, SHOW), "not whole: entry 4"),
    Row((*DAY, "1 snapshot = at 1"), "not whole: entry 4"),
    Row((LOOK, *DAY), "not whole: entry 2"),
    Row((SUBMIT, POST), "not whole: entry 1"),
    Row((NONE_RECALLED,), "not whole: entry 1"),
    Row((LOOK, NONE_RECALLED), "not whole: entry 2"),
    Row((LOOK, SUBMIT, LOOK, SUBMIT.replace("issued 1", "issued 2"), POST.replace("led 1", "led 1,2")),
        "not whole: entry 3"),
    # another caller
    Row((LOOK, SUBMIT, "2 snapshot = at 0", POST), "not whole: entry 3"),
    Row((LOOK, SUBMIT, POST.replace("1 post", "2 post")), "not whole: entry 3"),
    Row((LOOK, SUBMIT, POST.replace("1 post", "65536 post")), "not whole: entry 3"),
    Row((LOOK.replace("1 snap", "2 snap"), SUBMIT, POST, BOBS), "not whole: entry 1", *BOB),
    Row((*DAY, BOBS.replace("2 show", "1 show")), "not whole: entry 4", *BOB),
    Row(DAY, "not whole: entry 3", "post,ann", "actor,bob,,,,,,\npost,bob"),
    Row(DAY, "not whole: entry 1", "actor,ann,", "actor,bob,,,,,,\nactor,ann,"),
    # another command
    Row((LOOK, SUBMIT, "1 show 7 = unknown", POST), "not whole: entry 3"),
    Row((HELD, POST), "not whole: entry 1"),
    Row((LOOK, HELD, POST), "not whole: entry 2"),
    Row((LOOK, SUBMIT.replace("2027-03-02", "2026-12-31"), POST), "not whole: entry 2"),
    Row((LOOK, SUBMIT.replace("1/2,3", "2,3/1"), POST), "not whole: entry 2"),
    Row((LOOK, SUBMIT.replace("1/2,3", "1/2,3/1"), POST), "not whole: entry 2"),
    Row((LOOK, SUBMIT.replace("asked 1/2,3", "asked none").replace("1/2,3", "1"), NONE_RECALLED), "not whole: entry 2"),
    Row(DAY, "not whole: entry 2", "S1|S2 S3", "S1"),
    Row(DAY, "not whole: entry 2", "S1|S2 S3", ""),
    Row(DAY, "not whole: entry 2", "A,B,S1|S2 S3", "A,C,S2"),
    Row(DAY, "not whole: entry 2", "2027-03-02", "2027-03-01"),
    Row(DAY, "not whole: entry 3", "S3,closed,1", "S3,closed,0"),
    Row(DAY, "not whole: entry 3", "S3,closed,1", "S2,closed,1"),
    Row(DAY, "not whole: entry 3", "S3,closed,1", "S3,height,167"),
    Row(DAY, "not whole: entry 3", POSTS),
    Row(DAY, "not whole: entry 3", "post,ann", "show,ann,1,,,,,\npost,ann"),
    Row(DAY, "not whole: entry 1", "apply,ann", "setday,ann,2026-03-02,,,,,\napply,ann"),
    Row(DAY, "not whole: entry 1", APPLIES + POSTS, POSTS + APPLIES),
    # memory that was wanting
    Row((LOOK, SUBMIT.replace("issued 1 at 0 route 1/2,3", "nomemory"), NONE_RECALLED), "not whole: entry 2"),
    Row((LOOK, SUBMIT, "1 post segment 3 closed 1 = nomemory"), "not whole: entry 3"),
    # a command that is not finished
    Row((LOOK, SUBMIT), "not whole: record 11"),
    Row((LOOK,), "not whole: record 10"),
    Row((), "not whole: record 10"),
    Row((LOOK, SUBMIT), "not whole: record 11", "actor,ann,,,,,,", "actor,ann,,,,,,\n\n\n"),
    Row(DAY, "not whole: record 12", "end,", "show,ann,1,,,,,\nend,"),
    Row(DAY, "not whole: record 11", *BOB),
    Row((LOOK, SUBMIT), "not whole: record 11", *BOB),
    Row((BOBS, LOOK), "not whole: record 12", *BOB),
    Row((LOOK, BOBS, SUBMIT), "not whole: record 13", *BOB),
)

PESTERED = """
day,2026-03-02,,,,,,
node,A,,,,,,
node,B,,,,,,
segment,S1,A,B,1000,,,
truck,T1,ACME,168,102,720,0:12000 180:17000 228:17000,
actor,ann,,,,,,
actor,eng,,,,,,
apply,ann,T1,A,B,,2026-03-02,2026-03-06
post,eng,S1,closed,1,,,
post,eng,S1,closed,0,,,
post,eng,S1,closed,1,,,
post,eng,S1,closed,0,,,
post,eng,S1,closed,1,,,
post,eng,S1,closed,0,,,
post,eng,S1,closed,1,,,
post,eng,S1,closed,0,,,
end,,,,,,,
""".lstrip()
WAY = "truck 1 from 1 to 2 asked none days 2026-03-02 2026-03-06"
POSTINGS = tuple(f"2 post segment 1 closed {1 - at % 2} = posted {at + 1} recalled -" for at in range(8))


def found(at: int) -> str:
    """A submit of what is found at a version: the road is open at the even ones."""
    return f"1 submit {WAY} seen {at} {'cut 1' if at % 2 else 'route 1'}"


def attempt(at: int) -> tuple[str, str, str]:
    """An attempt that is out of date, since the posting comes in between."""
    then = "meets segment 1" if at % 2 else "fails segment 1 closed"
    return f"1 snapshot = at {at}", POSTINGS[at], f"{found(at)} = outdated {at + 1} {then}"


EIGHT = tuple(entry for at in range(8) for entry in attempt(at))
LOOKED = f"1 held {WAY} = issued 1 at 8 route 1"
AGAIN = ("1 snapshot = at 8", f"{found(8)} = issued 1 at 8 route 1")
OLD = f"{found(0)} = issued 1 at 8 route 1"

PESTERED_ROWS = (
    Row((*EIGHT, LOOKED), "whole 25"),
    # seven that are out of date, and one that is not
    Row((*EIGHT[:21], POSTINGS[7], *AGAIN), "whole 24"),
    Row((LOOK, f"{found(0)} = issued 1 at 0 route 1", POSTINGS[0].replace("led -", "led 1"), *POSTINGS[1:]),
        "whole 10"),
    Row((*EIGHT, *AGAIN), "not whole: entry 25"),
    Row((*EIGHT, AGAIN[0]), "not whole: entry 25"),
    Row((*EIGHT[:21], POSTINGS[7], LOOKED), "not whole: entry 23"),
    Row((*EIGHT[:21], POSTINGS[7], AGAIN[0], LOOKED), "not whole: entry 24"),
    Row((*EIGHT, LOOKED, LOOKED.replace("issued 1", "issued 2")), "not whole: entry 26"),
    Row((*EIGHT, LOOKED, AGAIN[0]), "not whole: entry 26"),
    # a version that was not looked at
    Row((*POSTINGS, AGAIN[0], OLD), "not whole: entry 10"),
    Row((*POSTINGS, "1 snapshot = at 8", "1 snapshot = at 8", AGAIN[1]), "not whole: entry 10"),
    Row((*EIGHT[:3], AGAIN[1].replace(" 8 ", " 1 ")), "not legal: entry 4"),
    Row((*POSTINGS[:2], "1 snapshot = at 2", *POSTINGS[2:], OLD.replace("seen 0", "seen 8")), "not whole: entry 10"),
    # the actors' own order alone counts
    Row((*POSTINGS, *AGAIN), "whole 10"),
    Row((*POSTINGS[:1], AGAIN[0].replace("8", "1"), *POSTINGS[1:], f"{found(1)} = outdated 8 meets segment 1", *AGAIN),
        "whole 12"),
    Row((POSTINGS[0], POSTINGS[1].replace("closed 0", "closed 1")), "not whole: entry 2"),
    Row((*EIGHT,), "not whole: record 8"),
    Row((*EIGHT[:20],), "not whole: record 8"),
    Row(POSTINGS, "not whole: record 8"),
    Row((*POSTINGS[:2], "1 snapshot = at 2", f"{found(2)} = issued 1 at 2 route 1"), "not whole: record 11"),
)


def halves() -> Iterator[tuple[bytes, Answer]]:
    """What is cut off, or is one half of both, and what has to be answered."""
    journal, day = text(DAY), ANNUAL
    yield journal.encode(), (5, "refused: record 1 end\n")
    yield day.encode(), (5, "refused: line 1\n")
    yield b"", (5, "refused: line 1\n")
    yield f"{day}{journal}".encode(), (5, "refused: line 1\n")
    yield f"{journal}{day}{day}".encode(), (5, "refused: record 13 order\n")
    yield f"{journal}{journal}{day}".encode(), (5, "refused: record 1 fields\n")
    yield f"{journal[:journal.index('end ')]}{day}".encode(), (5, "refused: line 5\n")
    yield f"{journal.replace('end 3', 'end 2')}{day}".encode(), (5, "refused: line 5\n")
    yield journal[:journal.index("submit")].encode(), (5, "refused: line 3\n")
    yield f"{journal}{day[:day.index(',B,')]}".encode(), (5, "refused: record 3 fields\n")


def within_bytes() -> Iterator[tuple[bytes, Answer]]:
    """A day file of as many bytes as there may be, and of one more, and a long journal in front of it."""
    journal, day = text(DAY).encode(), ANNUAL.encode()
    for more, answer in ((0, (0, "whole 3\n")), (1, (6, "refused: bytes\n"))):
        yield journal + day + b"\n" * (MOST_BYTES - len(day) + more), answer
    yield long_day()


def long_day() -> tuple[bytes, Answer]:
    """A road of 3,000 segments and 200 trips on it. The journal has more bytes than an audit takes."""
    count, trips = 3000, 200
    rows = ["day,2026-03-02", "node,n0", *(f"node,n{at}" for at in range(1, count + 1))]
    rows += [f"segment,s{at},n{at},n{at + 1},1000" for at in range(count)]
    rows += ["truck,T1,ACME,168,102,720,0:12000 180:17000 228:17000", "actor,ann"]
    rows += [f"apply,ann,T1,n0,n{count},,2026-03-02,2026-03-06"] * trips
    day = "".join(f"{row}{',' * (7 - row.count(','))}\n" for row in (*rows, "end"))
    road = ",".join(str(at) for at in range(1, count + 1))
    way = f"truck 1 from 1 to {count + 1} asked none days 2026-03-02 2026-03-06"
    entries = [entry for at in range(1, trips + 1)
               for entry in (LOOK, f"1 submit {way} seen 0 route {road} = issued {at} at 0 route {road}")]
    return f"{text(entries)}{day}".encode(), (0, f"whole {2 * trips}\n")


def longest() -> Iterator[tuple[bytes, Answer]]:
    """Journals of as many entries as an office may have, and of one more; and the same of bytes."""
    for more, line in ((0, "not whole: entry 2\n"), (1, f"not legal: entry {MOST_ENTRIES + 1}\n")):
        yield f"{text((LOOK,) * (MOST_ENTRIES + more))}{ANNUAL}".encode(), (9, line)
    # bad ones, which have no end, so that nothing is the day file
    for more, answer in ((0, (5, "refused: line 2\n")), (1, (6, "refused: bytes\n"))):
        front = f"{FIRST_LINE}\n".encode()
        yield front + b"x" * (MOST_OF_JOURNAL - len(front) + more), answer


def said(clerk: str | None, data: bytes) -> Answer:
    """What is said of some bytes: by the clerk, or by the model where there is none."""
    if clerk is None:
        return certified(data)
    run = subprocess.run([clerk, "certify"], input=data, capture_output=True)
    return run.returncode, run.stdout.decode("latin-1")


def rows() -> Iterator[tuple[bytes, Answer]]:
    """What is to be certified, and what has to be answered."""
    for day, its_rows in ((ANNUAL, ROWS), (PESTERED, PESTERED_ROWS)):
        for row in its_rows:
            yield row.data(day), row.answer()
    yield from halves()
    yield from within_bytes()


def wrong_rows(clerk: str | None, name: str, made: Sequence[tuple[bytes, Answer]]) -> Iterator[str]:
    """Each is answered as it has to be."""
    for number, (data, answer) in enumerate(made, 1):
        told = said(clerk, data)
        if told != answer:
            front = data[:400].decode("latin-1")
            yield f"{name}: certificate {number}, {len(data)} bytes, from {front!r} on: {told} is not {answer}"


def compared(clerk: str | None) -> tuple[int, list[str]]:
    """How many rows the model and the clerk, where there is one, were compared with, and what is wrong."""
    made = list(rows())
    wrong = list(wrong_rows(None, "model", made))
    if clerk is None:
        return len(made), wrong
    # (the model takes too long for the longest ones, and too much memory)
    made += longest()
    return len(made), wrong + list(wrong_rows(clerk, "clerk", made))
