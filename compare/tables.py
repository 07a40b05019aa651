"""Tables, compared with the program and with the model. Their values are as printed or worked by hand, from neither.

- The federal bridge formula table: "Bridge Formula Weights", Federal Highway Administration, table B, for 23 CFR
  658.17(e). A row is a spread in feet; its columns are 2 to 9 axles, in thousands of pounds. The line 'more than 8'
  stands at 97 inches. The cells were written down from memory, whole, and agreed so; they were not held against the
  printed page.
- AASHTO Standard Specifications for Highway Bridges, Appendix A, HS20-44 on simple spans, one lane: the span in feet,
  the greatest moment in foot-kips and the greatest end shear in kips, where the truck and not the lane load gives them.
  The spans are those that the tests of `hs20_truck` have. 1,524.0 stands for an exact 1,523.92, so they are compared to
  less than a tenth.
- The same table where the lane load gives the shear, and from 145 feet on the moment too. These spans are compared with
  `design`, and so are those of 40 feet and more above; on shorter ones the military loading gives more than the table.
  They were written down from memory, and were not held against the printed page.
- A day with an annual permit on two routes, worked by hand: its journal, and the causes for which three others like it
  are refused. So are audits of that journal beside its day, and of others like it, which are not legal or no journals.
- Journals to certify, in certificates.py, and to carry on to the next day, in next_days.py.

Three more things are tried on the model: that no second spacing of HS20-44 from 14 to 30 ft exceeds 14 ft; that no
place of some trucks, at whole and at half inches, exceeds the peaks; and that no places of two trucks with at least a
gap between them, at half inches, exceed the peaks of the two with just that gap.
"""
import subprocess
from collections.abc import Iterator, Sequence
from fractions import Fraction
from typing import NamedTuple

import certificates
import next_days
from comparing import Programs
from model.audit import audited
from model.bridges import HS20, closest, design, moment, peak_moment, peak_shear
from model.files import CheckFile, DayFile, Refused
from model.journal import alone
from model.limits import Axles
from model.office import MOST_ENTRIES
from model.report import design_report, report
from model.reroute import rerouted

FORMULA = """
8+ 38 42
9  39 42.5
10 40 43.5
11 -  44
12 -  45   50
13 -  45.5 50.5
14 -  46.5 51.5
15 -  47   52
16 -  48   52.5 58
17 -  48.5 53.5 58.5
18 -  49.5 54   59
19 -  50   54.5 60
20 -  51   55.5 60.5 66
21 -  51.5 56   61   66.5
22 -  52.5 56.5 61.5 67
23 -  53   57.5 62.5 68
24 -  54   58   63   68.5 74
25 -  54.5 58.5 63.5 69   74.5
26 -  55.5 59.5 64   69.5 75
27 -  56   60   65   70   75.5
28 -  57   60.5 65.5 71   76.5 82
29 -  57.5 61.5 66   71.5 77   82.5
30 -  58.5 62   66.5 72   77.5 83
31 -  59   62.5 67.5 72.5 78   83.5
32 -  60   63.5 68   73   78.5 84.5 90
33 -  -    64   68.5 74   79   85   90.5
34 -  -    64.5 69   74.5 80   85.5 91
35 -  -    65.5 70   75   80.5 86   91.5
36 -  -    66   70.5 75.5 81   86.5 92
37 -  -    66.5 71   76   81.5 87   93
38 -  -    67.5 71.5 77   82   87.5 93.5
39 -  -    68   72.5 77.5 82.5 88.5 94
40 -  -    68.5 73   78   83.5 89   94.5
41 -  -    69.5 73.5 78.5 84   89.5 95
42 -  -    70   74   79   84.5 90   95.5
43 -  -    70.5 75   80   85   90.5 96
44 -  -    71.5 75.5 80.5 85.5 91   96.5
45 -  -    72   76   81   86   91.5 97.5
46 -  -    72.5 76.5 81.5 87   92.5 98
47 -  -    73.5 77.5 82   87.5 93   98.5
48 -  -    74   78   83   88   93.5 99
49 -  -    74.5 78.5 83.5 88.5 94   99.5
50 -  -    75.5 79   84   89   94.5 100
51 -  -    76   80   84.5 89.5 95   100.5
52 -  -    76.5 80.5 85   90.5 95.5 101
53 -  -    77.5 81   86   91   96.5 102
54 -  -    78   81.5 86.5 91.5 97   102.5
55 -  -    78.5 82.5 87   92   97.5 103
56 -  -    79.5 83   87.5 92.5 98   103.5
57 -  -    80   83.5 88   93   98.5 104
58 -  -    -    84   89   94   99   104.5
59 -  -    -    85   89.5 94.5 99.5 105
60 -  -    -    85.5 90   95   100.5 105.5
"""

AASHTO = """
20  160.0  41.6
30  282.1  49.6
40  449.8  55.2
60  806.5  60.8
100 1524.0 65.3
"""

LANE = """
130 2063.1  67.6
140 2242.8  70.8
160 2768.0  77.2
200 4100.0  90.0
240 5688.0 102.8
300 8550.0 122.0
"""


ANNUAL = """
day,2026-03-02,,,,,,
node,A,,,,,,
node,B,,,,,,
node,C,,,,,,
segment,S1,A,B,1000,,,
segment,S2,A,C,1000,,,
segment,S3,C,B,1000,,,
truck,T1,ACME,168,102,720,0:12000 180:17000 228:17000,
actor,ann,,,,,,
apply,ann,T1,A,B,S1|S2 S3,2026-03-02,2027-03-02
post,ann,S3,closed,1,,,
end,,,,,,,
"""

ANNUAL_JOURNAL = """
permit-journal 3
1 snapshot = at 0
1 submit truck 1 from 1 to 2 asked 1/2,3 days 2026-03-02 2027-03-02 seen 0 route 1/2,3 = issued 1 at 0 route 1/2,3
1 post segment 3 closed 1 = posted 1 recalled 1
end 3
"""

# what is written instead in that day or in its journal, and the line that comes of it
ANNUAL_REFUSED = (
    ("2027-03-02", "2027-03-03", "refused: record 10 annual-days"),
    ("S1|S2 S3", "S1|", "refused: record 10 field 6"),
    ("S1|S2 S3", "S1|S2", "refused: record 10 broken-route"),
)


class FormulaRow(NamedTuple):
    """A spread in inches, how many axles stand over it, and what they may weigh in pounds."""

    spread: int
    axles: int
    limit: int


class AashtoRow(NamedTuple):
    """A span in inches, and the moment and the shear in tenths of a foot-kip and of a kip."""

    inches: int
    moment: int
    shear: int


def formula_rows() -> Iterator[FormulaRow]:
    """The cells of the federal table."""
    for line in FORMULA.strip().split("\n"):
        spread, *columns = line.split()
        inches = 97 if spread == "8+" else 12 * int(spread)
        for axles, thousands in enumerate(columns, 2):
            if thousands != "-":
                yield FormulaRow(inches, axles, round(1000 * float(thousands)))


def aashto_rows(table: str) -> Iterator[AashtoRow]:
    """The rows of a part of the AASHTO table."""
    for line in table.strip().split("\n"):
        feet, moment_printed, shear_printed = line.split()
        yield AashtoRow(12 * int(feet), round(10 * float(moment_printed)), round(10 * float(shear_printed)))


def spread_out(spread: int, count: int, gross: int) -> Axles:
    """So many axles over a spread, as far from each other as they go, of so much weight together."""
    places = [spread * i // (count - 1) for i in range(count)]
    return [(place, gross // count + (i < gross % count)) for i, place in enumerate(places)]


def said(program: str | None, word: str, axles: Axles, probes: Sequence[int] = ()) -> list[str]:
    """What a word says of a truck with these axles: by the program, or by the model where there is none."""
    pairs = " ".join(f"{place}:{weight}" for place, weight in axles)
    rows = [f"truck,T,C,150,100,700,{pairs},", *(f"probe,{inches},1000,,,,," for inches in probes), "end,,,,,,,"]
    text = "".join(f"{row}\n" for row in rows).encode()
    if program is None:
        return {"check": report, "design": design_report}[word](CheckFile(text)).split("\n")
    return subprocess.run([program, word], input=text, capture_output=True).stdout.decode("latin-1").split("\n")


def wrong_formula(program: str | None, name: str) -> Iterator[str]:
    """A pound over a printed limit is told with that limit, and the limit itself is not over."""
    for spread, count, limit in formula_rows():
        told = f"over 1-{count} {limit + 1} {limit} formula"
        if told not in said(program, "check", spread_out(spread, count, limit + 1)):
            yield f"{name}: {count} axles over {spread} in: {limit} is not the limit that is told"
        if any(line.startswith(f"over 1-{count} {limit} ") and line.endswith("formula")
               for line in said(program, "check", spread_out(spread, count, limit))):
            yield f"{name}: {count} axles over {spread} in: {limit} is over"


def tenths(ratio: str, unit: int) -> float:
    """What the report tells as a fraction, in tenths as they are printed."""
    numerator, denominator = map(int, ratio.split("/"))
    return numerator / denominator / unit


def is_printed(row: AashtoRow, moment: str, shear: str) -> bool:
    """Whether the moment and the shear are those of the row, to less than a tenth."""
    return abs(tenths(moment, 1200) - row.moment) < 1 and abs(tenths(shear, 100) - row.shear) < 1


def wrong_aashto(program: str | None, name: str) -> Iterator[str]:
    """Each printed moment and shear of the truck is told."""
    rows = list(aashto_rows(AASHTO))
    lines = said(program, "check", HS20, [row.inches for row in rows])
    told = [line.split()[1:] for line in lines if line.startswith("hs20")]
    for row, pair in zip(rows, told):
        if not is_printed(row, *pair):
            yield f"{name}: HS20-44 on {row.inches} in: {pair} is not what is printed"
    if len(told) != len(rows):
        yield f"{name}: {len(told)} of {len(rows)} spans are told"


def wrong_governing(program: str | None, name: str) -> Iterator[str]:
    """Each printed moment and shear of the truck or the lane load is told, with the load that gives it."""
    lane = list(aashto_rows(LANE))
    rows = [row for row in aashto_rows(AASHTO) if row.inches >= 480] + lane
    lines = said(program, "design", HS20, [row.inches for row in rows])
    moments = [line.split()[1:] for line in lines if line.startswith("moment")]
    shears = [line.split()[1:] for line in lines if line.startswith("shear")]
    for row, most, shear in zip(rows, moments, shears):
        loads = ["lane" if row in lane and row.inches >= 1740 else "truck", "lane" if row in lane else "truck"]
        if not is_printed(row, most[0], shear[0]) or [most[1], shear[1]] != loads:
            yield f"{name}: the design loads on {row.inches} in: {most} and {shear} are not what is printed"
    if not len(moments) == len(shears) == len(rows):
        yield f"{name}: {len(moments)} of {len(rows)} spans are told"


def wrong_spacing() -> Iterator[str]:
    """No second spacing of HS20-44 exceeds the least one."""
    for row in aashto_rows(AASHTO):
        most = design(row.inches)
        for gap in range(168, 361, 12):
            longer = ((0, 8000), (168, 32000), (168 + gap, 32000))
            if peak_moment(longer, row.inches)[0] > most.moment or peak_shear(longer, row.inches)[0] > most.shear:
                yield f"model: HS20-44 with {gap} in between its last axles exceeds 14 ft on {row.inches} in"


def wrong_peaks() -> Iterator[str]:
    """No place of some trucks exceeds the peak, which is reached at the place that is told."""
    trains: list[tuple[Axles, int]] = [
        ([(0, 5), (3, 7), (4, 2), (9, 6)], 8), ([(0, 1), (2, 9), (5, 9), (7, 1)], 11), ([(0, 3), (6, 4)], 5),
    ]
    for axles, span in trains:
        most, at = peak_moment(axles, span)
        places = [(q, x, r) for q in (1, 2) for x in range(-9 * q, span * q + 1) for r in range(span * q + 1)]
        is_over = any(moment(axles, span, *place) > most for place in places)
        if is_over or moment(axles, span, at.scale, at.lead, at.section) != most:
            yield f"model: {most} over a span of {span} in is not the peak"


def done_at(axles: Axles, span: int, lead: int) -> list[Fraction]:
    """What a truck does at a lead in half inches: both reactions, and the moment at each section."""
    end = 2 * span
    on = [(lead + 2 * place, weight) for place, weight in axles if 0 <= lead + 2 * place <= end]
    left = Fraction(sum(weight * (end - x) for x, weight in on), end)
    right = Fraction(sum(weight * x for x, weight in on), end)
    return [left, right, *(moment(axles, span, 2, lead, section) for section in range(end + 1))]


def wrong_convoys() -> Iterator[str]:
    """No places of two trucks that keep a gap exceed the peaks of the two with just that gap."""
    convoys: list[tuple[Axles, int, int]] = [
        ([(0, 8), (2, 32), (5, 32)], 1, 7), ([(0, 5), (3, 7), (4, 2)], 2, 9), ([(0, 3), (6, 4)], 4, 5),
    ]
    for axles, gap, span in convoys:
        # at the last of these leads a truck is off the span, as it is at each one behind it
        first, last, spacing = -2 * axles[-1][0], 2 * span + 1, 2 * (axles[-1][0] + gap)
        done = {lead: done_at(axles, span, lead) for lead in range(first, last + 1)}
        together = [[a + b for a, b in zip(done[lead], done[later])]
                    for lead in done for later in (*range(lead + spacing, last), last)]
        shear = max(max(both[:2]) for both in together)
        most = max(max(both[2:]) for both in together)
        train = closest(axles, 2, gap)
        if most > peak_moment(train, span)[0] or shear > peak_shear(train, span)[0]:
            yield f"model: two trucks with more than {gap} in between them exceed those with {gap} on {span} in"


def day_said(program: str | None, text: str) -> str:
    """What `day` says of a day file: by the program, or by the model where there is none."""
    data = text.encode()
    if program is not None:
        return subprocess.run([program, "day"], input=data, capture_output=True).stdout.decode("latin-1")
    try:
        return alone(DayFile(data))[0]
    except Refused as refused:
        return refused.line


def wrong_annual(program: str | None, name: str) -> Iterator[str]:
    """The day of the annual permit has its journal, and those like it are refused."""
    day = ANNUAL.lstrip()
    rows = [(day, ANNUAL_JOURNAL.lstrip())]
    rows += [(day.replace(old, new), f"{line}\n") for old, new, line in ANNUAL_REFUSED]
    for text, wanted in rows:
        told = day_said(program, text)
        if told != wanted:
            yield f"{name}: a day of an annual permit: {told!r} is not {wanted!r}"


# what is written instead in the journal of that day or in the day behind it, and what an audit answers
ENTRIES = ANNUAL_JOURNAL.lstrip().partition("\n")[2]
AUDITED = (
    ("", "", (0, "legal 3\n")),
    ("issued 1 at 0 route 1/2,3\n1 post segment 3 closed 1 = posted 1 recalled 1", "nomemory\n"
     "1 post segment 3 closed 1 = posted 1 recalled -", (0, "legal 3\n")),
    ("issued 1 at 0 route 1/2,3", "nomemory", (9, "not legal: entry 3\n")),
    ("= at 0", "= nomemory", (9, "not legal: entry 1\n")),
    ("seen 0", "seen 1", (9, "not legal: entry 2\n")),
    ("closed 1 = posted 1 recalled 1", "closed 1 = posted 1 recalled -", (9, "not legal: entry 3\n")),
    ("= issued 1 at 0 route 1/2,3", "= notneeded", (9, "not legal: entry 2\n")),
    ("seen 0 route 1/2,3 = issued 1 at 0 route 1/2,3", "seen 0 route 1 = issued 1 at 0 route 1",
     (9, "not legal: entry 2\n")),
    ("permit-journal 3", "permit-journal 2", (5, "refused: line 3\n")),
    (ENTRIES, "", (5, "refused: line 2\n")),
    ("end 3\n", "", (5, "refused: line 5\n")),
    ("end 3", "end 4", (5, "refused: line 5\n")),
    (ANNUAL.lstrip(), "", (5, "refused: record 1 end\n")),
    ("end,,,,,,,", "end 0", (5, "refused: record 12 fields\n")),
    ("S1|S2 S3,2026-03-02,2027-03-02", "S1|S2 S3,2026-03-02,2027-03-03", (5, "refused: record 10 annual-days\n")),
    ("node,C,,,,,,", "node,C,,,,,", (5, "refused: record 4 fields\n")),
)


def wrong_audit(program: str | None, name: str) -> Iterator[str]:
    """The journal of the day of the annual permit is legal, and those like it are not, or are no journals."""
    for old, new, wanted in AUDITED:
        data = f"{ANNUAL_JOURNAL.lstrip()}{ANNUAL.lstrip()}".replace(old, new, 1).encode()
        if program is None:
            told = audited(data)
        else:
            run = subprocess.run([program, "audit"], input=data, capture_output=True)
            told = run.returncode, run.stdout.decode("latin-1")
        if told != wanted:
            yield f"{name}: an audit with {new!r} for {old!r}: {told} is not {wanted}"


# the commands behind the roads, the truck and the actor of that day, and what `reroute` writes
TRIP = "apply,ann,T1,A,B,,2026-03-02,2026-03-06"
REROUTED = (
    ((TRIP, "post,ann,S1,closed,1", "post,ann,S3,closed,1"),
     "permit 1 replaced 2 at 1 route 2,3\npermit 2 refused 2 segment 1 closed\n"),
    # the desk's permits are no actor's
    ((TRIP, "post,ann,S1,closed,1", "surrender,ann,2", "post,ann,S3,closed,1"),
     "permit 1 replaced 2 at 1 route 2,3\npermit 2 refused 2 segment 1 closed\n"),
    # a replacement is a permit as others are
    ((TRIP, "post,ann,S1,closed,1", "post,ann,S1,closed,0", "post,ann,S3,closed,1"),
     "permit 1 replaced 2 at 1 route 2,3\npermit 2 replaced 3 at 3 route 1\n"),
    ((TRIP, TRIP, "post,ann,S1,height,167", "post,ann,S2,height,167"),
     "permit 1 replaced 3 at 1 route 2,3\npermit 2 replaced 4 at 1 route 2,3\n"
     "permit 3 refused 2 segment 1 height 168 over 167\npermit 4 refused 2 segment 1 height 168 over 167\n"),
    # what was refused is not tried again
    ((TRIP, "post,ann,S2,closed,1", "post,ann,S1,closed,1", "post,ann,S2,closed,0"),
     "permit 1 refused 2 segment 1 closed\n"),
    # a route that was asked for is not asked for again, nor are several
    (("apply,ann,T1,A,B,S2 S3,2026-03-02,2026-03-06", "post,ann,S2,closed,1"), "permit 1 replaced 2 at 1 route 1\n"),
    (("apply,ann,T1,A,B,S1|S2 S3,2026-03-02,2027-03-02", "post,ann,S3,closed,1"), "permit 1 replaced 2 at 1 route 1\n"),
    # from today on, to the last day of the permit; and an expired one is not recalled
    ((TRIP, "setday,ann,2026-03-06", "post,ann,S1,closed,1", "setday,ann,2026-03-07", "post,ann,S2,closed,1"),
     "permit 1 replaced 2 at 1 route 2,3\n"),
    ((TRIP, "surrender,ann,1", "post,ann,S1,closed,1"), ""),
    (("apply,ann,T1,A,B,S1|S2 S3,2026-03-02,2027-03-03",), "refused: record 10 annual-days\n"),
)


def rerouting(commands: Sequence[str]) -> bytes:
    """The day of the annual permit with other commands."""
    front = ANNUAL.lstrip().partition("apply,")[0].splitlines()
    return "".join(f"{row}{',' * (7 - row.count(','))}\n" for row in (*front, *commands, "end")).encode()


def crowded_desk(shows: int) -> bytes:
    """A thousand permits, all recalled and replaced 996 times, which are 999,991 entries; and so many shows."""
    rounds = [f"post,ann,{segment},closed,{value}" for segment in ("S1", "S3") for value in (1, 0)] * 498
    return rerouting([TRIP] * 1000 + rounds[:-1] + ["show,ann,1"] * shows)


def reroute_said(program: str | None, data: bytes) -> tuple[int, str]:
    """What `reroute` says of a day file: by the program, or by the model where there is none."""
    if program is None:
        return rerouted(data)
    run = subprocess.run([program, "reroute"], input=data, capture_output=True)
    return run.returncode, run.stdout.decode("latin-1")


def wrong_reroute(program: str | None, name: str) -> Iterator[str]:
    """Recalled permits are applied for again."""
    for commands, text in REROUTED:
        told = reroute_said(program, rerouting(commands))
        if told != (5 if text.startswith("refused") else 0, text):
            yield f"{name}: reroute after {commands}: {told} is not {text!r}"


def wrong_crowded_desk(program: str | None, name: str) -> Iterator[str]:
    """A day of as many entries as there may be is taken, and one of one more is refused."""
    at_most, beyond = (reroute_said(program, crowded_desk(MOST_ENTRIES - 999991 + more)) for more in (0, 1))
    if at_most[0] != 0 or at_most[1].count("\n") != 996000 or beyond != (10, "refused: entries\n"):
        yield f"{name}: reroute at {MOST_ENTRIES} entries: {at_most[0]}, {at_most[1][:100]!r}, and then {beyond}"


def compared(programs: Programs) -> tuple[int, list[str]]:
    """How many rows were compared, and what is wrong."""
    wrong = [*wrong_spacing(), *wrong_peaks(), *wrong_convoys()]
    for tried, name in ((programs.office, "program"), (None, "model")):
        wrong += [*wrong_formula(tried, name), *wrong_aashto(tried, name), *wrong_governing(tried, name)]
        wrong += [*wrong_annual(tried, name), *wrong_audit(tried, name), *wrong_reroute(tried, name)]
    # (the model takes too long for a crowded desk)
    wrong += wrong_crowded_desk(programs.office, "program")
    certified, uncertified = certificates.compared(programs.clerk)
    carried, not_carried = next_days.compared(programs.clerk)
    printed = len(list(formula_rows())) + len(list(aashto_rows(AASHTO + LANE.lstrip())))
    worked = 1 + len(ANNUAL_REFUSED) + len(AUDITED) + len(REROUTED) + 2 + certified + carried
    return printed + worked, wrong + uncertified + not_carried
