"""The reports of `check`, `design` and `convoy` on a check file, read back, and what they say of each span.

The grammars are those of docs/FORMATS.md, "The report", "The report of `design`" and "The report of `convoy`". What a
report of `design` or `convoy` does not say, as where the train stands, is computed by the second program.
"""
import re
from collections.abc import Sequence
from dataclasses import dataclass, field
from fractions import Fraction

from model.bridges import closest, design, peak_moment, peak_shear
from model.limits import Axles
from model.trucks import Truck

from .command import BAD, Fault
from .rating import Effect, Judged, Judgement, Place

# No number of a report has as many digits as these may have.
NUMBER, SIGNED, RATIO = r"([0-9]{1,40})", r"(-?[0-9]{1,40})", r"([0-9]{1,40}/[0-9]{1,40})"
NAME = r"([A-Za-z0-9_-]{1,16})"
TRUCK = re.compile(rf"truck {NAME} axles {NUMBER} gross {NUMBER}")
OVER = re.compile(rf"over {NUMBER}-{NUMBER} {NUMBER} {NUMBER} (single|tandem|formula|two-tandem|gross)")
HIGH = re.compile(rf"high {NUMBER} {NUMBER}")
WIDE = re.compile(rf"wide {NUMBER} {NUMBER}")
LEGAL = re.compile(r"legal (yes|no)")
SPAN = re.compile(rf"span {NUMBER}")
MOMENT = re.compile(rf"moment {RATIO} at {NUMBER} {SIGNED} {NUMBER} axle {NUMBER} run {NUMBER}-{NUMBER}")
SHEAR = re.compile(rf"shear {RATIO} at {SIGNED} (left|right)")
HS20 = re.compile(rf"hs20 {RATIO} {RATIO}")
RATING = re.compile(rf"rating {NUMBER} (fits|moment|shear)")
CONVOY = re.compile(rf"convoy {NUMBER} gap {NUMBER} axles {NUMBER} gross {NUMBER}")
LOADS = {"truck": "HS20-44 truck", "lane": "lane load", "military": "military loading"}
MOMENT_BY = re.compile(rf"moment {RATIO} (truck|lane|military)")
SHEAR_BY = re.compile(rf"shear {RATIO} (truck|lane|military)")
MOMENT_OF = re.compile(rf"moment {RATIO}")
SHEAR_OF = re.compile(rf"shear {RATIO}")
HS20_44 = "HS20-44 truck"


@dataclass(frozen=True)
class Over:
    """A group of axles, or the gross weight, over its limit. Axles count from 1."""

    first: int
    last: int
    weight: int
    limit: int
    rule: str


@dataclass(frozen=True)
class Probe:
    """What is said of the truck on one span. Places are in inches from the left support."""

    inches: int
    moment: Fraction
    lead: Fraction
    section: Fraction
    axle: int
    run: tuple[int, int]
    shear: Fraction
    shear_lead: int
    side: str
    hs20_moment: Fraction
    hs20_shear: Fraction
    rating: int
    judged: str


@dataclass(frozen=True)
class Report:
    """A report, with the sizes over their limits as what the truck has and what is allowed."""

    name: str
    axles: int
    gross: int
    over: list[Over] = field(hash=False)
    high: tuple[int, int] | None
    wide: tuple[int, int] | None
    legal: bool
    probes: list[Probe] = field(hash=False)


class Lines:
    """The lines of a report, taken one after another."""

    def __init__(self, data: bytes, path: str) -> None:
        text = data.decode("utf-8", "replace")
        self.lines, self.path, self.at = text.split("\n"), path, 0
        if text.startswith("refused: "):
            raise Fault(BAD, f"{path} is no report, but the line of a refusal: {self.lines[0]}")
        if not text:
            raise Fault(BAD, f"{path} is empty: no report was written, or it is one of design and there are no probes")
        if not text.endswith("\n"):
            raise Fault(BAD, f"{path} is no whole report: its last line has no line feed")
        self.lines.pop()

    def maybe(self, form: re.Pattern[str]) -> re.Match[str] | None:
        """The next line, where it has this form."""
        found = form.fullmatch(self.lines[self.at]) if self.at < len(self.lines) else None
        self.at += found is not None
        return found

    def take(self, form: re.Pattern[str], what: str) -> re.Match[str]:
        found = self.maybe(form)
        if found is None:
            raise Fault(BAD, f"{self.path} is no report: line {self.at + 1} is no line of the kind {what}")
        return found

    def fraction(self, text: str) -> Fraction:
        try:
            return Fraction(text)
        except ZeroDivisionError as fault:
            raise Fault(BAD, f"{self.path} is no report: the fraction of line {self.at} is over zero") from fault

    def end(self) -> None:
        """Nothing follows but spans."""
        if self.at < len(self.lines):
            raise Fault(BAD, f"{self.path} is no report: line {self.at + 1} is no line of the kind span")


def read_report(data: bytes, path: str) -> Report:
    """The report that some bytes are."""
    lines = Lines(data, path)
    truck = lines.take(TRUCK, "truck")
    over = []
    while found := lines.maybe(OVER):
        over.append(Over(int(found[1]), int(found[2]), int(found[3]), int(found[4]), found[5]))
    high, wide = lines.maybe(HIGH), lines.maybe(WIDE)
    legal = lines.take(LEGAL, "legal")
    probes = []
    while span := lines.maybe(SPAN):
        probes.append(read_probe(lines, int(span[1])))
    lines.end()
    sizes = [(int(found[1]), int(found[2])) if found else None for found in (high, wide)]
    return Report(truck[1], int(truck[2]), int(truck[3]), over, sizes[0], sizes[1], legal[1] == "yes", probes)


def read_probe(lines: Lines, inches: int) -> Probe:
    moment = lines.take(MOMENT, "moment")
    shear = lines.take(SHEAR, "shear")
    hs20 = lines.take(HS20, "hs20")
    rating = lines.take(RATING, "rating")
    try:
        scale, lead, section, axle, first, last = map(int, moment.groups()[1:])
        return Probe(
            inches,
            Fraction(moment[1]),
            Fraction(lead, scale),
            Fraction(section, scale),
            axle,
            (first, last),
            Fraction(shear[1]),
            int(shear[2]),
            shear[3],
            Fraction(hs20[1]),
            Fraction(hs20[2]),
            int(rating[1]),
            rating[2],
        )
    except ZeroDivisionError as fault:
        raise Fault(BAD, f"{lines.path} is no report: a fraction above line {lines.at} is over zero") from fault


def kind_of(data: bytes) -> str:
    """The command that wrote a report: what is no report of `design` or `convoy` is read as one of `check`."""
    first = data.decode("utf-8", "replace").split("\n", 1)[0]
    return "convoy" if first.startswith("convoy ") else "design" if first.startswith("span ") else "check"


def options_of(data: bytes, path: str) -> tuple[int, int]:
    """How many trucks a convoy has, and the gap."""
    found = Lines(data, path).take(CONVOY, "convoy")
    return int(found[1]), int(found[2])


def judged_by_check(truck: Truck, report: Report) -> Judgement:
    """What the report of `check` says of each span."""
    spans = []
    for it in report.probes:
        moment = Effect(it.moment, it.hs20_moment, HS20_44, Place(it.lead, it.section, it.axle))
        shear = Effect(it.shear, it.hs20_shear, HS20_44, at_end(it.inches, it.shear_lead, it.side))
        spans.append(Judged(it.inches, it.rating, it.judged, moment, shear))
    return Judgement("check", truck.axles, spans)


def read_design(data: bytes, path: str, truck: Truck) -> Judgement:
    """What the report of `design` says of each span."""
    lines, spans = Lines(data, path), []
    while span := lines.maybe(SPAN):
        moment, shear = lines.take(MOMENT_BY, "moment"), lines.take(SHEAR_BY, "shear")
        loads = [(lines.fraction(it[1]), LOADS[it[2]]) for it in (moment, shear)]
        spans.append(computed(truck.axles, int(span[1]), loads, lines.take(RATING, "rating")))
    lines.end()
    return Judgement("design", truck.axles, spans)


def read_convoy(data: bytes, path: str, truck: Truck) -> Judgement:
    """What the report of `convoy` says of each span."""
    lines, spans = Lines(data, path), []
    head = lines.take(CONVOY, "convoy")
    trucks, gap = int(head[1]), int(head[2])
    train = closest(truck.axles, trucks, gap)
    while span := lines.maybe(SPAN):
        lines.take(MOMENT_OF, "moment")
        lines.take(SHEAR_OF, "shear")
        hs20 = design(int(span[1]))
        loads = [(hs20.moment, HS20_44), (hs20.shear, HS20_44)]
        spans.append(computed(train, int(span[1]), loads, lines.take(RATING, "rating")))
    lines.end()
    return Judgement("convoy", train, spans, trucks, gap)


def computed(axles: Axles, inches: int, loads: Sequence[tuple[Fraction, str]], rating: "re.Match[str]") -> Judged:
    """A span, with the effects of the train and their places as the second program finds them."""
    (moment, at), (shear, end) = peak_moment(axles, inches), peak_shear(axles, inches)
    place = Place(Fraction(at.lead, at.scale), Fraction(at.section, at.scale), at.axle + 1)
    return Judged(
        inches,
        int(rating[1]),
        rating[2],
        Effect(moment, *loads[0], place),
        Effect(shear, *loads[1], at_end(inches, end.lead, end.side)),
    )


def at_end(inches: int, lead: int, side: str) -> Place:
    """The place of an end shear: its section is a support, and which axle stands there is not said."""
    return Place(Fraction(lead), Fraction(0 if side == "left" else inches), 0, side)
