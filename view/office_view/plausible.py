"""What is accepted and yet is hardly meant: a wrong unit, a digit too many or too few, what the office does not look
at.

The bounds here are of this program alone. The office takes all that they warn of.
"""
import datetime
from collections.abc import Callable, Iterator
from typing import Any

from model import forms
from model.limits import LEGAL_HEIGHT, LEGAL_WIDTH
from model.trucks import Truck

from .sayings import letter_of, quoted
from .sheet import Accepted, Lenient

# The least and the greatest value that is plausible, and what may have been meant.
SPAN = (120, 6000, "the length of a span is in inches; were feet written?")
RATING = (200, 5000, "a rating is in thousandths of HS20-44, so that 1,300 is a factor of 1.3")
FEET = (50, 1_000_000, "the length of a segment is in feet; were miles or yards written?")
HEIGHT = (72, 240, "the height of a truck is in inches; were feet written?")
WIDTH = (72, 300, "the width of a truck is in inches; were feet written?")
LENGTH = (180, 3_600, "the length of a truck is in inches; were feet written?")
LIMITS = {
    "height": (120, 999, "a height is in inches, and nearly all trucks are higher"),
    "width": (96, 999, "a width is in inches, and nearly all trucks are wider"),
    "length": (300, 9_999, "a length is in inches, and nearly all trucks are longer"),
    "gross": (6_000, 2_000_000, "a gross weight is in pounds; were tons or kips written?"),
    "allowance": (
        1_000,
        10_000,
        "an allowance is in thousandths of the federal limits, so that 1,000 is what every truck may have",
    ),
    "tridem": (6_000, 600_000, "the weight of a tridem group is in pounds; were tons or kips written?"),
    "rating": RATING,
}
LEAST_AXLE, MOST_AXLE, LEAST_SPACING = 2_000, 60_000, 36
LONG = 900
LONGEST_PERMIT = 366


def feet_text(inches: int) -> str:
    feet, rest = divmod(inches, 12)
    return f"{feet} ft {rest} in" if rest else f"{feet} ft"


class Warnings:
    """Goes through the accepted records of a file, and says a line for each thing that is hardly meant."""

    def __init__(self, sheet: Lenient) -> None:
        self.sheet, self.lines = sheet, list[tuple[int, str]]()
        self.actors = sum(record.kind == "actor" for record in sheet.accepted)
        self.opening: str | None = None
        self.today: str | None = None
        self.applications = 0
        self.limits: dict[tuple[str, str], int] = {}
        for record in sheet.accepted:
            look: Callable[[Accepted], Iterator[str]] = getattr(self, "of_" + record.kind)
            self.lines += [(record.row, text) for text in look(record)]

    def at(self, record: Accepted, column: int) -> str:
        return f"row {record.row}, column {letter_of(column)} {quoted(record.record[column - 1])}: "

    def bounds(self, record: Accepted, column: int, bounds: tuple[int, int, str]) -> Iterator[str]:
        least, most, text = bounds
        if not least <= record.values[column - 2] <= most:
            yield self.at(record, column) + text

    def of_day(self, record: Accepted) -> Iterator[str]:
        self.opening = self.today = record.values[0]
        yield from ()

    def of_node(self, record: Accepted) -> Iterator[str]:
        yield from ()

    of_actor = of_end = of_node

    def of_segment(self, record: Accepted) -> Iterator[str]:
        yield from self.bounds(record, 5, FEET)
        if record.values[1] == record.values[2]:
            yield self.at(record, 4) + "the segment leads from a node to itself, and no shortest route takes it"

    def of_limit(self, record: Accepted) -> Iterator[str]:
        segment, what, value = record.values
        before = self.limits.get((segment, what))
        if before is not None:
            yield self.at(record, 3) + f"row {before} sets the {what} of {segment} too, and the last one holds"
        self.limits[segment, what] = record.row
        yield from self.limit_value(record, what, value, 4)

    def limit_value(self, record: Accepted, what: str, value: int, column: int) -> Iterator[str]:
        # nothing at all may be meant by an allowance or a rating of 0, and no limit by the greatest rating
        if what in LIMITS and not (value == 0 and what in ("allowance", "rating") or value == forms.RANGES[what][1]):
            least, most, text = LIMITS[what]
            if not least <= value <= most:
                yield self.at(record, column) + text

    def of_span(self, record: Accepted) -> Iterator[str]:
        yield from self.span_values(record, 4, 5)

    def of_probe(self, record: Accepted) -> Iterator[str]:
        yield from self.span_values(record, 2, 3)

    def span_values(self, record: Accepted, inches: int, rating: int) -> Iterator[str]:
        length = record.values[inches - 2]
        if length < SPAN[0]:
            yield self.at(record, inches) + f"a span of {feet_text(length)}: " + SPAN[2]
        yield from self.limit_value(record, "rating", record.values[rating - 2], rating)

    def of_truck(self, record: Accepted) -> Iterator[str]:
        truck = Truck(*record.values)
        yield from self.bounds(record, 4, HEIGHT)
        yield from self.bounds(record, 5, WIDTH)
        yield from self.bounds(record, 6, LENGTH)
        if truck.length < truck.axles[-1][0]:
            last = truck.axles[-1][0]
            yield self.at(record, 6) + f"the last axle stands {last:,} in behind the first, and the truck is shorter"
        if truck.is_legal() and truck.length > LONG:
            yield self.at(record, 6) + (
                f"the truck is {feet_text(truck.length)} long and else legal (weights, {LEGAL_HEIGHT} in high, "
                f"{LEGAL_WIDTH} in wide): the office asks for no permit where a truck is only too long"
            )
        yield from self.axles(record, truck)

    def axles(self, record: Accepted, truck: Truck) -> Iterator[str]:
        for number, (_, weight) in enumerate(truck.axles, 1):
            if weight > MOST_AXLE:
                yield self.at(
                    record, 7
                ) + f"axle {number} weighs {weight:,} lb; a digit too many, or a group of axles?"
            elif weight < LEAST_AXLE:
                yield self.at(record, 7) + f"axle {number} weighs {weight:,} lb; were kips written?"
        places = [place for place, _ in truck.axles]
        for number, (before, behind) in enumerate(zip(places, places[1:]), 1):
            apart = behind - before
            if apart < LEAST_SPACING:
                yield self.at(record, 7) + f"axles {number} and {number + 1} are {apart} in apart; were feet written?"

    def of_apply(self, record: Accepted) -> Iterator[str]:
        first, last = record.values[5], record.values[6]
        self.applications += 1
        today = self.today if self.actors == 1 else self.opening
        if today and first < today:
            yield self.at(record, 7) + f"the office's day is {today} by then, so that the answer will be late"
        if (datetime.date.fromisoformat(last) - datetime.date.fromisoformat(first)).days > LONGEST_PERMIT:
            yield self.at(record, 8) + "a permit of more than a year"
        routes = record.values[4]
        if any(route in routes[:at] for at, route in enumerate(routes)):
            yield self.at(record, 6) + "a route stands here twice; is another one meant?"

    def of_post(self, record: Accepted) -> Iterator[str]:
        yield from self.limit_value(record, record.values[2], record.values[3], 5)

    def of_setday(self, record: Accepted) -> Iterator[str]:
        day = record.values[1]
        if self.actors == 1 and self.today and day < self.today:
            yield self.at(record, 3) + f"the office's day is {self.today} by then, and does not go back"
        self.today = max(day, self.today or day)

    def permit(self, record: Accepted) -> Iterator[str]:
        number: Any = record.values[1]
        if self.actors > 1:
            yield self.at(record, 3) + (
                f"{self.actors} actors work at once, so which permit has number {number} rests on who comes first"
            )
        elif not 1 <= number <= self.applications:
            yield self.at(
                record, 3
            ) + f"no permit has this number by then: above are {self.applications} applications"

    def of_surrender(self, record: Accepted) -> Iterator[str]:
        yield from self.permit(record)

    def of_show(self, record: Accepted) -> Iterator[str]:
        yield from self.permit(record)
