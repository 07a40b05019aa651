"""What the page works out itself: the first limit that fails a truck on a segment, in exact fractions.

The peaks of trucks and of HS20-44 are those of the second program, `compare/model`. A day at its limits has more trucks
and bridges than can be worked out in a minute, so there is a bound on the work. Where it is used up, an answer is not
known: nothing is held against the journal then, and the page says that not all bridges were worked out.
"""
from fractions import Fraction
from typing import NamedTuple

from model.bridges import Effects, design
from model.files import DayFile
from model.trucks import Truck

from .journal import Limit

# how many places of trucks on spans are tried
MOST_WORK = 1_500_000
SIZES = ("height", "width", "length", "gross")


class Found(NamedTuple):
    """The first limit that fails, or none; and whether all limits before it are known to hold."""

    limit: Limit | None
    is_known: bool


class Reckoning:
    """What is posted now, and what fails a truck there."""

    def __init__(self, file: DayFile) -> None:
        self.file = file
        self.names = {kind: list(file.names[kind]) for kind in ("segments", "spans")}
        self.values = [dict(values) for values in file.values]
        self.ratings = [span.rating for span in file.spans]
        self.spans_of: list[list[int]] = [[] for _ in file.segments]
        for number, span in enumerate(file.spans):
            self.spans_of[span.segment].append(number)
        self.outgoing: list[list[int]] = [[] for _ in file.names["nodes"]]
        for number, segment in enumerate(file.segments):
            self.outgoing[segment.start].append(number)
        self.walks: dict[int, set[int]] = {}
        self.changes = [0] * len(file.segments)
        self.kept: dict[tuple[int, int, int], Found] = {}
        self.work, self.left_out = MOST_WORK, 0

    def post(self, item: int, what: str, value: int) -> int:
        """Posts a value, and gives the segment on which it stands."""
        if what == "rating":
            self.ratings[item] = value
        else:
            self.values[item][what] = value
        segment = self.file.spans[item].segment if what == "rating" else item
        self.changes[segment] += 1
        return segment

    def first(self, truck: int, segment: int) -> Found:
        """The first limit that fails a truck on a segment by what is posted now."""
        key = (truck, segment, self.changes[segment])
        if key not in self.kept:
            by_values = first_value(self.file.trucks[truck], segment, self.values[segment])
            self.kept[key] = Found(by_values, True) if by_values else self.first_span(truck, segment)
        return self.kept[key]

    def first_span(self, truck: int, segment: int) -> Found:
        """The same of the bridges on the segment, by rising number."""
        is_known = True
        for span in self.spans_of[segment]:
            effects = self.effects(truck, self.file.spans[span].inches)
            if effects is None:
                is_known = False
                continue
            limit = span_limit(segment, span, effects, design(self.file.spans[span].inches), self.ratings[span])
            if limit is not None:
                return Found(limit, is_known)
        return Found(None, is_known)

    def effects(self, truck: int, inches: int) -> Effects | None:
        """The peaks of a truck on a span, or nothing where the work is used up."""
        it = self.file.trucks[truck]
        if inches not in it.moments:
            axles = len(it.axles)
            cost = axles * axles * (axles + 1) // 2
            if cost > self.work:
                self.left_out += 1
                return None
            self.work -= cost
        return it.effects(inches)

    def left_out_text(self) -> str:
        """That something was left out so far, and how often."""
        if not self.left_out:
            return ""
        times = f"{self.left_out:,} time{'' if self.left_out == 1 else 's'}"
        return f"The day has so many trucks and bridges that this was left out {times}."

    def walks_from(self, node: int) -> set[int]:
        """The nodes to which any walk leads from a node, over open and closed segments."""
        if node not in self.walks:
            found, waiting = {node}, [node]
            while waiting:
                for number in self.outgoing[waiting.pop()]:
                    end = self.file.segments[number].end
                    if end not in found:
                        found.add(end)
                        waiting.append(end)
            self.walks[node] = found
        return self.walks[node]


def first_value(truck: Truck, segment: int, values: dict[str, int]) -> Limit | None:
    """The first limit of a segment itself that fails a truck, in the order of the office."""
    if values["closed"]:
        return Limit(segment, "closed")
    for what in SIZES:
        has, most = getattr(truck, what), values[what]
        if has > most:
            return Limit(segment, what, Fraction(has), Fraction(most))
    worst, allowance = truck.worst, values["allowance"]
    if 1000 * worst.weight > allowance * worst.limit:
        group = worst.first, worst.last
        return Limit(segment, "group", Fraction(worst.weight), Fraction(worst.limit), allowance, group=group)
    tridem = truck.heaviest_tridem
    if tridem is not None and tridem.weight > values["tridem"]:
        group = tridem.first, tridem.last
        return Limit(segment, "tridem", Fraction(tridem.weight), Fraction(values["tridem"]), group=group)
    return None


def span_limit(segment: int, span: int, effects: Effects, most: Effects, rating: int) -> Limit | None:
    """The first effect of a truck that is more than a span carries at a rating."""
    if 1000 * effects.moment > rating * most.moment:
        return Limit(segment, "moment", effects.moment, most.moment, rating, span)
    if 1000 * effects.shear > rating * most.shear:
        return Limit(segment, "shear", effects.shear, most.shear, rating, span)
    return None
