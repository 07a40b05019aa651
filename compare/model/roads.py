"""The road network: what is posted at each version, which limit fails a truck first, and the shortest route.

A version is the number of postings so far. What is posted on a segment is a record of its limits with the ratings of
its spans; each posting writes one such record anew.
"""
import heapq
from bisect import bisect_right
from collections.abc import Callable, Iterable
from dataclasses import dataclass, replace

from .bridges import design, fit, ratio
from .files import DayFile, Posting
from .forms import RANGES
from .trucks import Truck


@dataclass(frozen=True)
class Posted:
    """What is posted on a segment and its spans."""

    closed: int
    height: int
    width: int
    length: int
    gross: int
    allowance: int
    tridem: int
    ratings: tuple[int, ...]


class Roads:
    """A network with its trucks, and all that was posted on it."""

    def __init__(self, file: DayFile) -> None:
        self.segments, self.spans, self.trucks = file.segments, file.spans, file.trucks
        self.outgoing: list[list[int]] = [[] for _ in file.names["nodes"]]
        for number, segment in enumerate(self.segments):
            self.outgoing[segment.start].append(number)
        self.spans_of: list[list[int]] = [[] for _ in self.segments]
        for number, span in enumerate(self.spans):
            self.spans_of[span.segment].append(number)
        # for each segment the versions from which on something else is posted there, and what
        self.since = [[0] for _ in self.segments]
        self.posted = [[Posted(**values, ratings=tuple(self.spans[span].rating for span in spans))]
                       for values, spans in zip(file.values, self.spans_of)]
        self.version = 0
        # the first limit that fails a truck on a segment, by how many postings had changed that one
        self.limits: dict[tuple[int, int, int], str | None] = {}

    def takes(self, posting: Posting) -> bool:
        """Whether what is posted on is there, and the value is in its range."""
        least, most = RANGES[posting.limit]
        there = len(self.spans) if posting.limit == "rating" else len(self.segments)
        return posting.item < there and least <= posting.value <= most

    def post(self, posting: Posting) -> bool:
        """Posts a value; whether the network takes it."""
        if not self.takes(posting):
            return False
        is_rating = posting.limit == "rating"
        segment = self.spans[posting.item].segment if is_rating else posting.item
        now = self.posted[segment][-1]
        if is_rating:
            at = self.spans_of[segment].index(posting.item)
            now = replace(now, ratings=(*now.ratings[:at], posting.value, *now.ratings[at + 1:]))
        else:
            now = replace(now, **{posting.limit: posting.value})
        self.version += 1
        self.since[segment].append(self.version)
        self.posted[segment].append(now)
        return True

    def limit(self, truck: int, segment: int, version: int) -> str | None:
        """The first limit of the segment that fails the truck at that version, as the journal names it, or None."""
        at = bisect_right(self.since[segment], version) - 1
        key = (truck, segment, at)
        if key not in self.limits:
            self.limits[key] = self.first_limit(self.trucks[truck], segment, self.posted[segment][at])
        return self.limits[key]

    def meets(self, truck: int, segment: int, version: int) -> bool:
        """Whether the truck may pass the segment at that version."""
        return self.limit(truck, segment, version) is None

    def first_limit(self, truck: Truck, segment: int, posted: Posted) -> str | None:
        """The first limit that fails the truck where this is posted on the segment."""
        here = f"segment {segment + 1}"
        if posted.closed:
            return f"{here} closed"
        for what in ("height", "width", "length", "gross"):
            has, most = getattr(truck, what), getattr(posted, what)
            if has > most:
                return f"{here} {what} {has} over {most}"
        group, allowance = truck.worst, posted.allowance
        if 1000 * group.weight > allowance * group.limit:
            axles = f"{group.first + 1}-{group.last + 1}"
            return f"{here} group {axles} weight {group.weight} limit {group.limit} allowance {allowance}"
        heaviest = truck.heaviest_tridem
        if heaviest is not None and heaviest.weight > posted.tridem:
            axles = f"{heaviest.first + 1}-{heaviest.last + 1}"
            return f"{here} tridem {axles} weight {heaviest.weight} over {posted.tridem}"
        for span, rating in zip(self.spans_of[segment], posted.ratings):
            inches = self.spans[span].inches
            effects, hs20 = truck.effects(inches), design(inches)
            over = fit(effects, design(inches), rating)
            if over != "fits":
                of_truck, of_design = ratio(getattr(effects, over)), ratio(getattr(hs20, over))
                return f"{here} span {span + 1} {over} {of_truck} hs20 {of_design} rating {rating}"
        return None

    def shortest(self, truck: int, start: int, end: int, version: int) -> tuple[int, ...] | None:
        """Of the shortest walks that the truck may pass, the first by segment numbers; or None.

        A walk is carried along as its feet and its segments, and the least of all is always taken next: first by feet,
        then by the order of lists. Two walks to one node that are as long are never a beginning of each other, since
        every segment has at least a foot. So the one that comes first stays first whatever follows, and the first walk
        taken at a node is its own.
        """
        waiting: list[tuple[int, tuple[int, ...], int]] = [(0, (), start)]
        done: set[int] = set()
        while waiting:
            feet, route, node = heapq.heappop(waiting)
            if node == end:
                return route
            if node in done:
                continue
            done.add(node)
            for number in self.outgoing[node]:
                segment = self.segments[number]
                if segment.end not in done and self.meets(truck, number, version):
                    heapq.heappush(waiting, (feet + segment.feet, (*route, number), segment.end))
        return None

    def reached(self, start: int, may_pass: Callable[[int], bool]) -> list[int]:
        """All nodes to which some walk over such segments leads, rising."""
        seen, waiting = {start}, [start]
        while waiting:
            for number in self.outgoing[waiting.pop()]:
                to = self.segments[number].end
                if to not in seen and may_pass(number):
                    seen.add(to)
                    waiting.append(to)
        return sorted(seen)

    def leaving(self, nodes: Iterable[int]) -> list[int]:
        """The segments that begin among some nodes and do not end there, rising."""
        inside = set(nodes)
        return [number for number, it in enumerate(self.segments) if it.start in inside and it.end not in inside]
