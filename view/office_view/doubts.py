"""What is doubtful of a file of which some records are refused, and of roads that lead both ways.

A record that is refused counts here too, since it will stand there when it is mended: a refused application has its
number, a refused actor works at once with the others, and behind a refused day the office's day is not known.

A bridge on a road in both directions is a span on both stretches. Where it stands on one alone, its truck is refused
the one way and issued the other way, over the same bridge. The same holds of a limit that is posted on one alone.
"""
from bisect import bisect_left
from collections.abc import Iterator

from .plausible import Warnings
from .sheet import Accepted, Lenient


class Doubts(Warnings):
    """All warnings of a file."""

    def __init__(self, sheet: Lenient) -> None:
        self.roads = Roads(sheet)
        # what stands in the file above its end, refused or not
        kinds = sheet.all_kinds
        self.all_actors = kinds[:kinds.index("end")].count("actor") if "end" in kinds else kinds.count("actor")
        self.all_applications = [row for row, kind in enumerate(sheet.all_kinds, 1) if kind == "apply"]
        # the rows of refused records that were to set the office's day, and the last row that did set it
        self.unsure, self.set_at = unsure_rows(sheet), 1
        super().__init__(sheet)

    def catch_up(self, record: Accepted) -> None:
        """Counts what stands above a record, refused or not."""
        self.actors = self.all_actors
        self.applications = bisect_left(self.all_applications, record.row)
        if any(self.set_at < row < record.row for row in self.unsure):
            self.today = None

    def of_apply(self, record: Accepted) -> Iterator[str]:
        self.catch_up(record)
        yield from super().of_apply(record)

    def of_setday(self, record: Accepted) -> Iterator[str]:
        self.catch_up(record)
        yield from super().of_setday(record)
        self.set_at = record.row

    def permit(self, record: Accepted) -> Iterator[str]:
        self.catch_up(record)
        yield from super().permit(record)

    def of_span(self, record: Accepted) -> Iterator[str]:
        yield from super().of_span(record)
        segment = record.values[1]
        if others := self.roads.without_span(segment):
            yield self.at(record, 3) + (
                f"{lead(others)} and {'has' if len(others) == 1 else 'have'} no span: a bridge on a road in both "
                "directions is a span on both stretches"
            )

    def of_limit(self, record: Accepted) -> Iterator[str]:
        yield from super().of_limit(record)
        yield from self.one_way(record, record.values[0], record.values[1], 2)

    def of_post(self, record: Accepted) -> Iterator[str]:
        yield from super().of_post(record)
        item, what = record.values[1], record.values[2]
        if what != "rating":
            yield from self.one_way(record, item, what, 3)
        elif others := self.roads.without_rating(item):
            yield self.at(record, 3) + (
                f"{lead(others)}, and no rating is posted on {its(others)} spans: a bridge on a road in both "
                "directions is rated on both stretches"
            )

    def one_way(self, record: Accepted, segment: str, what: str, column: int) -> Iterator[str]:
        """Whether a limit holds in one direction alone."""
        is_closed = what == "closed" and record.values[-1] == 1
        if others := self.roads.without_limit(segment, "closed 1" if is_closed else what):
            never = f"{its(others)} {'closure' if what == 'closed' else what} is never set or posted"
            if is_closed:
                never = "is never closed" if len(others) == 1 else "none of these is ever closed"
            yield self.at(record, column) + (
                f"{lead(others)}, and {never}: what holds in both directions is said of both stretches"
            )


def unsure_rows(sheet: Lenient) -> list[int]:
    """The rows of refused records that were to set the office's day."""
    good = {record.row for record in sheet.accepted if record.kind == "setday"}
    return [row for row, kind in enumerate(sheet.all_kinds, 1) if kind == "setday" and row not in good]


class Roads:
    """The stretches of a day file by the nodes that they join, and what is said of each."""

    def __init__(self, sheet: Lenient) -> None:
        self.ends: dict[str, tuple[int, int]] = {}
        self.by_ends: dict[tuple[int, int], list[str]] = {}
        numbers, segments = sheet.names.get("segments", {}), getattr(sheet, "segments", [])
        for name, number in numbers.items():
            start, end, _ = segments[number]
            if start != end and -1 not in (start, end):
                self.ends[name] = (start, end)
                self.by_ends.setdefault((start, end), []).append(name)
        self.spans = {name: segment for name, segment in spans_of(sheet)}
        self.with_spans = set(self.spans.values())
        said = [record.values[-3:] for record in sheet.accepted if record.kind in ("limit", "post")]
        self.limits = {(item, what) for item, what, _ in said}
        self.limits |= {(item, "closed 1") for item, what, value in said if (what, value) == ("closed", 1)}

    def opposite(self, segment: str) -> list[str]:
        """The stretches that lead the other way between the same two nodes."""
        start, end = self.ends.get(segment, (-1, -1))
        return self.by_ends.get((end, start), [])

    def without_span(self, segment: str) -> list[str]:
        """The stretches of the other way, where none of them has a span."""
        others = self.opposite(segment)
        return [] if self.with_spans.intersection(others) else others

    def without_limit(self, segment: str, what: str) -> list[str]:
        """The same, where of none of them this limit is set or posted."""
        others = self.opposite(segment)
        return [] if any((other, what) in self.limits for other in others) else others

    def without_rating(self, span: str) -> list[str]:
        """The same, where they have spans, and of none of these a rating is posted."""
        others = self.opposite(self.spans.get(span, ""))
        there = [name for name, segment in self.spans.items() if segment in others]
        posted = any((name, "rating") in self.limits for name in there)
        return [] if posted or not there else others


def lead(others: list[str]) -> str:
    """That some stretches lead the other way: of several the first is named."""
    more = len(others) - 1
    return f"{others[0]} and {more} more lead the other way" if more else f"{others[0]} leads the other way"


def its(others: list[str]) -> str:
    return "its" if len(others) == 1 else "their"


def spans_of(sheet: Lenient) -> Iterator[tuple[str, str]]:
    """Each span with its stretch, also where its record is refused."""
    names = {number: name for name, number in sheet.names.get("segments", {}).items()}
    spans = getattr(sheet, "spans", [])
    for name, number in sheet.names.get("spans", {}).items():
        yield name, names.get(spans[number].segment, "")
