#!/usr/bin/env python3
"""The inputs that are measured: made days, days near the limits, long check files, and trips over grids of roads.

The same numbers always give the same bytes. Run as a program it writes a day near the limits by so many actors, 1 to
16; or one of postings alone, one on which 4,000 permits are recalled at once, or one of trips to a node that only
closed segments reach:

    bench/days.py ACTORS > day.csv
    bench/days.py postings > day.csv
    bench/days.py recalls > day.csv
    bench/days.py shut > day.csv
"""
import sys
from collections.abc import Callable, Iterable, Iterator
from random import Random
from typing import NamedTuple

from programs import ended, parser

MOST_SEGMENTS, MOST_SPANS_OF_SEGMENT = 16384, 16
SIDE, SPANS, TRUCKS, AXLES, COMMANDS = 64, 2048, 64, 32, 4096


class Segment(NamedTuple):
    """The numbers of two nodes, and how far it is from the one to the other."""

    start: int
    end: int
    feet: int


# the number of the segment from a node to its neighbour
Between = dict[tuple[int, int], int]


def record(*fields: str | int) -> str:
    """A record with empty fields at its end to make eight."""
    return ",".join([str(field) for field in fields] + [""] * (8 - len(fields)))


def text(rows: Iterable[str]) -> bytes:
    """A file of these records and the last one."""
    return "".join(f"{row}\n" for row in [*rows, record("end")]).encode()


def by_one_actor(made: bytes) -> bytes:
    """A made day with all its commands given by its first actor."""
    rows = [row.split(",") for row in made.decode().splitlines()]
    rows = [row for row in rows if row[0] != "actor" or row[1] == "a1"]
    for row in rows:
        if row[0] in ("apply", "post"):
            row[1] = "a1"
    return "".join(",".join(row) + "\n" for row in rows).encode()


# A day near the limits ------------------------------------------------------------------------------------------------


def grid_with_chords(rng: Random) -> tuple[list[Segment], Between]:
    """A grid with segments both ways, and chords over it that are long."""
    segments: list[Segment] = []
    between: Between = {}
    for here in range(SIDE * SIDE):
        onward = [here + 1] * (here % SIDE + 1 < SIDE) + [here + SIDE] * (here // SIDE + 1 < SIDE)
        for there in onward:
            feet = rng.randint(1000, 9000)
            for a, b in ((here, there), (there, here)):
                between[a, b] = len(segments)
                segments.append(Segment(a, b, feet))
    for _ in range(MOST_SEGMENTS - len(segments)):
        a, b = rng.randrange(SIDE * SIDE), rng.randrange(SIDE * SIDE)
        if a != b:
            segments.append(Segment(a, b, rng.randint(20000, 400000)))
    return segments, between


def long_truck(rng: Random) -> tuple[int, int, int, str]:
    """The fields of a truck with many heavy axles."""
    most = 2990 // AXLES
    place, axles = 0, []
    for _ in range(AXLES):
        axles.append(f"{place}:{rng.randint(20000, 62500)}")
        place += rng.randint(40, most)
    return rng.randint(150, 175), rng.randint(96, 150), rng.randint(400, 3000), " ".join(axles)


def limits(rng: Random, count: int) -> Iterator[str]:
    """A few segments that are closed, low or weak from the start."""
    for i in range(count):
        if rng.randrange(100) < 2:
            yield record("limit", f"s{i}", "closed", 1)
        elif rng.randrange(100) < 5:
            yield record("limit", f"s{i}", "height", rng.randint(155, 180))
        elif rng.randrange(100) < 3:
            yield record("limit", f"s{i}", "allowance", rng.randint(5000, 30000))


def spans(rng: Random, count: int) -> Iterator[str]:
    """As many spans as there may be, on segments that have room for them."""
    many = [0] * count
    for i in range(SPANS):
        on = rng.randrange(count)
        while many[on] == MOST_SPANS_OF_SEGMENT:
            on = rng.randrange(count)
        many[on] += 1
        yield record("span", f"b{i}", f"s{on}", rng.randint(60, 6000), rng.randint(5000, 60000))


def asked_walk(rng: Random, between: Between, start: int, end: int) -> str:
    """A walk over the grid from node to node with as few segments as may be."""
    route = []
    while start != end:
        (row, column), (last_row, last_column) = divmod(start, SIDE), divmod(end, SIDE)
        steps = [start + (SIDE if last_row > row else -SIDE)] * (row != last_row)
        steps += [start + (1 if last_column > column else -1)] * (column != last_column)
        there = rng.choice(steps)
        route.append(f"s{between[start, there]}")
        start = there
    return " ".join(route)


def posting(rng: Random, count: int) -> tuple[str, str, int]:
    """What is posted on, which limit, and its value."""
    item, what = f"s{rng.randrange(count)}", rng.randrange(10)
    if what < 4:
        return f"b{rng.randrange(SPANS)}", "rating", rng.randint(3000, 60000)
    if what < 6:
        return item, "closed", int(rng.randrange(100) < 25)
    if what < 8:
        return item, "height", rng.randint(155, 300)
    return item, "allowance", rng.randint(5000, 100000)


def application(rng: Random, between: Between) -> tuple[str, str, str, str, str, str]:
    """A trip between any two nodes, at times with the route that is asked for."""
    start, end = rng.sample(range(SIDE * SIDE), 2)
    route = asked_walk(rng, between, start, end) if rng.randrange(100) < 10 else ""
    day = rng.randint(1, 28)
    first = f"2026-{rng.randint(2, 5):02}-{day:02}"
    last = f"2026-{rng.randint(6, 12):02}-{rng.randint(1, 28):02}"
    return f"t{rng.randrange(TRUCKS)}", f"n{start}", f"n{end}", route, first, last


def commands(rng: Random, actors: int, count: int, between: Between) -> Iterator[str]:
    """As many commands as there may be, on so many segments, each of any actor."""
    day = 1
    for number in range(COMMANDS):
        actor, kind = f"a{rng.randrange(actors)}", rng.randrange(100)
        if kind < 20:
            yield record("post", actor, *posting(rng, count))
        elif kind < 24:
            yield record("show", actor, rng.randint(0, number + 1))
        elif kind < 28:
            yield record("surrender", actor, rng.randint(0, number + 1))
        elif kind < 29 and day < 25:
            day += rng.randrange(2)
            yield record("setday", actor, f"2026-01-{day:02}")
        else:
            yield record("apply", actor, *application(rng, between))


def roads_near_the_limits(rng: Random, actors: int) -> tuple[list[str], int, Between]:
    """Records of 4,096 nodes, 16,384 segments and 2,048 spans, with 64 trucks of 32 axles and so many actors."""
    segments, between = grid_with_chords(rng)
    rows = [record("day", "2026-01-01")] + [record("node", f"n{i}") for i in range(SIDE * SIDE)]
    rows += [record("segment", f"s{i}", f"n{it.start}", f"n{it.end}", it.feet) for i, it in enumerate(segments)]
    rows += limits(rng, len(segments))
    rows += spans(rng, len(segments))
    rows += [record("truck", f"t{i}", f"c{i % 7}", *long_truck(rng)) for i in range(TRUCKS)]
    rows += [record("actor", f"a{i}") for i in range(actors)]
    return rows, len(segments), between


def near_the_limits(actors: int, seed: int = 1) -> bytes:
    """4,096 commands on the greatest network. Each trip has another goal."""
    rng = Random(seed)
    rows, count, between = roads_near_the_limits(rng, actors)
    return text([*rows, *commands(rng, actors, count, between)])


def many_postings(postings: int = COMMANDS, seed: int = 1) -> bytes:
    """So many postings by one actor on the greatest network, and nothing else."""
    rng = Random(seed)
    rows, count, _ = roads_near_the_limits(rng, 1)
    return text([*rows, *(record("post", "a0", *posting(rng, count)) for _ in range(postings))])


# A long check file ----------------------------------------------------------------------------------------------------


def long_check(probes: int = 64, seed: int = 1) -> bytes:
    """One truck of 32 axles and so many probes of 600 to 6,000 in."""
    rng = Random(seed)
    rows = [record("truck", "LONG", "ACME", *long_truck(rng))]
    rows += [record("probe", rng.randint(600, 6000), rng.randint(5000, 60000)) for _ in range(probes)]
    return text(rows)


# Trips over a grid ----------------------------------------------------------------------------------------------------


def grid(side: int, rng: Random) -> list[str]:
    """The records of a grid with segments both ways, and one truck that needs a permit."""
    rows = [record("day", "2026-01-01")] + [record("node", f"n{node}") for node in range(side * side)]
    roads = [(node, node + 1) for node in range(side * side) if node % side + 1 < side]
    roads += [(node, node + side) for node in range(side * (side - 1))]
    for a, b in roads:
        feet = rng.randint(1000, 5000)
        rows += [record("segment", f"s{x}-{y}", f"n{x}", f"n{y}", feet) for x, y in ((a, b), (b, a))]
    return rows + [record("truck", "t", "acme", 168, 102, 720, "0:12000 180:17000 228:17000")]


def applies(actor: int, start: int, end: int) -> str:
    """An application for a trip between two nodes."""
    return record("apply", f"a{actor}", "t", f"n{start}", f"n{end}", "", "2026-01-01", "2026-12-28")


def dealt_trips(analysts: int, side: int = 64, count: int = 4000) -> bytes:
    """The same trips between any two nodes, dealt to so many analysts in turn; nobody posts."""
    rng = Random(1)
    rows = grid(side, rng) + [record("actor", f"a{i}") for i in range(analysts)]
    return text(rows + [applies(i % analysts, *rng.sample(range(side * side), 2)) for i in range(count)])


def trips_of_length(side: int, length: int, count: int) -> bytes:
    """Trips of one actor between nodes that are so many segments of the grid apart, or none where that is 0."""
    rng = Random(1)
    rows = grid(side, rng) + [record("actor", "a0")]
    while length and count:
        start, across = rng.randrange(side * side), rng.randint(0, length)
        row = start // side + rng.choice((-1, 1)) * (length - across)
        column = start % side + rng.choice((-1, 1)) * across
        if 0 <= row < side and 0 <= column < side:
            rows.append(applies(0, start, row * side + column))
            count -= 1
    return text(rows)


# Turns that look at much ----------------------------------------------------------------------------------------------


def many_recalls(permits: int = 4000, length: int = 1000) -> bytes:
    """So many permits on one route of so many segments, of which the middle one is closed at last."""
    rows = [record("day", "2026-01-01")] + [record("node", f"n{node}") for node in range(length + 1)]
    rows += [record("segment", f"s{i}", f"n{i}", f"n{i + 1}", 1000) for i in range(length)]
    rows += [record("truck", "t", "acme", 168, 102, 720, "0:12000 180:17000 228:17000"), record("actor", "a0")]
    rows += [applies(0, 0, length) for _ in range(permits)]
    return text([*rows, record("post", "a0", f"s{length // 2}", "closed", 1)])


def recalled_again(permits: int = 1000, rounds: int = 996) -> bytes:
    """So many permits on one of two ways, which are closed in turn while the other is open, so many times."""
    rows = [record("day", "2026-01-01"), record("node", "n0"), record("node", "n1")]
    rows += [record("segment", f"s{way}", "n0", "n1", 1000 + way) for way in (0, 1)]
    rows += [record("truck", "t", "acme", 168, 102, 720, "0:12000 180:17000 228:17000"), record("actor", "a0")]
    rows += [applies(0, 0, 1) for _ in range(permits)]
    for turn in range(rounds):
        rows += [record("post", "a0", f"s{turn % 2}", "closed", value) for value in (1, 0)]
    return text(rows[:-1])


def shut_goal(count: int = COMMANDS) -> bytes:
    """So many trips to a node that only closed segments reach, in a grid of as many nodes as there may be."""
    goal = SIDE * SIDE - 1
    rows = grid(SIDE, Random(1))
    rows += [record("limit", f"s{near}-{goal}", "closed", 1) for near in (goal - 1, goal - SIDE)]
    return text([*rows, record("actor", "a0"), *(applies(0, start % goal, goal) for start in range(count))])


DAYS: dict[str, Callable[[], bytes]] = {"postings": many_postings, "recalls": many_recalls, "shut": shut_goal}


def main() -> int:
    """Takes the words of the command line."""
    asked = parser(__doc__)
    choices = [*map(str, range(1, 17)), *DAYS]
    asked.add_argument("day", metavar="DAY", choices=choices, help="1 to 16, or postings, recalls or shut")
    day = asked.parse_args().day
    sys.stdout.buffer.write(DAYS[day]() if day in DAYS else near_the_limits(int(day)))
    return 0


if __name__ == "__main__":
    ended(main)
