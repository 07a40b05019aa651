"""The made day of a seed and a size, and what `trial` writes of it."""
import re
from collections.abc import Iterator
from dataclasses import dataclass

from .files import DayFile
from .journal import serial


@dataclass
class Draws:
    """The row of numbers that a seed begins."""

    state: int

    def below(self, bound: int) -> int:
        """The next number, taken below a bound."""
        self.state = (75 * self.state + 74) % 65537
        return self.state % bound


def roads(draws: Draws, size: int) -> Iterator[str]:
    """A grid of nodes with segments both ways between neighbours, and spans on the segments that go east."""
    grid = [(row, column) for row in range(size + 1) for column in range(size + 1)]
    for r, c in grid:
        yield f"node,n{r}-{c}"
    for r, c in grid:
        if c < size:
            feet = 1000 + draws.below(4000)
            yield f"segment,e{r}-{c},n{r}-{c},n{r}-{c + 1},{feet}"
            yield f"segment,w{r}-{c},n{r}-{c + 1},n{r}-{c},{feet}"
        if r < size:
            feet = 1000 + draws.below(4000)
            yield f"segment,s{r}-{c},n{r}-{c},n{r + 1}-{c},{feet}"
            yield f"segment,u{r}-{c},n{r + 1}-{c},n{r}-{c},{feet}"
    for r in range(size + 1):
        for c in range(size):
            inches = 240 + 12 * draws.below(80)
            rating = 800 + draws.below(1500)
            yield f"span,b{r}-{c},e{r}-{c},{inches},{rating}"


def trucks(draws: Draws) -> Iterator[str]:
    """Four trucks of five to eight axles."""
    for number in range(1, 5):
        height = 160 + draws.below(20)
        width = 100 + draws.below(60)
        count = 5 + draws.below(4)
        axles = ["0:12000"] + [f"{180 + 54 * i}:{16000 + 500 * draws.below(20)}" for i in range(count - 1)]
        yield f"truck,t{number},c{number % 2},{height},{width},900,{' '.join(axles)}"


def commands(draws: Draws, size: int) -> Iterator[str]:
    """Applications for trips from corner to corner by three analysts, and an engineer's postings of heights."""
    for _ in range(20 * size):
        if draws.below(4) == 0:
            row = draws.below(size + 1)
            column = draws.below(size)
            yield f"post,eng,e{row}-{column},height,{150 + draws.below(60)}"
        else:
            actor = 1 + draws.below(3)
            truck = 1 + draws.below(4)
            yield f"apply,a{actor},t{truck},n0-0,n{size}-{size},,2026-01-01,2026-12-31"


def lines(seed: int, size: int) -> Iterator[str]:
    """The records of the made day, without the empty fields at their ends."""
    draws = Draws(seed)
    yield "day,2026-01-01"
    yield from roads(draws, size)
    yield from trucks(draws)
    for name in ("a1", "a2", "a3", "eng"):
        yield f"actor,{name}"
    yield from commands(draws, size)
    yield "end"


def made_day(seed: int, size: int) -> str:
    """The day file, whose records have eight fields each."""
    return "".join(line + "," * (7 - line.count(",")) + "\n" for line in lines(seed, size))


def trial(seed: int, size: int) -> str:
    """The summary of the made day, its commands carried out one after another."""
    office, entries = serial(DayFile(made_day(seed, size).encode()))
    replies = [entry.partition(" = ")[2] for entry in entries]
    counts = {word: sum(bool(re.match(rf"{word}\b", reply)) for reply in replies)
              for word in ("issued", "refused", "noroad", "notneeded")}
    summary = {"entries": len(entries), **counts, "recalled": len(office.recalls), "version": office.roads.version}
    return "".join(f"{word} {count}\n" for word, count in summary.items())
