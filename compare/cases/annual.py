"""Days of annual permits: several roads between two places, and postings on the roads that such a permit lists."""
import datetime
from random import Random

from model.files import MOST_ANNUAL_DAYS
from model.forms import MOST_ROUTES

from . import trucks
from .texts import Field, Record, full

# from some of these a year has a leap day in it
DAYS = tuple(datetime.date.fromisoformat(it) for it in
             ("2026-03-02", "2027-02-28", "2027-03-01", "2028-02-28", "2028-02-29", "2028-03-01", "2099-03-01"))
# the height of every truck: a posting of it lets all of them through, and one of an inch less none
HEIGHT = 168


class AnnualDay:
    """A day that grows record by record. Each of its roads leads from `a` to `b`, by segments of its own."""

    def __init__(self, rng: Random, actors: int, commands: int) -> None:
        self.rng = rng
        self.records: list[Record] = []
        self.today = rng.choice(DAYS)
        self.add("node", "a")
        self.add("node", "b")
        self.roads = [self.road(number) for number in range(rng.choice((2, 2, 3, 5)))]
        # a way round that a route may take, once or several times
        self.add("segment", "round", "a", "a", 100)
        self.spans = [self.span(number) for number in range(rng.choice((0, 1, 3)))]
        self.trucks = [self.truck(number) for number in range(2)]
        self.actors = [f"actor{number}" for number in range(actors)]
        for actor in self.actors:
            self.add("actor", actor)
        # how many permits there may be, and the postings that open again what is shut
        self.issued, self.shut = 0, list[tuple[str, str, int]]()
        for _ in range(commands):
            self.command()

    def add(self, *fields: Field) -> None:
        """One more record."""
        self.records.append(full(fields))

    def road(self, number: int) -> list[str]:
        """One more road, of one to three segments, by its segments."""
        count = self.rng.choice((1, 2, 3))
        nodes = ["a", *(f"m{number}-{i}" for i in range(1, count)), "b"]
        for node in nodes[1:-1]:
            self.add("node", node)
        names = [f"s{number}-{i}" for i in range(count)]
        for name, start, end in zip(names, nodes, nodes[1:]):
            self.add("segment", name, start, end, self.rng.choice((1000, 1000, 2000)))
        return names

    def span(self, number: int) -> str:
        """One more span, which carries every truck."""
        self.add("span", f"b{number}", self.rng.choice(self.rng.choice(self.roads)), 480, 100000)
        return f"b{number}"

    def truck(self, number: int) -> str:
        """One more truck, which is too wide to be legal."""
        axles = trucks.text(trucks.axles(self.rng))
        self.add("truck", f"t{number}", "c", HEIGHT, 110, 720, axles)
        return f"t{number}"

    def routes(self) -> list[list[str]]:
        """The routes that are asked for: mostly several, equal ones too, and at times as many as there may be."""
        rng = self.rng
        count = rng.choice((0, 1, 2, 2, 2, 3, MOST_ROUTES - 1, MOST_ROUTES))
        return [["round"] * rng.choice((0, 0, 0, 1, 2)) + rng.choice(self.roads) for _ in range(count)]

    def command(self) -> None:
        """One more command. The last of several actors posts, and the others do all else."""
        rng = self.rng
        if rng.random() < 0.35:
            self.post(self.actors[-1])
            return
        actor = rng.choice(self.actors[:-1] or self.actors)
        kind = rng.choices(("apply", "setday", "surrender", "show"), (80, 4, 6, 10))[0]
        if kind == "apply":
            self.apply(actor)
        elif kind == "setday":
            self.add("setday", actor, self.day(rng.choice((0, 1, 30, MOST_ANNUAL_DAYS))))
        else:
            self.add(kind, actor, rng.randint(1, self.issued + 1))

    def apply(self, actor: str) -> None:
        """An application for some time within a year."""
        rng = self.rng
        first = rng.choice((0, 0, 0, 0, 1, 40))
        last = first + rng.choice((0, 5, MOST_ANNUAL_DAYS - 1, MOST_ANNUAL_DAYS, MOST_ANNUAL_DAYS))
        asked = "|".join(" ".join(route) for route in self.routes())
        self.add("apply", actor, rng.choice(self.trucks), "a", "b", asked, self.day(first), self.day(last))
        self.issued += 1

    def post(self, actor: str) -> None:
        """A posting that lets no truck through, mostly on a road that is not the first, or one that does so again."""
        rng = self.rng
        if self.shut and rng.random() < 0.7:
            self.add("post", actor, *self.shut.pop(rng.randrange(len(self.shut))))
            return
        segment = rng.choice(self.roads[0] if rng.random() < 0.2 else rng.choice(self.roads[1:]))
        ways = [(segment, "closed", 1, 0), (segment, "height", HEIGHT - 1, HEIGHT)]
        ways += [(span, "rating", 0, 100000) for span in self.spans]
        item, what, shut, opened = rng.choice(ways)
        self.add("post", actor, item, what, shut)
        self.shut.append((item, what, opened))

    def day(self, later: int) -> str:
        """A day that is so many days after the first."""
        return (self.today + datetime.timedelta(later)).isoformat()

    def file(self) -> list[Record]:
        """All records."""
        return [full(["day", self.today.isoformat()]), *self.records, full(["end"])]


def annual_file(rng: Random, actors: int = 1, commands: int = 30) -> list[Record]:
    """A day of annual permits, of so many actors."""
    return AnnualDay(rng, actors, commands).file()
