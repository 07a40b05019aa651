"""The kinds of input, and which one a seed makes."""
from collections.abc import Callable, Sequence
from dataclasses import dataclass
from random import Random

from model.records import MOST_BYTES
from model.words import CARRY, CERTIFY, COMMANDS, IN_FORCE

from .annual import annual_file
from .breaking import ROUTE_WAYS, broken, ends, scratched, set_number, trip
from .certifying import of_pestered
from .files import check_file, day_file
from .forging import broken_part, forged, legal
from .texts import Field, Record, dressed, full, plain

AXLES = "0:12000 180:17000 228:17000"
TRUCK: tuple[Field, ...] = ("truck", "t", "c", 168, 110, 720, AXLES)
SMALL_TRUCK: tuple[Field, ...] = ("c", 150, 100, 500, "0:8000 168:32000")
DAY = "2026-03-02"
WORDS = (
    "check", "day", "make", "trial", "audit", "design", "convoy", "reroute", "--seed", "--size", "--trucks", "--gap",
    "--seed=5", "--size=2", "--trucks=3", "--gap=48", "7", "+5", "007", "-1", "65535", "65536", "0", "40", "41",
    "--help", "-h", "--version", "--seeds", "--", "", "Check", "--seed=", "--size=1.5", "--seed=-0", "\u00e4",
    "\udcff", "certify", "carry", "--in-force",
)
CLERK_WORDS = (
    "certify", "certify", "certify", "carry", "carry", "carry", "--in-force", "--in-force", "--", "", "-", "Certify",
    "certif", "certify ", "carry ", "--in-force=1", "--in-forc", "audit", "day", "--certify", "--carry", "--help", "-h",
    "-1", "--version", "--seed=1", "--seed", "1", "\u00e4", "\udcff",
)


@dataclass(frozen=True)
class Case:
    """The words of a run, what it reads, and whether it is the clerk's."""

    words: list[str]
    data: bytes = b""
    is_clerks: bool = False


def day_of(records: Sequence[Record]) -> Case:
    """A day of these records."""
    return Case(["day"], plain([full(["day", DAY]), *map(full, records), full(["end"])]))


def good_check(rng: Random) -> Case:
    """A check file that is good."""
    return Case(["check"], plain(check_file(rng)))


def good_day(rng: Random) -> Case:
    """A day file that is good, of one actor or none."""
    return Case(["day"], plain(day_file(rng, rng.choice((1, 1, 1, 1, 0)))))


def crowded_day(rng: Random) -> Case:
    """Several actors, each on a thread."""
    return Case(["day"], plain(day_file(rng, rng.choice((2, 3, 5, 16)), rng.choice((10, 60, 150)))))


def annual_day(rng: Random) -> Case:
    """One actor with annual permits, on routes that are closed and opened."""
    return Case(["day"], plain(annual_file(rng)))


def annual_crowd(rng: Random) -> Case:
    """Several actors who apply for annual permits, and one who posts on the routes meanwhile."""
    return Case(["day"], plain(annual_file(rng, rng.choice((2, 4, 8, 16)), rng.choice((60, 200, 400)))))


def broken_annual(rng: Random) -> Case:
    """A day of annual permits that is broken where it speaks of routes."""
    records = broken(rng, annual_file(rng, 1, rng.choice((3, 10))), (*ROUTE_WAYS, *ROUTE_WAYS, trip))
    return Case(["day"], dressed(rng, records))


def legal_journal(rng: Random) -> Case:
    """The journal of a legal history, for its day file."""
    return Case(["audit"], legal(rng))


def forged_journal(rng: Random) -> Case:
    """A journal that is forged in an entry or two."""
    return Case(["audit"], forged(rng))


def broken_audit(rng: Random) -> Case:
    """What is no journal, or no day file, to audit."""
    return Case(["audit"], broken_part(rng))


def dressed_file(rng: Random) -> Case:
    """A good file, written down in another way."""
    if rng.random() < 0.5:
        return Case(["check"], dressed(rng, check_file(rng, 2)))
    return Case(["day"], dressed(rng, day_file(rng)))


def broken_check(rng: Random) -> Case:
    """A check file that is broken in a few places."""
    return Case(["check"], dressed(rng, broken(rng, check_file(rng, 2))))


def broken_day(rng: Random) -> Case:
    """A day file that is broken in a few places."""
    return Case(["day"], dressed(rng, broken(rng, day_file(rng, 1, rng.choice((3, 3, 10))))))


def scratched_file(rng: Random) -> Case:
    """A file with bytes changed."""
    if rng.random() < 0.5:
        return Case(["check"], scratched(rng, dressed(rng, check_file(rng, 2))))
    return Case(["day"], scratched(rng, dressed(rng, day_file(rng))))


def made(rng: Random) -> Case:
    """A made day is asked for."""
    seed, size = rng.choice((0, 1, 65535, rng.randrange(65536))), rng.choice((1, 2, 3, 8, 40))
    return Case(["make", "--seed", str(seed), "--size", str(size)])


def tried(rng: Random) -> Case:
    """The trial of a made day is asked for."""
    return Case(["trial", "--seed", str(rng.randrange(65536)), "--size", str(rng.choice((1, 1, 2, 3, 5)))])


def road() -> list[Record]:
    """One segment from one node to another."""
    return [["node", "a"], ["node", "b"], ["segment", "s", "a", "b", 1]]


def segments(more: int) -> list[Record]:
    """Segments from one node to itself."""
    records: list[Record] = [["node", "a"]]
    records += [["segment", f"s{i}", "a", "a", 1] for i in range(16384 + more)]
    return records


def spans(more: int) -> list[Record]:
    """As many spans as there may be, on 128 segments, and so many more on another one."""
    records = road()
    records += [["segment", f"s{i}", "b", "a", 1] for i in range(128)]
    records += [["span", f"b{i}", f"s{i % 128}", 240, 1000] for i in range(2048)]
    records += [["span", "b", "s", 240, 1000] for _ in range(more)]
    return records


def spans_on_segment(more: int) -> list[Record]:
    """Spans on one segment."""
    records = road()
    records += [["span", f"b{i}", "s", 240, 1000] for i in range(16 + more)]
    return records


def commands(more: int) -> list[Record]:
    """Commands of one actor."""
    records: list[Record] = [["actor", "a"]]
    records += [["show", "a", i] for i in range(4096 + more)]
    return records


# the records of a day that has as many of a kind as there may be, and so many more
MANY: dict[str, Callable[[int], list[Record]]] = {
    "nodes": lambda more: [["node", f"n{i}"] for i in range(4096 + more)],
    "segments": segments,
    "spans": spans,
    "on-segment": spans_on_segment,
    "trucks": lambda more: [["truck", f"t{i}", *SMALL_TRUCK] for i in range(64 + more)],
    "actors": lambda more: [["actor", f"a{i}"] for i in range(16 + more)],
    "commands": commands,
}


def many(rng: Random) -> Case:
    """As many of a kind as there may be, or one more; or as many bytes."""
    kind = rng.choice((*MANY, "probes", "bytes"))
    more = rng.randrange(2)
    if kind == "probes":
        probes = [full(["probe", 240, 900])] * (64 + more)
        return Case(["check"], plain([full(["truck", "t", *SMALL_TRUCK]), *probes, full(["end"])]))
    if kind == "bytes":
        made = rng.choice((day_of([["node", "a"]]), Case(["audit"], legal(rng))))
        return Case(made.words, made.data + b"\n" * (MOST_BYTES + more - len(made.data)))
    return day_of(MANY[kind](more))


def grid_day(rng: Random) -> Case:
    """Trips over a grid on which many routes are as short, while segments are shut and opened."""
    rows, columns, feet = rng.randint(2, 7), rng.randint(2, 7), rng.choice(((1,), (1, 2), (999, 1000, 1001)))
    nodes = [(r, c) for r in range(rows) for c in range(columns)]
    roads = [(a, b) for a in nodes for b in nodes if abs(a[0] - b[0]) + abs(a[1] - b[1]) == 1]
    rng.shuffle(roads)
    names = {node: f"n{node[0]}-{node[1]}" for node in nodes}
    records: list[Record] = [["node", names[node]] for node in nodes]
    records += [["segment", f"s{i}", names[a], names[b], rng.choice(feet)] for i, (a, b) in enumerate(roads)]
    records += [[*TRUCK], ["actor", "a"]]
    for _ in range(40):
        if rng.random() < 0.4:
            records.append(["post", "a", f"s{rng.randrange(len(roads))}", "closed", rng.choice((0, 1, 1))])
        else:
            start, end = rng.sample(nodes, 2)
            records.append(["apply", "a", "t", names[start], names[end], "", DAY, DAY])
    return day_of(records)


def far_day(rng: Random) -> Case:
    """Two ways of more than 2^32 feet, of which one is a foot shorter, or none."""
    count, less = rng.choice((430, 600)), rng.choice((0, 1))
    shorter, at = rng.choice("ab"), rng.randrange(count)
    records: list[Record] = [["node", "start"], ["node", "end"]]
    for i in range(1, count):
        records += [["node", f"a{i}"], ["node", f"b{i}"]]
    for i in range(count):
        for way in rng.sample("ab", 2):
            start, end = f"{way}{i}" if i else "start", f"{way}{i + 1}" if i + 1 < count else "end"
            feet = 10000000 - (less if (way, i) == (shorter, at) else 0)
            records.append(["segment", f"{way}-{i}", start, end, feet])
    records += [[*TRUCK], ["actor", "a"], ["apply", "a", "t", "start", "end", "", DAY, DAY]]
    return day_of(records)


# what options may have
NUMBERS = {
    "--seed": ("0", "+7", "007", "65535"), "--size": ("1", "+2", "003"), "--trucks": ("2", "+3", "016"),
    "--gap": ("1", "+48", "03000"),
}


def worded(rng: Random) -> Case:
    """Words of the command line: a good list, or any."""
    if rng.random() < 0.5:
        return Case([rng.choice(WORDS) for _ in range(rng.randint(0, 4))])
    options = []
    for option, numbers in NUMBERS.items():
        if rng.random() < 0.6:
            number = rng.choice(numbers)
            options.append([f"{option}={number}"] if rng.random() < 0.5 else [option, number])
    options.insert(rng.randint(0, len(options)), [rng.choice(COMMANDS)])
    return Case([word for option in options for word in option])


ENDS = [(is_check, end) for is_check in (True, False) for end in ends(is_check)]


def at_an_end(rng: Random, number: int = 0) -> Case:
    """A good file in which one number is set to an end of its range or just beyond it."""
    is_check, end = ENDS[number % len(ENDS)]
    records = check_file(rng, 2) if is_check else day_file(rng, 1, 30)
    if end.kind == "probe":
        records[-1:-1] = [full(["probe", 240, 900])]
    set_number(rng, records, end)
    return Case(["check" if is_check else "day"], plain(records))


FAMILIES: tuple[Callable[[Random], Case], ...] = (
    good_check, good_day, broken_check, broken_day, scratched_file, crowded_day, good_check, good_day, broken_day,
    dressed_file, grid_day, scratched_file, good_day, made, tried, worded, broken_day, crowded_day, far_day, many,
    at_an_end, at_an_end, at_an_end, annual_day, annual_crowd, broken_annual, annual_day, annual_crowd, broken_annual,
    forged_journal, legal_journal, forged_journal, broken_audit, at_an_end,
)


def case(seed: int) -> Case:
    """The input of a seed.

    As many seeds in a row as there are families have one of each, and a thousand have each end of a range there is.
    """
    turn, at = divmod(seed, len(FAMILIES))
    if FAMILIES[at] is at_an_end:
        return at_an_end(Random(seed), turn * FAMILIES.count(at_an_end) + FAMILIES[:at].count(at_an_end))
    return FAMILIES[at](Random(seed))


def certify(data: bytes) -> Case:
    """What the clerk is to certify."""
    return Case([CERTIFY], data, is_clerks=True)


def carry(data: bytes) -> list[Case]:
    """What the clerk is to carry, with all trucks and with those in force."""
    return [Case([CARRY, *more], data, is_clerks=True) for more in ([], [IN_FORCE])]


def cases(seed: int) -> list[Case]:
    """The input of a seed, and once more with each other word that reads such a one, those of the clerk among them."""
    made, rng = case(seed), Random(seed)
    if made.words == ["day"]:
        return [made, Case(["reroute"], made.data)]
    if made.words == ["audit"]:
        pestered = of_pestered(rng)
        return [made, certify(made.data), *carry(made.data), Case(["audit"], pestered), certify(pestered),
                *carry(pestered)]
    if FAMILIES[seed % len(FAMILIES)] is worded:
        return [made, Case([rng.choice(CLERK_WORDS) for _ in range(rng.randint(0, 3))], is_clerks=True)]
    if made.words != ["check"]:
        return [made]
    trucks, gap = rng.choice((2, 2, 2, 3, 16)), rng.choice((1, 48, 360, 3000, rng.randint(1, 3000)))
    convoy = ["convoy", "--trucks", str(trucks), "--gap", str(gap)]
    return [Case(words, made.data) for words in (made.words, ["design"], ["convoy"], convoy)]


def family(seed: int) -> str:
    """The name of the family that a seed belongs to."""
    return FAMILIES[seed % len(FAMILIES)].__name__
