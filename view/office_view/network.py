"""The places of nodes in the drawing of roads. Nodes of a day file have none, so they are laid out by graphviz.

Where graphviz is missing or fails, the roads are not drawn whole, and the page says why: all its tables are there.
"""
import shutil
import subprocess

from model.files import DayFile

from .command import printable

MOST_NODES, MOST_SEGMENTS, MANY, FEW = 400, 1700, 120, 60
SECONDS = 60
Places = list[tuple[float, float]]


def can_be_drawn(file: DayFile) -> bool:
    return len(file.names["nodes"]) <= MOST_NODES and len(file.segments) <= MOST_SEGMENTS


def places_of(file: DayFile) -> tuple[Places | None, str]:
    """The place of each node; or nothing, and why the roads are not drawn whole."""
    nodes = len(file.names["nodes"])
    if not nodes:
        return None, "There are no places and no roads"
    if not can_be_drawn(file):
        return None, f"{nodes:,} places and {len(file.segments):,} roads are too many to be drawn"
    program = "neato" if nodes <= MANY else "sfdp"
    if shutil.which(program) is None:
        return None, f"{program} of the Debian package graphviz is not installed where this page was made"
    try:
        return scaled(laid_out(program, file, nodes)), ""
    except (OSError, subprocess.SubprocessError, KeyError, ValueError) as fault:
        return None, printable(f"{program} of graphviz fails where this page was made: {fault}")


def laid_out(program: str, file: DayFile, nodes: int) -> Places:
    """The places as graphviz gives them."""
    pairs = sorted({(min(start, end), max(start, end)) for start, end, _ in file.segments if start != end})
    lines = [f"n{node};" for node in range(nodes)] + [f"n{a} -- n{b};" for a, b in pairs]
    text = "graph { graph [start=7]; node [shape=point]; " + "\n".join(lines) + " }"
    ran = subprocess.run(
        [program, "-Tplain"], input=text, capture_output=True, text=True, timeout=SECONDS, check=True
    )
    found: dict[int, tuple[float, float]] = {}
    for line in ran.stdout.split("\n"):
        words = line.split()
        if words[:1] == ["node"]:
            found[int(words[1][1:])] = float(words[2]), float(words[3])
    return [found[node] for node in range(nodes)]


def scaled(places: Places) -> Places:
    """The places such that near nodes are some 90 units apart, from 0 on, the first axis rightwards and the second
    one down."""
    left, top = min(x for x, _ in places), max(y for _, y in places)
    wide, high = max(x for x, _ in places) - left, top - min(y for _, y in places)
    unit = max(wide, high) or 1.0
    apart = 130.0 if len(places) <= FEW else 70.0 if len(places) <= MANY else 45.0
    size = apart * max(2.0, len(places) ** 0.5) / unit
    return [(round((x - left) * size, 1), round((top - y) * size, 1)) for x, y in places]
