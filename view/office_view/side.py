"""The truck from the side: height and length to scale, its axles with numbers, weights and spacings, and each group
over its limit.

Axles stand at their places. What is said of them stands below in columns that are moved apart where axles are close,
each with a line to its axle.
"""
from collections.abc import Sequence
from fractions import Fraction

from matplotlib.patches import Circle, Rectangle
from model.limits import LEGAL_HEIGHT, Axles
from model.trucks import Truck

from .paper import INK, MARGIN, OVER_COLOR, QUIET, SMALL, TRUCK_COLOR, WIDE, Paper, spread
from .rating import Judgement, length, percent
from .report import Over, Report

MOST_BRACKETS = 12
LEFT, RIGHT = MARGIN + 0.95, WIDE - MARGIN - 1.0
BODY, BRACKET = 1.55, 0.21
WHEEL = 40
PITCH, NARROW_PITCH = 0.62, 0.26
# how wide a small letter is, and a little more
LETTER = 0.062


def chosen(over: Sequence[Over]) -> list[Over]:
    """The groups that get a bracket: all, or those that are over their limit by the greatest part."""
    if len(over) <= MOST_BRACKETS:
        return list(over)
    worst = sorted(over, key=lambda it: -Fraction(it.weight, it.limit))[:MOST_BRACKETS]
    return [it for it in over if it in worst]


def beside(left: float, right: float, wide: float) -> tuple[float, str]:
    """Where a text stands that is said of a bracket: on a side where there is room for it, else above its line."""
    if right + 0.08 + wide < WIDE - MARGIN:
        return right + 0.08, "left"
    if left - 0.08 - wide > MARGIN:
        return left - 0.08, "right"
    return min(max((left + right) / 2, MARGIN + wide / 2), WIDE - MARGIN - wide / 2), "center"


class Side:
    """The truck, or the closest convoy of it, as it is drawn."""

    def __init__(self, truck: Truck, judgement: Judgement, report: Report | None) -> None:
        self.truck, self.judgement, self.report = truck, judgement, report
        self.axles: Axles = judgement.axles
        self.brackets = chosen(report.over) if report else []
        self.is_narrow = (RIGHT - LEFT) / max(len(self.axles) - 1, 1) < PITCH
        spreads = [at for at, _ in self.axles]
        # how far the truck reaches in front of its first axle is not said
        self.front = min(0.0, (spreads[-1] - truck.length) / 2) if judgement.trucks == 1 else 0.0
        rear = max(float(spreads[-1]), self.front + truck.length) if judgement.trucks == 1 else float(spreads[-1])
        self.scale = min((RIGHT - LEFT) / (rear - self.front), BODY / max(truck.height, LEGAL_HEIGHT))
        self.left = (LEFT + RIGHT - self.scale * (rear - self.front)) / 2 - self.scale * self.front
        pitch = NARROW_PITCH if self.is_narrow else PITCH
        self.columns = spread([self.at(place) for place in spreads], pitch, LEFT, RIGHT)

    @property
    def high(self) -> float:
        """How much of a sheet it takes."""
        left_out = self.report is not None and len(self.brackets) < len(self.report.over)
        return 0.55 + self.body + self.rows_high + BRACKET * (len(self.brackets) + left_out) + 0.15

    @property
    def body(self) -> float:
        """How high the truck is on the paper, or the wheels of a convoy with the numbers of its trucks."""
        return max(self.scale * self.truck.height, 0.3) if self.judgement.trucks == 1 else self.scale * WHEEL + 0.25

    @property
    def rows_high(self) -> float:
        return 2.15 if self.is_narrow else 1.35

    def at(self, inches: float) -> float:
        """Where a place of the truck is on the paper."""
        return self.left + self.scale * inches

    def draw(self, paper: Paper, top: float) -> None:
        ground = top + 0.55 + self.body
        paper.travel(MARGIN, top + 0.1)
        if self.judgement.trucks == 1:
            self.outline(paper, ground, top + 0.38)
        else:
            self.gaps(paper, ground)
        paper.line([LEFT - 0.3, RIGHT + 0.3], [ground] * 2, color=QUIET, linewidth=1.2)
        self.wheels(paper, ground)
        self.rows(paper, ground)
        self.groups(paper, ground + self.rows_high)

    def outline(self, paper: Paper, ground: float, length_at: float) -> None:
        """The box that the truck fills, with its height and its length."""
        truck, report = self.truck, self.report
        left, right = self.at(self.front), self.at(self.front + truck.length)
        high = self.scale * truck.height
        box = Rectangle((left, ground - high), right - left, high, fill=False, edgecolor=TRUCK_COLOR, linewidth=1.0)
        box.set_gid("outline")
        paper.axes.add_patch(box)
        paper.arrow((left, length_at), (right, length_at), style="<|-|>", color=QUIET)
        middle = min(max((left + right) / 2, LEFT + 1.2), RIGHT - 1.2)
        said = "how far it reaches in front of axle 1 is not said in the file; the box stands in the middle"
        paper.text(WIDE - MARGIN, length_at - 0.28, said, fontsize=7, color=QUIET, ha="right")
        paper.text(middle, length_at - 0.13, f"{length(truck.length)} long", ha="center",
                   fontsize=SMALL, gid="length")
        is_high = report is not None and report.high is not None
        color = OVER_COLOR if is_high else INK
        paper.arrow((right + 0.12, ground), (right + 0.12, ground - high), style="<|-|>", color=color)
        allowed = f"\n{LEGAL_HEIGHT} allowed" if is_high else ""
        paper.text(right + 0.2, ground - high / 2, f"{truck.height} in high{allowed}", fontsize=SMALL, color=color,
                   gid="height")

    def gaps(self, paper: Paper, ground: float) -> None:
        """The trucks of a convoy, and the gaps between them."""
        count, above = len(self.truck.axles), ground - self.body
        paper.text(MARGIN, above, "truck", fontsize=SMALL, color=QUIET)
        for number in range(self.judgement.trucks):
            first, last = (self.at(self.axles[at][0]) for at in (number * count, number * count + count - 1))
            paper.text((first + last) / 2, above, str(number + 1), ha="center", fontsize=SMALL,
                       gid=f"truck-{number + 1}")
            if number + 1 < self.judgement.trucks:
                behind = self.at(self.axles[number * count + count][0])
                paper.line([last, last, behind, behind], [ground + 0.04, ground + 0.1, ground + 0.1, ground + 0.04],
                           color=QUIET)

    def wheels(self, paper: Paper, ground: float) -> None:
        """Wheels at their places, so small that those of axles next to each other do not touch."""
        places = [at for at, _ in self.axles]
        count = len(self.truck.axles)
        for number, at in enumerate(places):
            near = [abs(at - other) for other in places[max(number - 1, 0):number + 2] if other != at]
            wide = self.scale * min(WHEEL, 0.85 * min(near))
            wheel = Circle((self.at(at), ground - wide / 2), wide / 2, facecolor="white", edgecolor=INK,
                           linewidth=min(1.5, 14 * wide), zorder=3)
            wheel.set_gid(f"wheel-{number + 1}")
            paper.axes.add_patch(wheel)
            paper.mark(self.at(at), ground, markersize=0.1, gid=f"axle-{number + 1}")
        deck = ground - self.scale * WHEEL - 0.05
        for first in range(0, len(places), count):
            ends = [self.at(places[first]), self.at(places[first + count - 1])]
            name = "deck" if first == 0 else f"deck-{first // count + 1}"
            paper.line(ends, [deck] * 2, color=TRUCK_COLOR, linewidth=3, gid=name)

    def rows(self, paper: Paper, ground: float) -> None:
        """A column for each axle: its number, its weight, its place; and the spacings between them."""
        names, numbers = ground + 0.42, ground + (1.02 if self.is_narrow else 0.66)
        where, between = ground + (1.5 if self.is_narrow else 0.87), ground + (1.98 if self.is_narrow else 1.13)
        turned = 90 if self.is_narrow else 0
        for y, text in ((names, "axle"), (numbers, "weight in lb"), (where, "place in in"), (between, "spacing in in")):
            paper.text(MARGIN, y, text, fontsize=SMALL, color=QUIET)
        for number, (x, (at, weight)) in enumerate(zip(self.columns, self.axles), 1):
            paper.line([self.at(at), self.at(at), x, x], [ground, ground + 0.06, ground + 0.22, ground + 0.3],
                       color=QUIET, linewidth=0.6, gid=f"leader-{number}")
            paper.mark(x, names, markersize=12, markerfacecolor="white", markeredgewidth=0.9)
            paper.text(x, names, str(number), fontsize=7.5, ha="center", gid=f"number-{number}")
            how = {"fontsize": SMALL, "ha": "center", "rotation": turned}
            paper.text(x, numbers, f"{weight:,}", gid=f"weight-{number}", **how)
            paper.text(x, where, f"{at:,}", gid=f"place-{number}", **how)
        for number in range(1, len(self.axles)):
            before, behind = self.columns[number - 1], self.columns[number]
            apart = self.axles[number][0] - self.axles[number - 1][0]
            for x in (before, behind):
                paper.line([x, x], [between - (0.2 if self.is_narrow else 0.14), between - 0.08], color=QUIET,
                           linewidth=0.5)
            paper.text((before + behind) / 2, between, f"{apart:,}", fontsize=SMALL, ha="center", rotation=turned,
                       gid=f"spacing-{number}")

    def groups(self, paper: Paper, top: float) -> None:
        """A bracket for each group over its limit, below the columns of its axles."""
        for number, it in enumerate(self.brackets, 1):
            y = top + BRACKET * (number - 0.5)
            first, last = self.columns[it.first - 1], self.columns[it.last - 1]
            left, right = first - 0.1, last + 0.1
            group = f"axle {it.first}" if it.first == it.last else f"axles {it.first} to {it.last}"
            part = percent(Fraction(it.weight, it.limit))
            text = f"{group}: {it.weight:,} lb, {it.limit:,} allowed ({it.rule}), {part} %"
            x, align = beside(left, right, LETTER * len(text))
            low, tick = (0.09, 0.035) if align == "center" else (0.04, 0.08)
            paper.line([left, left, right, right], [y + low - tick, y + low, y + low, y + low - tick],
                       color=OVER_COLOR, linewidth=1.3, gid=f"over-{number}")
            paper.text(x, y - (0.02 if align == "center" else 0), text, fontsize=SMALL, color=OVER_COLOR, ha=align,
                       gid=f"over-text-{number}")
        if self.report is not None and len(self.brackets) < len(self.report.over):
            left_out = len(self.report.over) - len(self.brackets)
            paper.text(MARGIN, top + BRACKET * (len(self.brackets) + 0.5), f"{left_out} more are over their limits, by "
                       "a lesser part: see the report", fontsize=SMALL, color=OVER_COLOR, gid="more")
