"""Sheets of paper on which the pictures of a truck are drawn: letter size, lying. Places are in inches from the left
and from the top.
"""
from collections.abc import Sequence
from typing import Any

from matplotlib.axes import Axes
from matplotlib.figure import Figure
from matplotlib.lines import Line2D
from matplotlib.text import Text

WIDE, HIGH, MARGIN = 11.0, 8.5, 0.55
INK, TRUCK_COLOR, DESIGN_COLOR, OVER_COLOR, QUIET = "#1a1a1a", "#0b5394", "#7a4b00", "#a61c00", "#5c5c5c"
SMALL, PLAIN, LARGE = 8.0, 9.0, 13.0


class Paper:
    """One sheet of a figure. `number` counts the sheets of the figure from 0, the highest one first."""

    def __init__(self, figure: Figure, number: int) -> None:
        self.figure, self.whole = figure, float(figure.get_figheight())
        self.top = HIGH * number
        self.axes = figure.add_axes((0, 1 - (self.top + HIGH) / self.whole, 1, HIGH / self.whole))
        self.axes.set_xlim(0, WIDE)
        self.axes.set_ylim(HIGH, 0)
        self.axes.set_axis_off()

    def text(self, x: float, y: float, text: str, **how: Any) -> Text:
        """A text; of a line of it, y is the middle."""
        # a $ would begin a formula
        how = {"fontsize": PLAIN, "color": INK, "va": "center", **how}
        return self.axes.text(x, y, text.replace("$", r"\$"), **how)

    def line(self, xs: Sequence[float], ys: Sequence[float], **how: Any) -> None:
        self.axes.add_artist(Line2D(xs, ys, **{"color": INK, "linewidth": 0.8, "solid_capstyle": "butt", **how}))

    def mark(self, x: float, y: float, **how: Any) -> None:
        self.axes.add_artist(Line2D([x], [y], linestyle="none", **{"marker": "o", "color": INK, **how}))

    def arrow(self, start: tuple[float, float], end: tuple[float, float], **how: Any) -> None:
        """An arrow from a place to another; with two heads where `style` is `<|-|>`."""
        style = how.pop("style", "-|>")
        name = how.pop("gid", None)
        look = {"arrowstyle": style, "color": INK, "linewidth": 0.8, "shrinkA": 0, "shrinkB": 0, **how}
        self.axes.annotate("", end, start, arrowprops=look, gid=name)

    def inner(self, x: float, y: float, wide: float, high: float) -> Axes:
        """Axes of their own on the sheet; y is their top."""
        bottom = 1 - (self.top + y + high) / self.whole
        return self.figure.add_axes((x / WIDE, bottom, wide / WIDE, high / self.whole))

    def travel(self, x: float, y: float) -> None:
        """The direction of travel: the first axle stands leftmost."""
        self.arrow((x + 0.55, y), (x, y), linewidth=1.4, color=QUIET)
        self.text(x + 0.62, y, "direction of travel", fontsize=SMALL, color=QUIET)

    def foot(self, left: str, number: int, count: int) -> None:
        self.line([MARGIN, WIDE - MARGIN], [HIGH - 0.42] * 2, color=QUIET, linewidth=0.5)
        self.text(MARGIN, HIGH - 0.27, left, fontsize=SMALL, color=QUIET)
        self.text(WIDE - MARGIN, HIGH - 0.27, f"sheet {number} of {count}", fontsize=SMALL, color=QUIET, ha="right")


def spread(places: Sequence[float], apart: float, low: float, high: float) -> list[float]:
    """Places that rise, moved as little as it takes for them to be so far apart and within two bounds. Where there is
    no room for that, they are as far apart as there is room."""
    if len(places) > 1:
        apart = min(apart, (high - low) / (len(places) - 1))
    # as few moves as possible: without the distances they have to rise, so those that fall have their mean
    blocks: list[tuple[float, int]] = []
    for number, place in enumerate(places):
        blocks.append((place - apart * number, 1))
        while len(blocks) > 1 and blocks[-2][0] > blocks[-1][0]:
            (last, many), (before, more) = blocks.pop(), blocks.pop()
            blocks.append(((last * many + before * more) / (many + more), many + more))
    most = high - apart * (len(places) - 1)
    even = [min(max(place, low), most) for place, count in blocks for _ in range(count)]
    return [place + apart * number for number, place in enumerate(even)]
