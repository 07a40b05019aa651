"""One span on a sheet: the truck where its moment and where its end shear is greatest, with the influence lines below,
the greatest moment at each section, and both effects as parts of what the rating carries. Exact fractions come last.
"""
import textwrap
from collections.abc import Callable, Sequence
from fractions import Fraction

from matplotlib.axes import Axes
from matplotlib.ticker import FuncFormatter
from model.limits import Axles

from .loading import design_envelope, envelope, influence, reaction, sections
from .paper import DESIGN_COLOR, INK, LARGE, MARGIN, OVER_COLOR, QUIET, SMALL, TRUCK_COLOR, WIDE, Paper, spread
from .rating import Effect, Judged, Judgement, kip_feet, kips, least_text, length, percent, ratio, rounded

VERDICTS = {
    "carried": "the rating carries the {}",
    "moment over": "the moment is over the rating",
    "shear over": "the end shear is over the rating",
    "both over": "moment and end shear are over the rating",
}
LEFT, RIGHT = MARGIN + 0.1, 5.75
OFF = 0.25
NUMBERS_APART, VALUES_APART = 0.2, 0.17
LETTERS = 150
Line = Callable[[int, Fraction, Fraction], Fraction]


class SpanSheet:
    """The sheet of one span. Each part of the picture has a name that begins with `probe-` and its number."""

    def __init__(self, paper: Paper, number: int, judged: Judged, judgement: Judgement) -> None:
        self.paper, self.judged, self.judgement = paper, judged, judgement
        self.number, self.name = number, f"probe-{number}"
        self.axles: Axles = judgement.axles
        span = judged.inches
        places = [effect.place.lead + at for effect in (judged.moment, judged.shear) for at, _ in self.axles]
        # what stands far off the span is not drawn
        self.low = max(float(min(places)), -OFF * span) if min(places) < 0 else 0.0
        self.high = min(float(max(places)), (1 + OFF) * span) if max(places) > span else float(span)
        margin = 0.03 * (self.high - self.low)
        self.low, self.high = self.low - margin, self.high + margin

    def at(self, inches: Fraction | float) -> float:
        """Where a place of the span is on the paper."""
        return LEFT + (float(inches) - self.low) / (self.high - self.low) * (RIGHT - LEFT)

    def draw(self) -> None:
        self.head()
        judged = self.judged
        self.paper.travel(LEFT, 1.75)
        moment, shear = f"{self.name}-moment", f"{self.name}-shear"
        self.placed(moment, judged.moment, 2.8, "Where the moment is greatest")
        section = f"Influence line of the moment at {rounded(judged.moment.place.section, 2)} in; in inches"
        self.influence_line((3.12, 0.85), self.name, judged.moment, influence, section)
        self.placed(shear, judged.shear, 5.68, "Where the end shear is greatest")
        end = f"Influence line of the {judged.shear.place.side} reaction"
        self.influence_line((6.0, 0.55), f"{self.name}-reaction", judged.shear, reaction, end)
        self.envelopes(self.paper.inner(6.75, 2.2, 3.65, 2.4))
        self.parts(5.6)
        self.fractions(7.52)

    def head(self) -> None:
        """What the span is, and the two effects as people know them."""
        judged, paper = self.judged, self.paper
        carried = VERDICTS[judged.verdict_text].format("convoy" if self.judgement.trucks > 1 else "truck")
        color = INK if judged.verdict == "fits" else OVER_COLOR
        title = f"Span {self.number}: {length(judged.inches)}, rating {judged.rating:,}: {carried}"
        paper.text(MARGIN, 0.6, title, fontsize=LARGE, color=color, gid=f"{self.name}-title")
        moment, shear = judged.moment, judged.shear
        lines = (
            f"Moment {kip_feet(moment.has)} kip-ft, at axle {moment.place.axle}: "
            f"{self.part_text(moment, kip_feet, 'kip-ft')}",
            f"End shear {kips(shear.has)} kips, at the {shear.place.side} end: {self.part_text(shear, kips, 'kips')}",
            f"The least rating that carries it is {least_text(judged)}: {self.governing()}",
        )
        for at, line in enumerate(lines):
            paper.text(MARGIN, 0.95 + 0.23 * at, line, fontsize=10, gid=f"{self.name}-line-{at + 1}")

    def part_text(self, effect: Effect, shown: Callable[[Fraction], str], unit: str) -> str:
        part = effect.part(self.judged.rating)
        if part is None:
            return "the rating carries nothing"
        carries = shown(effect.load * self.judged.rating / 1000)
        return f"{percent(part)} % of what the rating carries, {carries} {unit} (of the {effect.load_name})"

    def governing(self) -> str:
        both = "moment and end shear are the same part of those of the design load"
        return both if self.judged.governs == "both" else f"the {self.judged.governs} governs"

    def pitch(self, at: int) -> float:
        """How far an axle is from the one nearest to it on the paper, in points."""
        places = [place for place, _ in self.axles[max(at - 1, 0):at + 2]]
        return 72 * (self.at(min(behind - before for before, behind in zip(places, places[1:]))) - self.at(0))

    def placed(self, name: str, effect: Effect, y: float, title: str) -> None:
        """The train on the span, with the numbers of its axles. Those that are off the span are grey."""
        paper, inches = self.paper, self.judged.inches
        paper.text(LEFT, y - 0.8, title, gid=f"{name}-head")
        places = [effect.place.lead + at for at, _ in self.axles]
        shown = [at for at, it in enumerate(places) if self.low <= it <= self.high]
        paper.line([self.at(0), self.at(inches)], [y] * 2, linewidth=3, gid=f"{name}-span")
        for support in (0, inches):
            paper.mark(self.at(support), y + 0.1, marker="^", markersize=9, color=QUIET)
        ends = [min(max(self.at(it), LEFT), RIGHT) for it in (places[0], places[-1])]
        paper.line(ends, [y - 0.22] * 2, color=TRUCK_COLOR, linewidth=2, gid=f"{name}-deck")
        columns = spread([self.at(places[at]) for at in shown], NUMBERS_APART, LEFT, RIGHT)
        for column, at in zip(columns, shown):
            pitch = self.pitch(at)
            x, color = self.at(places[at]), TRUCK_COLOR if 0 <= places[at] <= inches else "#8a8a8a"
            paper.line([x, x], [y - 0.22, y - 0.03], color=color, linewidth=min(1.2, 0.5 * pitch))
            paper.mark(x, y - 0.05, markersize=min(3.5, 0.75 * pitch), markeredgewidth=0, color=color,
                       gid=f"{name}-axle-{at + 1}")
            paper.line([x, column], [y - 0.24, y - 0.4], color=color, linewidth=0.5)
            paper.text(column, y - 0.48, str(at + 1), fontsize=7.5, color=color, ha="center",
                       gid=f"{name}-number-{at + 1}")
        self.left_out(name, y, len(places), shown)
        if effect.place.side:
            x = self.at(0 if effect.place.side == "left" else inches)
            paper.arrow((x, y + 0.34), (x, y + 0.14), color=TRUCK_COLOR, linewidth=2, gid=f"{name}-reaction")

    def left_out(self, name: str, y: float, count: int, shown: Sequence[int]) -> None:
        """How many axles stand too far off the span to be drawn."""
        runs = [(1, shown[0]), (shown[-1] + 2, count)]
        runs = [(first, last) for first, last in runs if first <= last]
        parts = [f"axle {first}" if first == last else f"axles {first} to {last}" for first, last in runs]
        if parts:
            self.paper.text(RIGHT, y - 0.8, f"further off: {', '.join(parts)}", fontsize=SMALL, color=QUIET, ha="right",
                            gid=f"{name}-left-out")

    def influence_line(self, place: tuple[float, float], name: str, effect: Effect, line: Line, title: str) -> None:
        """The influence line of a section or a support, and what it is under each axle on the span."""
        paper, inches, section = self.paper, self.judged.inches, effect.place.section
        top, high = place
        base = top + 0.22 + high
        greatest = line(inches, section, section)
        # the arrow of a reaction at the left end stands in front of the title
        begin = self.at(0) + 0.15 if effect.place.side == "left" else LEFT
        paper.text(begin, top, title, fontsize=SMALL, gid=f"{name}-influence-head")

        def height(at: Fraction) -> float:
            return base - high * float(line(inches, section, at) / greatest if greatest else 0)

        corners = sorted({Fraction(0), section, Fraction(inches)})
        paper.line([self.at(0), self.at(inches)], [base] * 2, color=QUIET)
        paper.line([self.at(at) for at in corners], [height(at) for at in corners], linewidth=1.4,
                   gid=f"{name}-influence")
        on = [at for at, (it, _) in enumerate(self.axles) if 0 <= effect.place.lead + it <= inches]
        columns = spread([self.at(effect.place.lead + self.axles[at][0]) for at in on], VALUES_APART, LEFT, RIGHT)
        turned = 90 if any(b - a < 0.45 for a, b in zip(columns, columns[1:])) else 0
        for column, at in zip(columns, on):
            it = effect.place.lead + self.axles[at][0]
            x, value = self.at(it), line(inches, section, it)
            paper.line([x, x], [base, height(it)], color=TRUCK_COLOR, linewidth=min(1.3, 0.5 * self.pitch(at)),
                       gid=f"{name}-ordinate-{at + 1}")
            paper.line([x, column], [base + 0.03, base + 0.14], color=TRUCK_COLOR, linewidth=0.5)
            digits = 3 if line is reaction else 1 if greatest >= 10 else 2
            paper.text(column, base + (0.17 if turned else 0.22), rounded(value, digits), fontsize=7.5, ha="center",
                       va="top" if turned else "center", rotation=turned, gid=f"{name}-value-{at + 1}")

    def envelopes(self, axes: Axes) -> None:
        """The greatest moment at each section, beside that of the design load times the rating; in kip-ft."""
        judged, name = self.judged, self.name
        places = sections(judged.inches, judged.moment.place.section)
        is_design = self.judgement.command == "design"
        load = "the greatest design load" if is_design else "HS20-44"
        curves = (
            (envelope(self.axles, judged.inches, places), "envelope", TRUCK_COLOR, "-",
             "this convoy" if self.judgement.trucks > 1 else "this truck"),
            (design_envelope(judged.inches, places, judged.rating, is_design), "design", DESIGN_COLOR, "--",
             f"{load} times {rounded(Fraction(judged.rating, 1000), 3)}"),
        )
        for points, gid, color, style, label in curves:
            axes.plot([float(at) for at, _ in points], [float(it / 12_000) for _, it in points], color=color,
                      linewidth=1.8, linestyle=style, gid=f"{name}-{gid}", label=label)
        axes.plot([float(judged.moment.place.section)], [float(judged.moment.has / 12_000)], marker="o", markersize=5,
                  color=TRUCK_COLOR, gid=f"{name}-peak", linestyle="none")
        axes.set_ylim(0, None)
        axes.set_xlim(0, judged.inches)
        axes.tick_params(labelsize=SMALL)
        for axis in (axes.xaxis, axes.yaxis):
            axis.set_major_formatter(FuncFormatter(lambda value, _: f"{value:,g}"))
        axes.set_xlabel("section, in inches from the left support", fontsize=SMALL)
        axes.set_ylabel("kip-ft", fontsize=SMALL)
        axes.spines[["top", "right"]].set_visible(False)
        axes.legend(fontsize=SMALL, frameon=False, loc="lower left", bbox_to_anchor=(-0.02, 1.0), ncol=2,
                    borderaxespad=0)
        self.paper.text(6.35, 1.75, "Greatest moment at each section, either way round", gid=f"{name}-envelope-head")

    def parts(self, top: float) -> None:
        """Both effects as parts of what the rating carries. Numbers stand beside the bars, and nothing on the limit's
        line."""
        judged, paper, left, wide = self.judged, self.paper, 7.1, 2.45
        paper.text(6.35, top - 0.25, "Parts of what the rating carries", gid=f"{self.name}-parts-head")
        parts = [effect.part(judged.rating) for effect in (judged.moment, judged.shear)]
        scale = wide / max([1.15, *(float(part) * 1.05 for part in parts if part is not None)])
        for row, (word, part) in enumerate(zip(("moment", "end shear"), parts)):
            y = top + 0.15 + 0.38 * row
            paper.text(left - 0.08, y, word, ha="right")
            if part is not None:
                color = OVER_COLOR if part > 1 else TRUCK_COLOR
                paper.line([left, left + scale * float(part)], [y] * 2, color=color, linewidth=11,
                           gid=f"{self.name}-part-{row + 1}")
            text = "nothing is carried" if part is None else f"{percent(part)} %"
            paper.text(left + wide + 0.08 if part is not None else left + 0.05, y, text,
                       gid=f"{self.name}-percent-{row + 1}")
        limit = left + scale
        if judged.rating:
            paper.line([limit] * 2, [top - 0.08, top + 0.8], linewidth=1.6, zorder=5, gid=f"{self.name}-all")
            paper.text(limit, top + 0.9, "100 %, the limit", fontsize=SMALL, ha="center" if limit > 7.5 else "left")
        paper.line([left, left], [top - 0.05, top + 0.75], color=QUIET)

    def fractions(self, top: float) -> None:
        """The exact numbers."""
        judged = self.judged
        moment, shear = judged.moment, judged.shear
        text = (
            f"Exactly: moment {ratio(moment.has)} lb in with the first axle at {ratio(moment.place.lead)} in and the "
            f"section at {ratio(moment.place.section)} in; end shear {ratio(shear.has)} lb with the first axle at "
            f"{ratio(shear.place.lead)} in; {moment.load_name} {ratio(moment.load)} lb in, {shear.load_name} "
            f"{ratio(shear.load)} lb."
        )
        self.paper.line([MARGIN, WIDE - MARGIN], [top - 0.12] * 2, color=QUIET, linewidth=0.4)
        for at, line in enumerate(textwrap.wrap(text, LETTERS, break_on_hyphens=False)):
            self.paper.text(MARGIN, top + 0.04 + 0.16 * at, line, fontsize=SMALL, color=QUIET,
                            gid=f"{self.name}-exactly-{at + 1}")
