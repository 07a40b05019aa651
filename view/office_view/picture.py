"""The pictures of a truck on sheets of paper: first a table of its spans, the truck from the side, and then a sheet for
each span.

Each part that a reader may want to find has a name in the SVG: `axle-2`, `over-1`, `row-1`, `probe-1-moment-axle-2`,
`probe-1-influence`, `probe-1-envelope`, `probe-1-design`, `probe-1-shear-axle-3` and the like.
"""
import io
from collections.abc import Callable, Sequence
from functools import partial

import matplotlib
from matplotlib.backends.backend_pdf import PdfPages
from matplotlib.figure import Figure
from model.trucks import Truck

from .paper import HIGH, INK, LARGE, MARGIN, OVER_COLOR, QUIET, SMALL, WIDE, Paper
from .rating import Judged, Judgement, kip_feet, kips, least_text, length, percent
from .report import Report
from .side import Side
from .spans import SpanSheet

DOTS, MOST_PIXELS = 110.0, 60_000
ROW, ROWS_OF_A_SHEET = 0.24, 24
TABLE_TOP, BOTTOM = 1.15, HIGH - 0.5
SETTINGS = {
    "svg.hashsalt": "permit-office-view",
    "svg.fonttype": "none",
    "font.family": "DejaVu Sans",
    "font.size": 9.0,
    "pdf.fonttype": 42,
}
# the columns of the table: the place of each, how it is aligned, and its heading
COLUMNS: tuple[tuple[float, str, str], ...] = (
    (0.85, "right", "span"),
    (1.1, "left", "length"),
    (3.35, "right", "rating"),
    (4.3, "right", "moment\nkip-ft"),
    (5.35, "right", "% of what the\nrating carries"),
    (6.2, "right", "end shear\nkips"),
    (7.25, "right", "% of what the\nrating carries"),
    (8.1, "right", "least rating\nthat carries"),
    (8.3, "left", "governs"),
    (9.15, "left", "verdict"),
)
Sheet = Callable[[Paper], None]


class Picture:
    """What is drawn of a truck and a report on it."""

    def __init__(self, truck: Truck, judgement: Judgement, report: Report | None) -> None:
        self.truck, self.judgement, self.report = truck, judgement, report
        self.side = Side(truck, judgement, report)
        self.sheets = self.all_sheets()

    def all_sheets(self) -> list[Sheet]:
        """What stands on each sheet."""
        spans = list(enumerate(self.judgement.spans, 1))
        tables = [spans[at:at + ROWS_OF_A_SHEET] for at in range(0, len(spans), ROWS_OF_A_SHEET)] or [[]]
        room = BOTTOM - self.table_bottom(tables[-1])
        is_apart = room < self.side.high
        sheets: list[Sheet] = []
        for rows in tables:
            sheets.append(partial(self.first, rows=rows, with_side=not is_apart and rows is tables[-1]))
        if is_apart:
            sheets.append(partial(self.first, rows=[], with_side=True))
        return sheets + [partial(self.span, number=number, judged=it) for number, it in spans]

    def span(self, paper: Paper, number: int, judged: Judged) -> None:
        """The sheet of a span."""
        SpanSheet(paper, number, judged, self.judgement).draw()

    def table_bottom(self, rows: Sequence[object]) -> float:
        """Where a table of so many rows ends."""
        return TABLE_TOP + 0.35 + ROW * len(rows) + 0.15 if rows else TABLE_TOP

    def first(self, paper: Paper, rows: Sequence[tuple[int, Judged]], with_side: bool) -> None:
        """The head, rows of the table, and the truck from the side where it stands here."""
        self.head(paper)
        if rows:
            self.table(paper, rows)
        if with_side:
            self.side.draw(paper, self.table_bottom(rows))

    def head(self, paper: Paper) -> None:
        truck, judgement = self.truck, self.judgement
        title = f"Truck {truck.name} of {truck.carrier}: {len(truck.axles)} axles, {truck.gross:,} lb"
        if judgement.trucks > 1:
            weight = sum(weight for _, weight in judgement.axles)
            title = (
                f"{judgement.trucks} trucks {truck.name} of {truck.carrier}, {judgement.gap:,} in or more apart: "
                f"{len(judgement.axles)} axles, {weight:,} lb"
            )
        paper.text(MARGIN, 0.55, title, fontsize=LARGE, gid="title")
        text, color = self.sizes()
        paper.text(MARGIN, 0.85, text, color=color, gid="sizes")

    def sizes(self) -> tuple[str, str]:
        """The second line: sizes and whether the truck is legal, or beside what it is rated."""
        truck, report = self.truck, self.report
        if self.judgement.command == "convoy":
            return "rated beside one HS20-44 truck; the closest convoy governs, and is drawn", INK
        if report is None:
            return "rated beside the greatest of three design loads: HS20-44 truck, lane load, military loading", INK
        sizes = [
            f"{truck.height} in high" + (f" ({report.high[1]} allowed)" if report.high else ""),
            f"{truck.width} in wide" + (f" ({report.wide[1]} allowed)" if report.wide else ""),
            f"{truck.length:,} in long",
        ]
        legal = "legal: needs no permit" if report.legal else "not legal without a permit"
        return ", ".join(sizes) + f"; {legal}", INK if report.legal else OVER_COLOR

    def table(self, paper: Paper, rows: Sequence[tuple[int, Judged]]) -> None:
        for x, align, text in COLUMNS:
            paper.text(x, TABLE_TOP + 0.12, text, ha=align, fontsize=SMALL, color=QUIET, linespacing=1.1)
        paper.line([MARGIN, WIDE - MARGIN], [TABLE_TOP + 0.31] * 2)
        for at, (number, it) in enumerate(rows):
            y = TABLE_TOP + 0.35 + ROW * (at + 0.5)
            parts = [it.moment.part(it.rating), it.shear.part(it.rating)]
            texts = (
                str(number),
                length(it.inches),
                f"{it.rating:,}",
                kip_feet(it.moment.has),
                percent(parts[0]),
                kips(it.shear.has),
                percent(parts[1]),
                least_text(it),
                it.governs,
                it.verdict_text,
            )
            is_over = (3, parts[0]), (5, parts[1])
            red = {column + more for column, part in is_over if part is None or part > 1 for more in (0, 1)}
            red |= {9} if it.verdict != "fits" else set()
            for column, ((x, align, _), text) in enumerate(zip(COLUMNS, texts)):
                color = OVER_COLOR if column in red else INK
                weight = "bold" if column in red else "normal"
                paper.text(x, y, text, ha=align, color=color, weight=weight, gid=f"row-{number}-{column + 1}")

    def figures(self, numbers: Sequence[int], together: bool) -> list[Figure]:
        """The sheets of these numbers, counted from 1: one below the other, or each by itself."""
        groups = [list(numbers)] if together else [[number] for number in numbers]
        figures = []
        for group in groups:
            figure = Figure(figsize=(WIDE, HIGH * len(group)))
            for at, number in enumerate(group):
                paper = Paper(figure, at)
                self.sheets[number - 1](paper)
                about = "drawn by a program that is not proved"
                paper.foot(f"Truck {self.truck.name}, {self.judgement.command}; {about}", number, len(self.sheets))
                if at:
                    paper.line([0, WIDE], [0, 0], color=QUIET, linewidth=1.5)
            figures.append(figure)
        return figures


def draw(picture: Picture, kind: str, numbers: Sequence[int]) -> bytes:
    """Sheets of a picture as the bytes of an SVG, a PDF or a PNG."""
    title = f"Truck {picture.truck.name} of {picture.truck.carrier}"
    made = io.BytesIO()
    with matplotlib.rc_context(SETTINGS):
        figures = picture.figures(numbers, kind != "pdf")
        if kind == "pdf":
            about = {"Title": title, "CreationDate": None, "Creator": "permit-office-view"}
            with PdfPages(made, metadata=about) as pages:
                for figure in figures:
                    pages.savefig(figure)
        else:
            about = {"Title": title, "Date": None, "Creator": "permit-office-view"} if kind == "svg" else {}
            dots = min(DOTS, MOST_PIXELS / float(figures[0].get_figheight()))
            figures[0].savefig(made, format=kind, dpi=dots, metadata=about or None)
    return made.getvalue()
