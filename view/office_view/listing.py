"""The list of what is wrong: rows with the same mistake in one line, at most so many lines, and a total."""
import re
from collections import Counter
from collections.abc import Iterator, Sequence
from dataclasses import dataclass, field

from .hints import Hint, hint
from .sayings import letter_of, quoted, rows_text
from .sheet import Lenient, Refusal

MOST_LINES = 50
MOST_RUNS = 4
MOST_NAMES = 5
WARNING = re.compile(r'row [0-9]+, column ([A-Z]) ("[^"]*"): (.*)', re.S)
# names and numbers in warnings, and what is said in their place where there are many
OF_MANY = (
    (re.compile(r"[\w-]+ leads the other way"), "another one leads the other way"),
    (re.compile(r"axle [0-9]+ weighs [0-9,]+ lb"), "an axle has such a weight"),
    (re.compile(r"axles [0-9]+ and [0-9]+ are [0-9]+ in apart"), "two axles are so near each other"),
    (re.compile(r"a span of [0-9]+ ft( [0-9]+ in)?:"), "a span is so short:"),
)


@dataclass
class Entry:
    """One mistake: the rows that have it, the lines of the file where they are not the same, and the cells as they
    are shown."""

    hint: Hint
    rows: list[int] = field(default_factory=list)
    line: int = 0
    columns: set[str] = field(default_factory=set)
    cells: list[str] = field(default_factory=list)

    def add(self, row: int, line: int, column: str | None, cell: str) -> None:
        if not self.rows:
            self.line = line
        self.rows.append(row)
        self.columns |= {column} if column else set()
        self.cells.append(cell)

    def take(self, other: "Entry") -> None:
        """Takes in the rows of another one."""
        self.rows += other.rows
        self.columns |= other.columns
        self.cells += other.cells

    def text(self) -> str:
        """The whole line: where it is, what is there, and what is wrong with it."""
        place = places(self.rows)
        if self.line and self.line != self.rows[0]:
            place += f" (line {self.line} of the file)"
        alike = len(set(self.cells)) == 1
        if self.columns:
            name = "column" if len(self.columns) == 1 else "columns"
            place += f", {name} {and_text(sorted(self.columns))}{'' if alike else ', first'} {self.cells[0]}"
        there = "" if alike or not self.hint.instead else " there"
        return f"{place}: {self.hint.text()}{there}"


def places(rows: Sequence[int]) -> str:
    """Rows as runs, and how many there are: of many runs only the first ones."""
    runs: list[tuple[int, int]] = []
    for row in sorted(set(rows)):
        if runs and runs[-1][1] + 1 == row:
            runs[-1] = (runs[-1][0], row)
        else:
            runs.append((row, row))
    if len(runs) == 1 and runs[0][0] + 1 != runs[0][1]:
        return rows_text(*runs[0])
    shown = [text for run in runs[:MOST_RUNS] for text in run_texts(*run)]
    left = sum(last - first + 1 for first, last in runs[MOST_RUNS:])
    count = f" ({len(set(rows))} rows)" if len(set(rows)) > 2 else ""
    return f"rows {and_text(shown + ([f'{left} more'] if left else []))}{count}"


def run_texts(first: int, last: int) -> list[str]:
    """A run of rows: each of them where they are two."""
    return [f"{first} to {last}"] if last - first > 1 else [str(row) for row in range(first, last + 1)]


def and_text(parts: Sequence[str]) -> str:
    return " and ".join(filter(None, [", ".join(parts[:-1]), parts[-1]]))


def refused(sheet: Lenient, check: bool) -> list[Entry]:
    """What is refused, in the order of the first row of each mistake."""
    found: dict[str, Entry] = {}
    for refusal in sheet.refusals:
        made = hint(refusal, sheet, check)
        column = letter_of(refusal.column) if refusal.column else None
        found.setdefault(made.what, Entry(made)).add(refusal.row, refusal.line, column, cell_of(refusal))
    return merged(list(found.values()))


def merged(entries: Sequence[Entry]) -> list[Entry]:
    """The same, where mistakes that differ by a name alone are one entry, if they are many."""
    counts = Counter(entry.hint.of_many for entry in entries)
    found: list[Entry] = []
    one: dict[str, Entry] = {}
    for entry in entries:
        of_many = entry.hint.of_many
        if of_many is None or counts[of_many] <= MOST_NAMES:
            found.append(entry)
            continue
        if of_many not in one:
            one[of_many] = Entry(Hint(of_many), line=entry.line)
            found.append(one[of_many])
        one[of_many].take(entry)
    return found


def cell_of(refusal: Refusal) -> str:
    return quoted(refusal.field_text) if refusal.column else ""


def warned(lines: Sequence[tuple[int, str]]) -> list[Entry]:
    """What is warned of, in the same way."""
    found: dict[str, Entry] = {}
    for row, text in lines:
        parted = WARNING.fullmatch(text)
        column, cell, what = (parted[1], parted[2], parted[3]) if parted else (None, "", text)
        of_many = next((form.sub(said, what) for form, said in OF_MANY if form.match(what)), None)
        found.setdefault(what, Entry(Hint(what, None, of_many))).add(row, 0, column, cell)
    return merged(list(found.values()))


def listed(refusals: Sequence[Entry], warnings: Sequence[Entry], is_cut: bool) -> Iterator[str]:
    """The lines: at most so many, then how many are left out, and of several a total; or that the file was not looked
    through to its end."""
    lines = [entry.text() for entry in refusals] + [f"warning: {entry.text()}" for entry in warnings]
    yield from lines[:MOST_LINES]
    if len(lines) < 2 and not is_cut:
        return
    rows = {row for entry in refusals for row in entry.rows}
    parts = [counted(sum(len(entry.rows) for entry in refusals), "mistake") + f" in {counted(len(rows), 'row')}"]
    parts = parts if refusals else []
    parts += [counted(sum(len(entry.rows) for entry in warnings), "warning")] if warnings else []
    left = f"left out here: {counted(len(lines) - MOST_LINES, 'line')}; " if len(lines) > MOST_LINES else ""
    yield f"{left}in all {', and '.join(parts)}{'; behind them nothing was looked at' if is_cut else ''}"


def counted(count: int, name: str) -> str:
    return f"{count:,} {name}{'' if count == 1 else 's'}"
