"""What a report says of a train of axles on each span, and the table of it: effects, their parts of what the rating
carries, the least rating that carries the train, and which of the two effects governs.

All numbers are exact fractions, and rounded when they are shown. A part of a hundred is shown with as many digits as it
takes to tell it from a hundred.
"""
import csv
import io
from collections.abc import Sequence
from dataclasses import dataclass
from fractions import Fraction

from model.limits import Axles

MOST_RATING = 100_000
LEAST_DIGITS, MOST_DIGITS = 1, 6
HEAD = (
    "span",
    "length (in)",
    "length (ft)",
    "rating",
    "moment (kip-ft)",
    "moment (% of what the rating carries)",
    "end shear (kips)",
    "end shear (% of what the rating carries)",
    "least rating that carries it",
    "governs",
    "verdict",
    "moment of the design load",
    "end shear of the design load",
    "moment exactly (lb in)",
    "end shear exactly (lb)",
)


@dataclass(frozen=True)
class Place:
    """Where an effect is greatest: the first axle at the lead, in inches from the left support."""

    lead: Fraction
    section: Fraction
    axle: int
    side: str = ""


@dataclass(frozen=True)
class Effect:
    """The greatest moment in lb in, or the greatest end shear in lb: of the train, and of a design load by its name."""

    has: Fraction
    load: Fraction
    load_name: str
    place: Place

    def part(self, rating: int) -> Fraction | None:
        """The part of what the rating carries, or nothing where that is nothing."""
        return 1000 * self.has / (rating * self.load) if rating else None

    @property
    def least(self) -> int:
        """The least rating that carries it, in whole thousandths."""
        return -((-1000 * self.has) // self.load)


@dataclass(frozen=True)
class Judged:
    """A train on one span."""

    inches: int
    rating: int
    verdict: str
    moment: Effect
    shear: Effect

    @property
    def least(self) -> int:
        return max(self.moment.least, self.shear.least)

    @property
    def verdict_text(self) -> str:
        """Which effects are over the rating. The report names the moment alone where both are."""
        if self.verdict == "fits":
            return "carried"
        is_both = all(1000 * effect.has > self.rating * effect.load for effect in (self.moment, self.shear))
        return "both over" if is_both else f"{self.verdict} over"

    @property
    def governs(self) -> str:
        """The effect that is the greater part of that of its design load."""
        moment, shear = (effect.has / effect.load for effect in (self.moment, self.shear))
        return "both" if moment == shear else "moment" if moment > shear else "end shear"


@dataclass(frozen=True)
class Judgement:
    """A whole report: of which command it is, the train of axles, and each span. Of a convoy, how many trucks there are
    and the gap."""

    command: str
    axles: Axles
    spans: Sequence[Judged]
    trucks: int = 1
    gap: int = 0


def rounded(value: Fraction, digits: int) -> str:
    """A number that is not below 0 with so many digits behind the point; a half is rounded up."""
    scaled = nearest(value * 10**digits)
    whole, behind = divmod(scaled, 10**digits)
    return f"{whole:,}.{behind:0{digits}}" if digits else f"{whole:,}"


def nearest(value: Fraction) -> int:
    return (2 * value.numerator + value.denominator) // (2 * value.denominator)


def kip_feet(moment: Fraction) -> str:
    return rounded(moment / 12_000, 1)


def kips(shear: Fraction) -> str:
    return rounded(shear / 1_000, 1)


def percent(part: Fraction | None) -> str:
    """A part in a hundred, never shown as a hundred where it is more or less."""
    if part is None:
        return "-"
    for digits in range(LEAST_DIGITS, MOST_DIGITS + 1):
        if (nearest(100 * part * 10**digits) == 100 * 10**digits) == (part == 1):
            return rounded(100 * part, digits)
    return "just over 100" if part > 1 else "just under 100"


def length(inches: int) -> str:
    """A length in inches, and in feet where it has some."""
    whole, rest = divmod(inches, 12)
    feet = f"{whole} ft {rest} in" if rest else f"{whole} ft"
    return f"{inches:,} in ({feet})" if whole else f"{inches} in"


def least_text(judged: Judged) -> str:
    """The least rating, or that there is none."""
    return f"{judged.least:,}" if judged.least <= MOST_RATING else f"over {MOST_RATING:,}"


def ratio(value: Fraction) -> str:
    """A fraction as the report has it; a whole number without its denominator."""
    return str(value.numerator) if value.denominator == 1 else f"{value.numerator}/{value.denominator}"


def table(judgement: Judgement) -> bytes:
    """The table as comma-separated text, with a row of headings; fractions come last."""
    made = io.StringIO(newline="")
    rows = csv.writer(made, lineterminator="\n")
    rows.writerow(HEAD)
    for number, it in enumerate(judgement.spans, 1):
        numbers = (kip_feet(it.moment.has), percent(it.moment.part(it.rating)), kips(it.shear.has))
        rows.writerow([
            number,
            it.inches,
            rounded(Fraction(it.inches, 12), 2),
            it.rating,
            *(text.replace(",", "") for text in (*numbers, percent(it.shear.part(it.rating)))),
            least_text(it).replace(",", ""),
            it.governs,
            it.verdict_text,
            it.moment.load_name,
            it.shear.load_name,
            ratio(it.moment.has),
            ratio(it.shear.has),
        ])
    return made.getvalue().encode()
