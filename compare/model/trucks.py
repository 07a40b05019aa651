"""A truck: what it is, whether its axles keep the rules of trains, and what is found of it once."""
from dataclasses import dataclass, field
from fractions import Fraction
from functools import cached_property

from .bridges import Effects, End, Vertex, peak_moment, peak_shear
from .limits import GROSS, LEGAL_HEIGHT, LEGAL_WIDTH, Axles, Group, findings, heaviest_tridem, worst

MOST_PLACE, MOST_WEIGHT, MOST_GROSS = 3000, 200000, 2000000


def broken_rule(axles: Axles) -> int | None:
    """The number of the first rule of trains that some axles break, or None."""
    places, weights = [place for place, _ in axles], [weight for _, weight in axles]
    if len(axles) < 2:
        return 1
    if len(axles) > 32:
        return 2
    if places[0] != 0 or any(a >= b for a, b in zip(places, places[1:])):
        return 3
    if not all(1 <= weight <= MOST_WEIGHT for weight in weights):
        return 4
    if sum(weights) > MOST_GROSS:
        return 5
    if places[-1] > MOST_PLACE:
        return 6
    return None


@dataclass(eq=False)
class Truck:
    """A truck with its sizes in inches and its axles. What is found of it is kept, since many ask for the same."""

    name: str
    carrier: str
    height: int
    width: int
    length: int
    axles: Axles
    moments: dict[int, tuple[Fraction, Vertex]] = field(default_factory=dict, init=False, repr=False)
    shears: dict[int, tuple[Fraction, End]] = field(default_factory=dict, init=False, repr=False)

    @cached_property
    def gross(self) -> int:
        """The weight of all axles."""
        return sum(weight for _, weight in self.axles)

    @cached_property
    def worst(self) -> Group:
        """The worst group."""
        return worst(self.axles)

    @cached_property
    def heaviest_tridem(self) -> Group | None:
        """The heaviest tridem group, if there is one."""
        return heaviest_tridem(self.axles)

    def is_legal(self) -> bool:
        """Whether it needs no permit: each group, the gross weight, the width and the height are within limits."""
        is_light = self.worst.weight <= self.worst.limit and self.gross <= GROSS
        return is_light and self.width <= LEGAL_WIDTH and self.height <= LEGAL_HEIGHT

    def findings(self) -> list[Group]:
        """What is over a weight limit."""
        return findings(self.axles)

    def moment(self, span: int) -> tuple[Fraction, Vertex]:
        """The peak moment with its place."""
        if span not in self.moments:
            self.moments[span] = peak_moment(self.axles, span)
        return self.moments[span]

    def shear(self, span: int) -> tuple[Fraction, End]:
        """The peak end shear with its place."""
        if span not in self.shears:
            self.shears[span] = peak_shear(self.axles, span)
        return self.shears[span]

    def effects(self, span: int) -> Effects:
        """Both peaks, without their places."""
        return Effects(self.moment(span)[0], self.shear(span)[0])
