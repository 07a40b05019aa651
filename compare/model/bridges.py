"""Trucks on a simple span: influence lines, peak moments, peak end shears, and the HS20-44 design truck.

A load off the span does nothing; one exactly on a support counts as on it. While the same axles are on the span, the
moment under one axle is a parabola in the place of the train. It is greatest where that axle and the centre of weight
of those on the span lie on both sides of the middle, as far from it. An axle that comes on or goes off does so at a
support, where it adds nothing, and adds more on the span than off it. So no peak lies where the axles on the span
change, unless at such a vertex. All vertices of all axles and all runs are tried here, each with the moment of all
axles that are on the span there.
"""
import functools
import math
from bisect import bisect_left, bisect_right
from collections.abc import Iterator
from fractions import Fraction
from typing import NamedTuple

from .limits import Axles


class Vertex(NamedTuple):
    """An axle, a run from its first to its last axle, and the place: lead and section in 1/scale inches."""

    axle: int
    first: int
    last: int
    scale: int
    lead: int
    section: int


class End(NamedTuple):
    """Where an end shear is taken: the first axle at the lead, at the left or the right support."""

    lead: int
    side: str


class Effects(NamedTuple):
    """The peak moment and the peak end shear of a truck on a span."""

    moment: Fraction
    shear: Fraction


HS20 = ((0, 8000), (168, 32000), (336, 32000))
MILITARY = ((0, 24000), (48, 24000))


class Governing(NamedTuple):
    """An effect, and the name of the design load that it is of."""

    effect: Fraction
    load: str


def moment(axles: Axles, span: int, scale: int, lead: int, section: int) -> Fraction:
    """The moment at a section with the first axle at the lead, both in 1/scale inches from the left support."""
    end, total = scale * span, 0
    for place, weight in axles:
        at = lead + scale * place
        if 0 <= at <= end:
            total += weight * min(at, section) * (end - max(at, section))
    return Fraction(total, scale * end)


def vertices(axles: Axles, span: int) -> Iterator[Vertex]:
    """Each vertex whose section is on the span, by its axle, and then by the first and the last axle of the run."""
    for axle, (place, _) in enumerate(axles):
        for first in range(len(axles)):
            weight = turn = 0
            for last in range(first, len(axles)):
                weight += axles[last][1]
                turn += axles[last][1] * axles[last][0]
                lead = weight * (span - place) - turn
                section = weight * (span + place) - turn
                if 0 <= section <= 2 * weight * span:
                    yield Vertex(axle, first, last, 2 * weight, lead, section)


def peak_moment(axles: Axles, span: int) -> tuple[Fraction, Vertex]:
    """The peak moment, and the first vertex that reaches it, its scale, lead and section as small as they go."""
    places = [place for place, _ in axles]
    weights, turns = [0], [0]
    for place, weight in axles:
        weights.append(weights[-1] + weight)
        turns.append(turns[-1] + weight * place)
    # an axle at the middle of the span alone is a vertex, so there is one
    most, scaled, where = -1, 1, Vertex(0, 0, 0, 1, 0, 0)
    for vertex in vertices(axles, span):
        axle, _, _, scale, lead, section = vertex
        end = scale * span
        low = bisect_left(places, -(lead // scale))
        high = bisect_right(places, (end - lead) // scale)
        left = lead * (weights[axle + 1] - weights[low]) + scale * (turns[axle + 1] - turns[low])
        right = (end - lead) * (weights[high] - weights[axle + 1]) - scale * (turns[high] - turns[axle + 1])
        total = left * (end - section) + right * section
        if total * scaled > most * scale * scale:
            most, scaled, where = total, scale * scale, vertex
    common = math.gcd(where.scale, where.lead, where.section)
    reduced = (where.scale // common, where.lead // common, where.section // common)
    return Fraction(most, scaled * span), Vertex(where.axle, where.first, where.last, *reduced)


def peak_shear(axles: Axles, span: int) -> tuple[Fraction, End]:
    """The peak end shear, and where it is reached first: the left support comes first, then the order of axles."""
    most, where = Fraction(-1), End(0, "left")
    for side in ("left", "right"):
        for at, _ in axles:
            lead = -at if side == "left" else span - at
            on = [(lead + place, weight) for place, weight in axles if 0 <= lead + place <= span]
            total = Fraction(sum(weight * (span - x if side == "left" else x) for x, weight in on), span)
            if total > most:
                most, where = total, End(lead, side)
    return most, where


def closest(axles: Axles, trucks: int, gap: int) -> Axles:
    """So many equal trucks that follow each other with exactly this gap, as one truck."""
    spacing = axles[-1][0] + gap
    return [(truck * spacing + place, weight) for truck in range(trucks) for place, weight in axles]


@functools.lru_cache(maxsize=None)
def design(span: int) -> Effects:
    """The peaks of HS20-44. Of its second spacings, from 14 to 30 ft, the least is the worst."""
    return Effects(peak_moment(HS20, span)[0], peak_shear(HS20, span)[0])


@functools.lru_cache(maxsize=None)
def lane(span: int) -> Effects:
    """The peaks of the lane load, 640 lb per ft and one concentrated load.

    No influence line of a simple span is below 0 anywhere, so the whole span is loaded, and the concentrated load
    stands at the top of the line: L/4 at midspan, 1 at a support. The line is a triangle: its area is half its top
    times L.
    """
    per_inch, midspan, support = Fraction(640, 12), Fraction(span, 4), Fraction(1)
    return Effects(*(per_inch * top * span / 2 + load * top for top, load in ((midspan, 18000), (support, 26000))))


@functools.lru_cache(maxsize=None)
def greatest(span: int) -> tuple[Governing, Governing]:
    """The greatest moment and shear of the three design loads, each with the first load that reaches it."""
    military = Effects(peak_moment(MILITARY, span)[0], peak_shear(MILITARY, span)[0])
    loads = (("truck", design(span)), ("lane", lane(span)), ("military", military))
    moments = [Governing(effects.moment, name) for name, effects in loads]
    shears = [Governing(effects.shear, name) for name, effects in loads]
    # the first of those with the greatest effect
    return max(moments, key=lambda it: it.effect), max(shears, key=lambda it: it.effect)


def fit(effects: Effects, loads: Effects, rating: int) -> str:
    """The first effect that is over so many thousandths of that of a design load, or `fits`."""
    for word, has, most in zip(("moment", "shear"), effects, loads):
        if 1000 * has > rating * most:
            return word
    return "fits"


def ratio(fraction: Fraction) -> str:
    """A fraction in lowest terms, as the report and the journal write it."""
    return f"{fraction.numerator}/{fraction.denominator}"
