"""What is only drawn of a truck on a simple span, in exact fractions: influence lines, and the envelope of the moment.

The lane load of the design loads covers the whole span, since no influence line of a simple span is below 0 anywhere,
and its concentrated load stands at the section.

The moment at a section, over all places of a truck, is greatest with some axle at the section: as a function of the
place it is a chain of straight lines, and it bends downward only where an axle passes the section. So the envelope at
a section is the greatest of as many moments as the truck has axles. Of HS20-44 the second spacing of 14 ft is the
worst at each section: with more, the third axle can be moved towards the section, or the two others can, so that no
axle is farther from it.
"""
from fractions import Fraction

from model.bridges import HS20, MILITARY, moment
from model.limits import Axles

DIVISIONS = 48
Points = list[tuple[Fraction, Fraction]]


def influence(inches: int, section: Fraction, at: Fraction) -> Fraction:
    """The moment at a section of a pound at a place, in inches; 0 off the span."""
    if not 0 <= at <= inches:
        return Fraction(0)
    return min(at, section) * (inches - max(at, section)) / inches


def moment_at(axles: Axles, inches: int, lead: Fraction, section: Fraction) -> Fraction:
    """The moment at a section with the first axle at the lead."""
    scale = lead.denominator * section.denominator
    return moment(axles, inches, scale, int(lead * scale), int(section * scale))


def greatest_at(axles: Axles, inches: int, section: Fraction) -> Fraction:
    """The greatest moment at a section, over all places of the truck in the one direction in which it is written."""
    return max(moment_at(axles, inches, section - place, section) for place, _ in axles)


def sections(inches: int, governing: Fraction) -> list[Fraction]:
    """The sections at which an envelope is drawn, the governing one and its mirror image among them."""
    places = {Fraction(inches * at, DIVISIONS) for at in range(DIVISIONS + 1)}
    return sorted(places | {governing, inches - governing})


def envelope(axles: Axles, inches: int, places: list[Fraction]) -> Points:
    """The envelope of the moment at some sections that lie alike from both supports, the truck either way round."""
    one_way = {place: greatest_at(axles, inches, place) for place in places}
    return [(place, max(one_way[place], one_way[inches - place])) for place in places]


def reaction(inches: int, section: Fraction, at: Fraction) -> Fraction:
    """The reaction of a support of a pound at a place; 0 off the span. The section is the support's place."""
    if not 0 <= at <= inches:
        return Fraction(0)
    return 1 - abs(at - section) / inches


def lane_moment(inches: int, section: Fraction) -> Fraction:
    """The moment of the lane load at a section: 640 lb per ft on the whole span, and 18,000 lb at the section."""
    return section * (inches - section) * (Fraction(640, 12) / 2 + Fraction(18_000, inches))


def design_envelope(inches: int, places: list[Fraction], rating: int, all_loads: bool = False) -> Points:
    """The same of HS20-44, or the greatest of all three design loads, times a rating in thousandths."""
    loads = [envelope(HS20, inches, places)]
    if all_loads:
        loads += [envelope(MILITARY, inches, places), [(place, lane_moment(inches, place)) for place in places]]
    return [(place, max(points[at][1] for points in loads) * rating / 1000) for at, place in enumerate(places)]
