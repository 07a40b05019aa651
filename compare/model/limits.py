"""The federal weight limits of axle groups, 23 CFR 658.17 with the words of 658.5.

A group is a run of axles next to each other; a single axle is one too. Its spread is the distance in whole inches from
its first axle to its last.
"""
from collections.abc import Sequence
from typing import NamedTuple

# the place in inches and the weight in pounds of each axle
Axles = Sequence[tuple[int, int]]

SINGLE, TANDEM, GROSS = 20000, 34000, 80000
SINGLE_SPREAD, TANDEM_SPREAD = 40, 96
TWO_TANDEM, TWO_TANDEM_SPREAD = 68000, 432
TRIDEM_SPREAD = 144
LEGAL_WIDTH, LEGAL_HEIGHT = 102, 162


class Group(NamedTuple):
    """A group from its first to its last axle, counted from 0, with its weight, its limit and the limit's rule."""

    first: int
    last: int
    weight: int
    limit: int
    rule: str


def formula(spread: int, count: int) -> int:
    """W = 500 (L N / (N - 1) + 12 N + 36), L in feet, to the nearest 500 lb; of two that are as near, the lesser."""
    over, base = spread * count, 12 * (count - 1)
    nearest = (2 * over - base + 2 * base - 1) // (2 * base)
    return 500 * (nearest + 12 * count + 36)


def is_tandem(axles: Axles) -> bool:
    """Whether the spread of a group is that of a tandem."""
    return SINGLE_SPREAD < axles[-1][0] - axles[0][0] <= TANDEM_SPREAD


def group_limit(axles: Axles) -> tuple[int, str]:
    """The limit of a group, and the rule that gives it. The exception for two tandems counts where it gives more."""
    spread = axles[-1][0] - axles[0][0]
    if spread <= SINGLE_SPREAD:
        return SINGLE, "single"
    if spread <= TANDEM_SPREAD:
        return TANDEM, "tandem"
    limit = formula(spread, len(axles))
    two_tandems = len(axles) == 4 and is_tandem(axles[:2]) and is_tandem(axles[2:]) and spread >= TWO_TANDEM_SPREAD
    if two_tandems and limit < TWO_TANDEM:
        return TWO_TANDEM, "two-tandem"
    return limit, "formula"


def groups(axles: Axles) -> list[Group]:
    """All groups, by first and then by last axle."""
    return [Group(i, j, sum(weight for _, weight in axles[i:j + 1]), *group_limit(axles[i:j + 1]))
            for i in range(len(axles)) for j in range(i, len(axles))]


def findings(axles: Axles) -> list[Group]:
    """The groups over their limits, and then the gross weight over its own."""
    found = [group for group in groups(axles) if group.weight > group.limit]
    gross = sum(weight for _, weight in axles)
    if gross > GROSS:
        found.append(Group(0, len(axles) - 1, gross, GROSS, "gross"))
    return found


def worst(axles: Axles) -> Group:
    """The group whose weight is the greatest part of its limit; the first of those that are equal in this."""
    greatest, *others = groups(axles)
    for group in others:
        if group.weight * greatest.limit > greatest.weight * group.limit:
            greatest = group
    return greatest


def heaviest_tridem(axles: Axles) -> Group | None:
    """The heaviest group of exactly three axles that are over 96 and at most 144 in apart; the first of equal ones."""
    tridems = [group for group in groups(axles) if group.last - group.first == 2
               and TANDEM_SPREAD < axles[group.last][0] - axles[group.first][0] <= TRIDEM_SPREAD]
    heaviest = max(tridems, key=lambda group: group.weight, default=None)
    return heaviest
