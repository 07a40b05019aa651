"""Trucks: ordinary ones, regular ones whose vertices coincide, and trucks at the limits of the rules."""
from collections.abc import Iterable, Sequence
from random import Random

from model.bridges import Effects, design
from model.limits import group_limit

# the place and the weight of each axle
Pairs = list[tuple[int, int]]
GAPS = (1, 39, 40, 41, 48, 54, 95, 96, 97, 108, 168, 192, 360, 432)
WEIGHTS = (1, 2, 8000, 12000, 17000, 20000, 20001, 32000, 34000, 199999, 200000)


def axles(rng: Random) -> Pairs:
    """Places and weights of a train, within the bounds of trains."""
    pairs = rng.choice(WAYS)(rng)
    while pairs[-1][0] > 3000 or sum(weight for _, weight in pairs) > 2000000:
        pairs = pairs[:-1]
    return pairs if len(pairs) > 1 else [(0, 12000), (180, 20000)]


def placed(gaps: Iterable[int], weights: Iterable[int]) -> Pairs:
    """A train of the distances from axle to axle, and one weight more."""
    places = [0]
    for gap in gaps:
        places.append(places[-1] + gap)
    return list(zip(places, weights))


def ordinary(rng: Random) -> Pairs:
    """As trucks are."""
    count = rng.randint(2, 9)
    return placed([rng.randint(30, 400) for _ in range(count - 1)], [rng.randint(5000, 40000) for _ in range(count)])


def regular(rng: Random) -> Pairs:
    """Equal weights at equal distances: many runs have one centre, and many vertices reach the peak."""
    count = rng.randint(2, 12)
    return placed([rng.choice(GAPS)] * (count - 1), [rng.choice(WEIGHTS[:-2])] * count)


def mirrored(rng: Random) -> Pairs:
    """The same from both ends, so that peaks come in pairs."""
    half = rng.randint(1, 5)
    gaps = [rng.choice(GAPS) for _ in range(half)]
    weights = [rng.choice(WEIGHTS) for _ in range(half)]
    if rng.random() < 0.5:
        return placed(gaps + gaps[::-1], weights + [rng.choice(WEIGHTS)] + weights[::-1])
    return placed(gaps + gaps[-2::-1], weights + weights[::-1])


def near_limits(rng: Random) -> Pairs:
    """Each axle so heavy that a group that ends with it stands at its limit or a pound beside it."""
    count = rng.randint(2, 7)
    pairs = placed([rng.choice(GAPS + (rng.randint(30, 300),)) for _ in range(count - 1)], [12000] * count)
    for j in range(count):
        i = rng.randint(0, j)
        before = sum(weight for _, weight in pairs[i:j])
        weight = group_limit(pairs[i:j + 1])[0] - before + rng.choice((-1, 0, 0, 0, 1))
        pairs[j] = (pairs[j][0], min(max(1, weight), 200000))
    return pairs


def two_tandems(rng: Random) -> Pairs:
    """Four axles about the exception for two tandems, perhaps behind a steering axle."""
    front, rear = rng.choice((40, 41, 48, 96, 97)), rng.choice((40, 41, 48, 96, 97))
    spread = rng.choice((431, 432, 433, 455, 456, 467, 468, 480, rng.randint(300, 600)))
    pairs = [(0, 17000), (front, 17000), (spread - rear, 17000), (spread, 17000 + rng.choice((-1, 0, 1, 1)))]
    if rng.random() < 0.5:
        return [(0, rng.randint(1, 12001))] + [(place + 180, weight) for place, weight in pairs]
    return pairs


def scaled_design(rng: Random) -> Pairs:
    """The HS20-44 truck with its weights multiplied, so that a rating can be met exactly; or turned round."""
    times = rng.choice((1, 1, 2, 3)) * rng.choice((125, 250, 1000))
    weights = [8 * times, 32 * times, 32 * times]
    if rng.random() < 0.3:
        weights.reverse()
    return placed([168, 168], weights)


def light(rng: Random) -> Pairs:
    """A train about the limits of a legal one, in the weights of its axles and in its gross weight."""
    pairs = two_tandems(rng) if rng.random() < 0.5 else near_limits(rng)
    excess = max(0, sum(weight for _, weight in pairs) - 80000 - rng.choice((0, 0, 1)))
    lightest = [(place, min(weight, 20000)) for place, weight in pairs]
    return [(place, max(1, weight - -(-excess // len(pairs)))) for place, weight in lightest]


def eighty(rng: Random) -> Pairs:
    """A gross weight of 80,000 lb or a pound beside it, on axles that are light enough for it."""
    count, gross = rng.randint(5, 8), rng.choice((79999, 80000, 80000, 80001))
    weights = [gross // count + (i < gross % count) for i in range(count)]
    return placed([rng.randint(100, 250) for _ in range(count - 1)], weights)


def long(rng: Random) -> Pairs:
    """Up to 32 axles, up to 3,000 in."""
    count = rng.choice((31, 32, 32, rng.randint(10, 32)))
    most = 3000 // (count - 1)
    pairs = placed([rng.randint(1, most) for _ in range(count - 1)], [rng.randint(1, 62500) for _ in range(count)])
    return pairs[:-1] + [(3000, pairs[-1][1])] if rng.random() < 0.5 else pairs


def heavy(rng: Random) -> Pairs:
    """As heavy as trains may be."""
    return placed([rng.choice((1, 40, 300))] * 9, [200000] * 10)


WAYS = (
    ordinary, ordinary, regular, mirrored, near_limits, near_limits, two_tandems, scaled_design, light, eighty, long,
    heavy,
)


def sizes(rng: Random) -> tuple[int, int, int]:
    """Height, width and length: legal ones half of the time."""
    if rng.random() < 0.5:
        return rng.randint(150, 162), rng.randint(90, 102), 720
    height = rng.choice((1, 161, 162, 163, 168, rng.randint(100, 200), 999))
    width = rng.choice((1, 96, 101, 102, 103, rng.randint(90, 200), 999))
    return height, width, rng.choice((1, 720, rng.randint(300, 2000), 9999))


def text(pairs: Pairs) -> str:
    """The axles as a field has them."""
    return " ".join(f"{place}:{weight}" for place, weight in pairs)


def span(rng: Random, pairs: Sequence[tuple[int, int]]) -> int:
    """The length of a span: also one on which axles stand exactly on both supports."""
    gap = abs(rng.choice(pairs)[0] - rng.choice(pairs)[0])
    lengths = (1, 2, 240, 360, 1200, 6000, rng.randint(1, 6000), rng.randint(100, 1500))
    return rng.choice((*lengths, max(1, gap), max(1, gap - 1), gap + 1))


def rating(rng: Random, effects: Effects, inches: int) -> int:
    """A rating at which an effect just fits, or one beside it, or any."""
    effect = rng.randrange(2)
    exact = 1000 * effects[effect] / design(inches)[effect]
    near = -(-exact.numerator // exact.denominator) + rng.choice((-1, 0, 0, 1))
    return rng.choice((min(max(0, near), 100000), min(max(0, near), 100000), rng.randint(0, 3000), 0, 100000))
