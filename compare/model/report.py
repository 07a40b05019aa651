"""What `check`, `design` and `convoy` write for a check file."""
from .bridges import Effects, closest, design, fit, greatest, peak_moment, peak_shear, ratio
from .files import CheckFile, Refused
from .limits import LEGAL_HEIGHT, LEGAL_WIDTH
from .trucks import Truck


def report(file: CheckFile) -> str:
    """The whole report."""
    truck = file.truck
    lines = [f"truck {truck.name} axles {len(truck.axles)} gross {truck.gross}"]
    broken = [f"over {it.first + 1}-{it.last + 1} {it.weight} {it.limit} {it.rule}" for it in truck.findings()]
    if truck.height > LEGAL_HEIGHT:
        broken.append(f"high {truck.height} {LEGAL_HEIGHT}")
    if truck.width > LEGAL_WIDTH:
        broken.append(f"wide {truck.width} {LEGAL_WIDTH}")
    lines += broken + ["legal no" if broken else "legal yes"]
    for asked in file.probes:
        lines += probe(truck, asked.inches, asked.rating)
    return "".join(f"{line}\n" for line in lines)


def probe(truck: Truck, span: int, rating: int) -> list[str]:
    """The five lines of a probe."""
    (moment, at), (shear, end), hs20 = truck.moment(span), truck.shear(span), design(span)
    place = f"{at.scale} {at.lead} {at.section} axle {at.axle + 1} run {at.first + 1}-{at.last + 1}"
    return [
        f"span {span}",
        f"moment {ratio(moment)} at {place}",
        f"shear {ratio(shear)} at {end.lead} {end.side}",
        f"hs20 {ratio(hs20.moment)} {ratio(hs20.shear)}",
        f"rating {rating} {fit(truck.effects(span), hs20, rating)}",
    ]


def design_report(file: CheckFile) -> str:
    """What `design` writes: four lines a probe."""
    lines = []
    for asked in file.probes:
        moment, shear = greatest(asked.inches)
        loads = Effects(moment.effect, shear.effect)
        lines += [
            f"span {asked.inches}",
            f"moment {ratio(moment.effect)} {moment.load}",
            f"shear {ratio(shear.effect)} {shear.load}",
            f"rating {asked.rating} {fit(file.truck.effects(asked.inches), loads, asked.rating)}",
        ]
    return "".join(f"{line}\n" for line in lines)


def convoy_report(file: CheckFile, trucks: int, gap: int) -> str:
    """What `convoy` writes: one line, and four lines a probe. Of all convoys the closest is the worst."""
    axles, gross = trucks * len(file.truck.axles), trucks * file.truck.gross
    length = trucks * file.truck.axles[-1][0] + (trucks - 1) * gap
    for number, is_over in enumerate((axles > 32, length > 3000, gross > 2000000), 1):
        if is_over:
            raise Refused(5, f"convoy {number}")
    together = closest(file.truck.axles, trucks, gap)
    lines = [f"convoy {trucks} gap {gap} axles {axles} gross {gross}"]
    for asked in file.probes:
        span = asked.inches
        effects = Effects(peak_moment(together, span)[0], peak_shear(together, span)[0])
        lines += [
            f"span {span}",
            f"moment {ratio(effects.moment)}",
            f"shear {ratio(effects.shear)}",
            f"rating {asked.rating} {fit(effects, design(span), asked.rating)}",
        ]
    return "".join(f"{line}\n" for line in lines)
