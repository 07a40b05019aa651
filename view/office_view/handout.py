"""A page for one carrier, or of one permit, to be sent or printed: nothing of anybody else stands in it.

It has what is decided and why, the truck, the route road by road, the days, what to do next, and what was answered
later. It is text alone and runs no script.
"""
import math
import string
from collections import Counter
from collections.abc import Iterable
from fractions import Fraction
from typing import NamedTuple

from model.bridges import design

from . import VERSION
from .auditing import Audited
from .command import USAGE, Fault
from .journal import Limit, Routes
from .markup import Source, audited_text, cells, part, plural, policy, safe, sources_text, table
from .page import ANSWERS, STATES, days
from .reckoning import MOST_WORK
from .replay import EXPIRED, IN_FORCE, RECALLED, Answer, Permit, Posting, Replay
from .wording import EFFECT_UNITS, EFFECTS, LIMIT_NAMES, NO_LIMIT, OPEN, STATUS
from .wording import Words, axles_text, percent, value_text, verdict

FEET_A_MILE = 5280
# longer routes have a line for each road, and the verdict in full of one bridge alone; so many later answers are told
MOST_ROADS, MOST_LATER = 12, 4
Item = Permit | Answer


def handout(
    made: Replay, sources: list[Source], audited: Audited | None, carrier: str | None, permit: int | None
) -> str:
    """The page of a carrier, or else of a permit; a fault where there is none."""
    if permit is not None:
        if not 1 <= permit <= len(made.permits):
            raise Fault(USAGE, f"there is no permit {permit}: the journal has {plural(len(made.permits), 'permit')}")
        return OfPermit(made, sources, audited, made.permits[permit - 1]).markup()
    items = [it for it in in_order(made) if made.file.trucks[it.trip.truck].carrier == carrier]
    if not items:
        raise Fault(USAGE, f"no carrier {carrier} has an answer in this journal: capitals count")
    return OfCarrier(made, sources, audited, items, carrier or "").markup()


def in_order(made: Replay) -> list[Item]:
    """Permits and other answers, in the order of the journal."""
    items: list[Item] = [*made.permits, *made.answers]
    return sorted(items, key=lambda it: it.line)


def name_of(item: Item) -> str:
    return f"{'Permit' if isinstance(item, Permit) else 'Answer'} {item.number}"


def state_of(item: Item) -> str:
    return STATUS[item.status] if isinstance(item, Permit) else ANSWERS[item.reply]


def routes_of(item: Item) -> Routes:
    return item.routes if isinstance(item, Permit) else item.trip.asked


def sentence(text: str) -> str:
    return f"{text[0].upper()}{text[1:]}."


def miles(feet: int) -> str:
    return f"{feet:,} ft, {feet / FEET_A_MILE:,.1f} miles"


class Effect(NamedTuple):
    """What a truck does to a span, and what the span carries."""

    truck: int
    span: int
    what: str
    has: Fraction
    most: Fraction


class Handout:
    """What both pages have. `version` is that at which limits and ratings are shown."""

    def __init__(self, made: Replay, sources: list[Source], audited: Audited | None, version: int) -> None:
        self.made, self.sources, self.audited, self.version = made, sources, audited, version
        self.file, self.words = made.file, Words(made.file)
        self.values, self.ratings = posted_at(made, version)
        # a journal may have used up the work that it may take
        self.reckoned = made.reckoning.left_out_text()
        made.reckoning.work = MOST_WORK

    def filled(self, title: str, summary: str, parts: Iterable[str]) -> str:
        """The page with its parts."""
        style = part("page.css") + part("handout.css")
        return string.Template(part("handout.html")).substitute(
            policy=safe(policy(style)),
            style=style,
            title=safe(title),
            summary=safe(summary),
            audited=audited_text(self.audited),
            parts="\n".join(parts),
            reckoned=safe(self.reckoned),
            sources=sources_text(self.sources),
            made_by=safe(VERSION),
        )

    def why(self, item: Item) -> str:
        """Why it was answered so, and where a permit is recalled, by which posting."""
        if isinstance(item, Answer):
            return self.words.answer(item)
        if item.status == RECALLED:
            posting: Posting = self.made.postings[item.posting - 1]
            why = self.words.why(item)
            said = f"By posting {posting.version}: {self.words.posting(posting)}."
            return f"{said} {sentence(why)}" if why else said
        if item.status == EXPIRED:
            return f"Its last day is before the office's day, {self.made.day}."
        met = f"The truck met every limit of its way, by what was posted at version {item.version}"
        return f"{met}, and no later posting stops it." if item.status == IN_FORCE else "It was given back."

    def next_step(self, item: Item) -> str:
        """What to do next."""
        if isinstance(item, Answer):
            return self.next_of_answer(item)
        if item.status == IN_FORCE:
            return (
                f"Drive from {item.trip.first} to {item.trip.last}, with this truck as it is written here, on these "
                "roads and in this direction. A posting may still recall the permit: ask before each trip."
            )
        if item.status == RECALLED:
            return f"Do not drive on this permit. {self.another_way(item.limit, item.routes)}"
        if item.status == EXPIRED:
            return "Do not drive on this permit. Ask again for new days."
        return "Do not drive on this permit. Ask again to drive."

    def next_of_answer(self, answer: Answer) -> str:
        if answer.reply == "refused":
            return "Do not drive. " + self.another_way(answer.limit, answer.trip.asked)
        if answer.reply == "noroad":
            return "Do not drive. Ask for another place: the office has no roads that lead there."
        if answer.reply == "late":
            return f"Ask again with a first day that is {answer.day} or later."
        return "No permit is needed. The office did not ask whether a posted limit stops the truck."

    def another_way(self, limit: Limit | None, routes: Routes) -> str:
        """How an application might go better."""
        ways = []
        if routes and limit is not None:
            ways.append(f"ask again without {self.words.segments[limit.segment]}, or with no route")
        elif routes:
            ways.append("ask again with no route, so that the office looks for one")
        if limit is not None and limit.what != "closed":
            ways.append(self.lighter(limit))
        ways.append("wait for a new posting")
        others = " Other limits may fail then." if limit is not None else ""
        return sentence("; or ".join(ways)) + others

    def lighter(self, limit: Limit) -> str:
        """What has to change about the truck, so that it keeps this limit."""
        over = math.ceil(limit.has - limit.carried)
        if limit.span >= 0:
            return f"ask with less weight or a longer truck, whose {EFFECTS[limit.what]} on the bridge is less"
        if limit.group != (0, 0) or limit.what == "group":
            verb = axles_text(*limit.group).rsplit(" ", 1)[0]
            return f"take at least {over:,} lb off {verb}"
        if limit.what == "gross":
            return f"take at least {over:,} lb off the truck"
        return f"bring the {LIMIT_NAMES[limit.what]} down by at least {over:,} in"

    def trucks(self, numbers: Iterable[int]) -> str:
        """Trucks with their sizes and axles."""
        rows = []
        for number in numbers:
            truck = self.file.trucks[number]
            places = [place for place, _ in truck.axles]
            apart = [behind - before for before, behind in zip(places, places[1:])]
            gaps = [""] + [f" ({inches} in behind the one before)" for inches in apart]
            axles = "; ".join(
                f'<span class="whole">{at}: {weight:,} lb at {place:,} in</span>{gap}'
                for at, ((place, weight), gap) in enumerate(zip(truck.axles, gaps), 1)
            )
            sizes = (("height", truck.height), ("width", truck.width), ("length", truck.length))
            row = [("Truck", safe(truck.name))] + [(what.capitalize(), f"{value:,} in") for what, value in sizes]
            row += [("Gross weight", f"{truck.gross:,} lb"), ("Axles, from the front", axles)]
            rows.append(f'<tr role="row">{cells(row)}</tr>\n')
        heads = ("Truck", "Height", "Width", "Length", "Gross weight", "Axles, from the front")
        return "<h2>Truck</h2>" + table("trucks", "As the day file describes it", heads, rows)

    def limits_text(self, segment: int) -> str:
        """What holds on a segment, without its bridges."""
        values = self.values[segment]
        if values["closed"]:
            return "closed"
        names = {**LIMIT_NAMES, "gross": "gross weight"}
        texts = [
            f"{names[what]} {value_text(what, value)}"
            for what, value in values.items()
            if what != "closed" and value != OPEN[what]
        ]
        return "; ".join(texts) or NO_LIMIT

    def bridges_text(self, segment: int, trucks: list[int], short: bool) -> str:
        """The bridges on a segment, and what each truck does to each."""
        found = []
        for span in self.made.reckoning.spans_of[segment]:
            inches, rating = self.file.spans[span].inches, value_text("rating", self.ratings[span])
            named = safe(f"{self.words.spans[span]}, {inches:,} in, rating {rating}")
            effects = [it for truck in trucks for it in self.effects(truck, span)]
            if not effects:
                found.append(f"<div>{named}: what trucks do to it was not worked out</div>")
            elif short:
                parts = ", ".join(f"{EFFECTS[it.what]} {percent(it.has, it.most)}" for it in effects if it.most)
                found.append(f"<div>{named}{safe(f': {parts} of what it carries' if parts else '')}</div>")
            else:
                found.append(f"{named}<ul>{''.join(f'<li>{safe(self.effect_text(it))}</li>' for it in effects)}</ul>")
        return "".join(found) or "none"

    def effects(self, truck: int, span: int) -> list[Effect]:
        """The moment and the end shear of a truck on a span, and what the span carries."""
        inches = self.file.spans[span].inches
        effects = self.made.reckoning.effects(truck, inches)
        if effects is None:
            return []
        both = zip(("moment", "shear"), effects, design(inches))
        return [Effect(truck, span, what, has, most * self.ratings[span] / 1000) for what, has, most in both]

    def effect_text(self, it: Effect) -> str:
        judged = verdict(it.has, it.most, EFFECT_UNITS[it.what], "carried")
        return f"{EFFECTS[it.what]} of {self.file.trucks[it.truck].name}: {judged}"

    def closest(self, segments: Iterable[int], truck: int) -> str:
        """The bridge of a route that is the nearest to what it carries, in full."""
        spans = [span for segment in segments for span in self.made.reckoning.spans_of[segment]]
        effects = [it for span in spans for it in self.effects(truck, span)]
        if not effects:
            return ""
        it = max(effects, key=lambda it: it.has / it.most if it.most else it.has * 10**9)
        text = f"The nearest to its limit is bridge {self.words.spans[it.span]}: {self.effect_text(it)}."
        return f"<p>{safe(text)}</p>"

    def road_row(self, segment: int, at: str, trucks: list[int], short: bool) -> str:
        start, end, feet = self.file.segments[segment]
        ends = " to ".join(f'<span class="whole">{safe(self.words.nodes[node])}</span>' for node in (start, end))
        row = (
            ("Road", f'<span class="whole">{safe(at)}{safe(self.words.segments[segment])}</span>'),
            ("From and to", ends),
            ("Feet", f'<span class="whole">{feet:,} ft</span>'),
            ("Limits", safe(self.limits_text(segment))),
            ("Bridges", self.bridges_text(segment, trucks, short)),
        )
        return f'<tr role="row">{cells(row)}</tr>\n'

    def roads(self, name: str, caption: str, rows: list[str]) -> str:
        return table(name, caption, ("Road", "From and to", "Feet", "Limits", "Bridges"), rows)


class OfPermit(Handout):
    """The page of one permit."""

    def __init__(self, made: Replay, sources: list[Source], audited: Audited | None, permit: Permit) -> None:
        self.permit = permit
        self.carrier = made.file.trucks[permit.trip.truck].carrier
        at = {IN_FORCE: made.version, RECALLED: permit.posting}.get(permit.status, permit.version)
        super().__init__(made, sources, audited, at)

    def markup(self) -> str:
        permit, truck = self.permit, self.file.trucks[self.permit.trip.truck]
        title = f"Permit {permit.number}: {self.carrier} {truck.name}"
        summary = f"{self.words.trip(permit.trip)}, {permit.trip.first} to {permit.trip.last}."
        routes = map(self.route, range(len(permit.routes)))
        return self.filled(
            title, summary, (self.decision(), *routes, self.trucks([permit.trip.truck]), self.later())
        )

    def decision(self) -> str:
        """What is decided, why, for which days, and what to do next."""
        permit = self.permit
        issued = f"at version {permit.version}, by {self.words.actors[permit.caller]}"
        stands = f'<span class="state">{safe(STATUS[permit.status])}.</span> So it stands on {safe(self.made.day)}'
        facts = (
            ("How it stands", f"{stands}, the office's day"),
            ("Why", safe(self.why(permit))),
            ("Days", f"{days(permit.trip)}, both among them"),
            ("What to do next", safe(self.next_step(permit))),
            ("Issued", safe(issued)),
        )
        items = "".join(f"<dt>{safe(what)}</dt><dd>{markup}</dd>" for what, markup in facts)
        return f'<h2>What is decided</h2><dl class="{STATES[permit.status]}">{items}</dl>'

    def route(self, number: int) -> str:
        """A route, road by road."""
        route, count = self.permit.routes[number], len(self.permit.routes)
        feet = sum(self.file.segments[segment].feet for segment in route)
        head = f"Route {number + 1} of {count}" if count > 1 else "Route"
        caption = f"{plural(len(route), 'road')}, {miles(feet)}; limits and ratings as posted at version {self.version}"
        truck, short = self.permit.trip.truck, sum(map(len, self.permit.routes)) > MOST_ROADS
        rows = [self.road_row(it, f"{at}. ", [truck], short) for at, it in enumerate(route, 1)]
        roads = self.roads(f"route-{number + 1}", caption, rows)
        if not short:
            return f"<h2>{head}</h2>{roads}"
        return f'<h2>{head}</h2>{self.closest(route, truck)}<div class="short">{roads}</div>'

    def later(self) -> str:
        """What was answered later to the same truck."""
        truck = self.permit.trip.truck
        items = [it for it in in_order(self.made) if it.trip.truck == truck and it.line > self.permit.line]
        counts = Counter(state_of(it).lower() for it in items)
        said = ", ".join(f"{count} {state}" for state, count in counts.items()) or "none"
        some = f"; the last {MOST_LATER} of them are" if len(items) > MOST_LATER else ""
        told = "".join(f"<li>{safe(self.later_text(it))}</li>" for it in items[-MOST_LATER:])
        head = "<h2>Later answers to the same truck</h2>"
        return f"{head}<p>{safe(said + some)}{':' if told else '.'}</p><ul>{told}</ul>"

    def later_text(self, item: Item) -> str:
        why = "" if isinstance(item, Permit) and item.status != RECALLED else f" {self.why(item)}"
        trip = f"{self.words.trip(item.trip)}, {item.trip.first} to {item.trip.last}"
        return f"{name_of(item)}, {state_of(item).lower()}: {trip}.{why}".rstrip(".") + "."


class OfCarrier(Handout):
    """The page of one carrier."""

    def __init__(
        self, made: Replay, sources: list[Source], audited: Audited | None, items: list[Item], carrier: str
    ) -> None:
        self.items, self.carrier = items, carrier
        super().__init__(made, sources, audited, made.version)

    def markup(self) -> str:
        permits = sum(isinstance(it, Permit) for it in self.items)
        in_force = sum(isinstance(it, Permit) and it.status == IN_FORCE for it in self.items)
        summary = (
            f"{plural(permits, 'permit')}, {in_force} in force on {self.made.day}; "
            f"{plural(len(self.items) - permits, 'other answer')}."
        )
        trucks = sorted({it.trip.truck for it in self.items})
        return self.filled(f"Carrier {self.carrier}", summary, (self.answers(), self.all_roads(), self.trucks(trucks)))

    def answers(self) -> str:
        heads = ("Answer", "What is decided, and why", "Truck", "Days", "From, to and roads", "What to do next")
        rows = [self.answer_row(it) for it in self.items]
        return "<h2>What is decided</h2>" + table("answers", "In the order of the journal", heads, rows)

    def answer_row(self, item: Item) -> str:
        row = (
            ("Answer", f'<span class="whole">{safe(name_of(item))}</span>'),
            ("Decided", f'<span class="state">{safe(state_of(item))}.</span> {safe(self.why(item))}'),
            ("Truck", safe(self.file.trucks[item.trip.truck].name)),
            ("Days", days(item.trip)),
            ("From, to and roads", safe(self.words.trip(item.trip)) + self.by_roads(routes_of(item))),
            ("What to do next", safe(self.next_step(item))),
        )
        kind = STATES[item.status] if isinstance(item, Permit) else item.reply
        return f'<tr role="row" class="{safe(kind)}">{cells(row)}</tr>\n'

    def by_roads(self, routes: Routes) -> str:
        """The roads of each route, and its length."""
        texts = []
        for route in routes:
            names = ", ".join(f'<span class="whole">{safe(self.words.segments[segment])}</span>' for segment in route)
            texts.append(f"{names}: {miles(sum(self.file.segments[segment].feet for segment in route))}")
        return (", by " + "; or by ".join(texts)) if texts else ""

    def all_roads(self) -> str:
        """The roads of all permits and of all routes that were asked for, each with the trucks that are to go there."""
        users: dict[int, set[int]] = {}
        for it in self.items:
            for segment in (segment for route in routes_of(it) for segment in route):
                users.setdefault(segment, set()).add(it.trip.truck)
        if not users:
            return ""
        short = len(users) > MOST_ROADS
        rows = [self.road_row(segment, "", sorted(users[segment]), short) for segment in sorted(users)]
        caption = f"Roads of these routes; limits and ratings as posted at version {self.version}, the last one"
        kind = "short" if short else "full"
        return f'<h2>Roads</h2><div class="{kind}">{self.roads("roads", caption, rows)}</div>'


def posted_at(made: Replay, version: int) -> tuple[list[dict[str, int]], list[int]]:
    """What the day file sets, and each posting up to a version."""
    values, ratings = [dict(it) for it in made.file.values], [span.rating for span in made.file.spans]
    for posting in made.postings[:version]:
        if posting.what == "rating":
            ratings[posting.item] = posting.value
        else:
            values[posting.item][posting.what] = posting.value
    return values, ratings
