"""Answers of the office in words and names. Each number has its unit."""
from fractions import Fraction

from model import forms
from model.files import DayFile

from .journal import Limit, Routes, Trip
from .rating import rounded
from .replay import EXPIRED, IN_FORCE, RECALLED, SURRENDERED, Answer, Other, Permit, Posting

STATUS = {IN_FORCE: "In force", RECALLED: "Recalled", SURRENDERED: "Surrendered", EXPIRED: "Expired"}
UNITS = {
    "height": "in",
    "width": "in",
    "length": "in",
    "gross": "lb",
    "tridem": "lb",
    "allowance": "thousandths of the federal limits",
    "rating": "thousandths of HS20-44",
}
EFFECTS = {"moment": "moment", "shear": "end shear"}
EFFECT_UNITS = {"moment": "lb·in", "shear": "lb"}
# the values that no truck of a day file can fail
OPEN = {what: 0 if what == "closed" else forms.RANGES[what][1] for what in forms.POSTED}
NO_LIMIT = "no limit"


def annual(routes: Routes) -> str:
    """What is said in front of several routes."""
    return "annual, " if len(routes) > 1 else ""


def decimals(has: Fraction, most: Fraction) -> int:
    """As few decimals as show that two numbers differ."""
    return next((places for places in range(7) if rounded(has, places) != rounded(most, places)), 6)


def value_text(what: str, value: int) -> str:
    """A limit with its unit. The greatest values are no limits: every truck that may stand in a day file keeps them."""
    if what == "closed":
        return "closed" if value else "open"
    return NO_LIMIT if value == OPEN[what] else f"{value:,} {UNITS[what]}"


def verdict(has: Fraction, most: Fraction, unit: str, allowed: str = "allowed", more: str = "") -> str:
    """What is there, what is allowed, the difference, and its part in a hundred of what is allowed."""
    places = 0 if has == most else max(decimals(has, most), decimals(abs(has - most), Fraction(0)))
    there, most_text, apart = (rounded(value, places) for value in (has, most, abs(has - most)))
    part = f" ({percent(abs(has - most), most)})" if most else ""
    judged = "too much" if has > most else "to spare"
    return f"{there} {unit}, {allowed} {most_text} {unit}{more}, {apart} {unit} {judged}{part}"


def percent(part: Fraction, whole: Fraction) -> str:
    """A part in a hundred of the whole, to two decimals."""
    value = 100 * part / whole
    return "under 0.01 %" if 0 < value < Fraction(1, 200) else f"{rounded(value, 2)} %"


class Words:
    """The names of a day file, and what is said with them."""

    def __init__(self, file: DayFile) -> None:
        self.file = file
        self.nodes, self.segments, self.spans, self.actors = (
            list(file.names[kind]) for kind in ("nodes", "segments", "spans", "actors")
        )

    def trip(self, trip: Trip) -> str:
        return f"{self.nodes[trip.start]} to {self.nodes[trip.end]}"

    def routes(self, routes: Routes) -> str:
        """By which segments, or by which others."""
        said = "; or by ".join(", ".join(self.segments[segment] for segment in route) for route in routes)
        return f"{annual(routes)}by {said}"

    def item(self, what: str, item: int) -> str:
        """A segment, or a span with its segment."""
        if what == "rating":
            return f"bridge {self.spans[item]} on {self.segments[self.file.spans[item][0]]}"
        return self.segments[item]

    def posting(self, posting: Posting) -> str:
        """What a posting says."""
        item, what = self.item(posting.what, posting.item), posting.what
        value = value_text(what, posting.value)
        if what == "closed":
            return f"{item} is {value}"
        if value == NO_LIMIT:
            return f"{item} has no limit" + ("" if what == "rating" else f" of {LIMIT_NAMES[what]}")
        if what == "rating":
            return f"{item} has a rating of {value}"
        if what == "allowance":
            return f"{item} allows each axle group {posting.value:,} thousandths of its federal limit"
        return f"{item} allows a {LIMIT_NAMES[what]} of at most {value}"

    def before(self, posting: Posting) -> str:
        """What stood there before a posting."""
        return value_text(posting.what, posting.before)

    def place(self, limit: Limit) -> str:
        """Where a limit stands: a segment, and the bridge on it."""
        segment = self.segments[limit.segment]
        return f"{segment}, bridge {self.spans[limit.span]}" if limit.span >= 0 else segment

    def limit(self, limit: Limit) -> str:
        """A limit that fails, in words."""
        return f"{self.place(limit)}: {self.reason(limit)}"

    def reason(self, limit: Limit) -> str:
        """What fails: what is there, what is allowed, the difference and its part in a hundred."""
        if limit.what == "closed":
            return "closed"
        if limit.what == "group":
            of = f" ({limit.rate:,} thousandths of their federal limit of {rounded(limit.most, 0)} lb)"
            return f"{axles_text(*limit.group)} " + verdict(limit.has, limit.carried, "lb", more=of)
        if limit.what == "tridem":
            return f"tridem group, {axles_text(*limit.group)} " + verdict(limit.has, limit.carried, "lb")
        if limit.span >= 0:
            unit = EFFECT_UNITS[limit.what]
            of = f" (a rating of {limit.rate:,} thousandths of HS20-44)"
            return f"{EFFECTS[limit.what]} {verdict(limit.has, limit.carried, unit, 'the bridge carries', of)}"
        return f"{LIMIT_NAMES[limit.what]} {verdict(limit.has, limit.carried, UNITS[limit.what])}"

    def answer(self, answer: Answer) -> str:
        """An answer that is no permit."""
        trip = answer.trip
        if answer.reply == "refused" and answer.limit is not None:
            return self.in_the_way(answer) + self.limit(answer.limit)
        if answer.reply == "noroad":
            return f"No road leads from {self.nodes[trip.start]} to {self.nodes[trip.end]}, open or closed"
        if answer.reply == "late":
            return f"The first day, {trip.first}, is before the office's day, {answer.day}"
        return "The truck is legal and needs no permit"

    def in_the_way(self, answer: Answer) -> str:
        """What is said in front of the limit of a refusal where no route was asked for."""
        if answer.trip.asked:
            return ""
        return "No way is open to it. Of the roads that lead on from where it can come, the first in the day file is "

    def why(self, permit: Permit) -> str:
        """Why the truck of a recalled permit fails, or nothing where that was not worked out."""
        return "" if permit.limit is None or permit.limit.what == "closed" else self.reason(permit.limit)

    def other(self, other: Other) -> str:
        """A new day, a surrender or a show."""
        entry, actor = other.entry, self.actors[other.caller]
        if entry.call == "day":
            if entry.reply == "dayback":
                return f"{actor} wants the day {entry.day}, but it stays {entry.status}"
            return f"{actor} goes on to {entry.day}"
        verb = "surrenders" if entry.call == "surrender" else "looks at"
        return f"{actor} {verb} permit {entry.number}: {self.outcome(entry.reply, entry.status)}"

    def outcome(self, reply: str, status: str) -> str:
        """How a permit stood."""
        word, _, posting = status.partition(" ")
        stands = {
            "inforce": "it is in force",
            "recalled": f"it is recalled by posting {posting}",
            "surrendered": "it is surrendered",
            "expired": "it is expired",
        }.get(word, "")
        return {
            "surrendered": "it is given back",
            "notyours": "it is another actor's",
            "unknown": "there is none",
        }.get(reply, stands)


LIMIT_NAMES = {
    "height": "height",
    "width": "width",
    "length": "length",
    "gross": "gross weight",
    "tridem": "tridem group",
    "allowance": "axle groups",
}


def axles_text(first: int, last: int) -> str:
    """Some axles, counted from 0, and the verb."""
    return f"axle {first + 1} weighs" if first == last else f"axles {first + 1} to {last + 1} weigh"
