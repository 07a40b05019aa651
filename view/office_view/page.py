"""The page of a day: one HTML file that loads nothing.

All tables are there as text without any script. What scripts do is to look for rows, to choose a permit, and to draw
the roads at a version. The policy in the head lets nothing run but the one script of the page, and nothing be loaded.
Every name is escaped, also where the format of names leaves nothing to escape.
"""
import json
import string
from collections import Counter
from typing import Any

from . import VERSION
from .auditing import Audited
from .journal import Limit, Routes, Trip
from .markup import MANY_ROWS, Source, audited_text, cells, options, part, plural, policy, safe, sources_text, table
from .network import Places
from .replay import EXPIRED, IN_FORCE, RECALLED, SURRENDERED, Answer, Permit, Posting, Replay
from .wording import OPEN, STATUS, UNITS, Words, annual

STATES = {IN_FORCE: "inforce", RECALLED: "recalled", SURRENDERED: "surrendered", EXPIRED: "expired"}
ANSWERS = {"refused": "Refused", "noroad": "No road", "late": "Too late", "notneeded": "No permit needed"}


def link(kind: str, number: int) -> str:
    return f'<a href="#{kind}-{number}">{kind} {number}</a>'


def days(trip: Trip) -> str:
    return f'<span class="whole">{safe(trip.first)} to</span> <span class="whole">{safe(trip.last)}</span>'


def reason(text: str) -> str:
    """What fails, as the drawing takes it from a row."""
    return f'<span class="why">{safe(text)}</span>'


def choose(name: str, text: str) -> str:
    return (
        f'<button type="button" class="screen" data-choose="{safe(name)}" '
        f'aria-label="Show {safe(text)} on the roads">'
        "Show on the roads</button>"
    )


class Page:
    """The page of a replayed journal."""

    def __init__(
        self, made: Replay, places: tuple[Places | None, str], sources: list[Source], audited: Audited | None
    ) -> None:
        self.made, self.sources, self.audited = made, sources, audited
        self.places, self.why_not_drawn = places
        self.words, self.trucks = Words(made.file), made.file.trucks

    def markup(self) -> str:
        style, script = part("page.css"), part("page.js")
        states = {**{STATES[status]: text for status, text in STATUS.items()}, **ANSWERS}
        return string.Template(part("page.html")).substitute(
            policy=safe(policy(style, script)),
            style=style,
            script=script,
            data=self.data(),
            title=safe(f"Permit office, {self.made.file.day}"),
            summary=safe(self.summary()),
            audited=audited_text(self.audited),
            carriers=options({name: name for name in self.carriers()}),
            states=options(states),
            permits=self.permits(),
            answers=self.answers(),
            postings=self.postings(),
            last=self.made.version,
            others=self.others(),
            reckoned=safe(self.made.reckoning.left_out_text()),
            sources=sources_text(self.sources),
            made_by=safe(VERSION),
        )

    def summary(self) -> str:
        made = self.made
        counts = Counter(permit.status for permit in made.permits)
        parts = ", ".join(f"{counts[status]:,} {status}" for status in STATES if counts[status])
        said = f"{plural(len(made.permits), 'permit')}{': ' + parts if parts else ''}"
        return (
            f"{said}. {plural(len(made.answers), 'application')} without a permit, "
            f"{plural(len(made.postings), 'posting')}. At the end the office's day is {made.day}."
        )

    def carriers(self) -> list[str]:
        """The carriers of which the page says something."""
        trips = [permit.trip for permit in self.made.permits] + [answer.trip for answer in self.made.answers]
        return sorted({self.trucks[trip.truck].carrier for trip in trips})

    def permits(self) -> str:
        heads = ("Permit", "How it stands", "Carrier", "Truck", "Days", "From, to and routes", "Issued")
        return table(
            "permit-rows",
            "Each permit, as it stands at the end",
            heads,
            list(map(self.permit_row, self.made.permits)),
        )

    def permit_row(self, permit: Permit) -> str:
        truck, state = self.trucks[permit.trip.truck], STATES[permit.status]
        name = f"permit-{permit.number}"
        row = (
            ("Permit", f'<a href="#{name}">Permit {permit.number}</a>'),
            ("How it stands", self.standing(permit)),
            ("Carrier", safe(truck.carrier)),
            ("Truck", safe(truck.name)),
            ("Days", days(permit.trip)),
            (
                "Routes",
                f"{safe(self.words.trip(permit.trip))}, {self.routes(permit.routes)} "
                f"{choose(name, f'permit {permit.number}')}",
            ),
            ("Issued", f"at version {permit.version}, by {safe(self.words.actors[permit.caller])}"),
        )
        head = (
            f'<tr id="{name}" class="{state}" role="row" data-state="{state}" data-carrier="{safe(truck.carrier)}">'
        )
        return f"{head}{cells(row)}</tr>\n"

    def routes(self, routes: Routes) -> str:
        """The names of one route or of several; on a page of few permits none is broken at its end of a line."""
        if len(self.made.permits) > MANY_ROWS:
            return safe(self.words.routes(routes))
        names = [[f'<span class="whole">{safe(self.words.segments[segment])}</span>' for segment in route]
                 for route in routes]
        return f"{annual(routes)}by " + "; or by ".join(", ".join(route) for route in names)

    def standing(self, permit: Permit) -> str:
        """How a permit stands; where it is recalled, by what and why."""
        state = f'<span class="state">{safe(STATUS[permit.status])}</span>'
        return f"{state} {self.recalled_by(permit)}" if permit.status == RECALLED else state

    def recalled_by(self, permit: Permit) -> str:
        posting = self.made.postings[permit.posting - 1]
        why = self.words.why(permit)
        said = safe(self.words.posting(posting)) + (f"; {reason(why)}" if why else "")
        return f"by {link('posting', posting.version)}: {said}"

    def answers(self) -> str:
        heads = ("Number", "Answer", "Carrier", "Truck", "Days", "From and to", "Asked by")
        caption = "Each application that was answered otherwise; a refusal with the limit that stands in the way"
        return table("answer-rows", caption, heads, list(map(self.answer_row, self.made.answers)))

    def answer_row(self, answer: Answer) -> str:
        truck, name = self.trucks[answer.trip.truck], f"answer-{answer.number}"
        asked = f", {self.words.routes(answer.trip.asked)}" if answer.trip.asked else ""
        shown = choose(name, f"answer {answer.number}") if answer.reply in ("refused", "noroad") else ""
        row = (
            ("Number", f'<a href="#{name}">Answer {answer.number}</a>'),
            (
                "Answer",
                f'<span class="state">{safe(ANSWERS[answer.reply])}:</span> {self.said(answer)}',
            ),
            ("Carrier", safe(truck.carrier)),
            ("Truck", safe(truck.name)),
            ("Days", days(answer.trip)),
            ("From and to", f"{safe(self.words.trip(answer.trip) + asked)} {shown}"),
            ("Asked by", safe(self.words.actors[answer.caller])),
        )
        return (
            f'<tr id="{name}" class="{safe(answer.reply)}" role="row" data-state="{safe(answer.reply)}" '
            f'data-carrier="{safe(truck.carrier)}">{cells(row)}</tr>\n'
        )

    def said(self, answer: Answer) -> str:
        """What is said of an answer, and at which version it is refused."""
        if answer.limit is None:
            return safe(self.words.answer(answer))
        place = self.words.in_the_way(answer) + self.words.place(answer.limit)
        return f"{safe(place)}: {reason(self.words.reason(answer.limit))} (at version {answer.version})"

    def postings(self) -> str:
        heads = ("Posting", "What is posted", "Before", "Posted by", "Recalled by it")
        caption = "Each posting in its order; posting N makes version N"
        return table("posting-rows", caption, heads, list(map(self.posting_row, self.made.postings)))

    def posting_row(self, posting: Posting) -> str:
        recalled = ", ".join(link("permit", number) for number in posting.recalled) or "nothing"
        row = (
            ("Posting", f'<a href="#posting-{posting.version}">Posting {posting.version}</a>'),
            ("What is posted", safe(self.words.posting(posting))),
            ("Before", safe(self.words.before(posting))),
            ("Posted by", safe(self.words.actors[posting.caller])),
            ("Recalled by it", recalled),
        )
        return f'<tr id="posting-{posting.version}" role="row">{cells(row)}</tr>\n'

    def others(self) -> str:
        items = "".join(f"<li>{safe(self.words.other(other))}</li>\n" for other in self.made.others)
        if not items:
            return ""
        return f'<h2 id="others">New days, surrenders and looks at permits</h2><ol>{items}</ol>'

    def data(self) -> str:
        """What the script needs, as JSON in which no markup can end or begin."""
        file, made, words = self.made.file, self.made, self.words
        cuts: dict[tuple[int, ...], int] = {}
        chosen = [self.chosen_permit(permit) for permit in made.permits]
        chosen += [
            self.chosen_answer(answer, cuts) for answer in made.answers if answer.reply in ("refused", "noroad")
        ]
        data = {
            "nodes": words.nodes,
            "places": self.places,
            "why": self.why_not_drawn,
            "segments": [(name, start, end) for name, (start, end, _) in zip(words.segments, file.segments)],
            "spans": [(name, *span) for name, span in zip(words.spans, file.spans)],
            "limits": [
                (number, what, value)
                for number, values in enumerate(file.values)
                for what, value in values.items()
                if value != OPEN[what]
            ],
            "most": OPEN,
            "units": {name: f" {unit}" for name, unit in UNITS.items()},
            "postings": [(posting.item, posting.what, posting.value) for posting in made.postings],
            "sayings": [words.posting(posting) for posting in made.postings],
            "chosen": chosen,
            "cuts": list(cuts),
        }
        text = json.dumps(data, separators=(",", ":"))
        return text.replace("<", "\\u003c").replace(">", "\\u003e").replace("&", "\\u0026")

    def chosen_permit(self, permit: Permit) -> dict[str, Any]:
        chosen = self.chosen(f"permit {permit.number}", permit.trip, permit.routes, permit.limit)
        return chosen | {"version": permit.posting or permit.version}

    def chosen_answer(self, answer: Answer, cuts: dict[tuple[int, ...], int]) -> dict[str, Any]:
        chosen = self.chosen(f"answer {answer.number}", answer.trip, answer.trip.asked, answer.limit)
        if answer.reached and self.places is not None:
            chosen["cut"] = cuts.setdefault(answer.reached, len(cuts))
        places = plural(len(answer.reached), "place")
        if answer.reply == "noroad":
            chosen["reach"] = f"Any walk from there, over open or closed roads, reaches {places}"
            chosen["always"] = 1
        elif answer.reached and answer.seen == answer.version:
            chosen["reach"] = f"The truck can reach {places} at this version"
        elif answer.reached:
            could = f"At version {answer.seen} the truck could reach {places}"
            chosen["reach"] = f"{could}, and at this version no road leads it on from these"
        return chosen | {"version": answer.version}

    def chosen(self, name: str, trip: Trip, routes: Routes, limit: Limit | None) -> dict[str, Any]:
        """What the drawing shows of a permit or an answer. What is said of it stands in its row."""
        truck = self.trucks[trip.truck]
        made: dict[str, Any] = {"id": name.replace(" ", "-"), "title": f"{name}: {truck.carrier} {truck.name}"}
        made |= {"routes": routes, "from": trip.start, "to": trip.end}
        return made if limit is None else made | {"fails": [limit.segment, limit.span]}
