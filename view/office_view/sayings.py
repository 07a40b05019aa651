"""What is said of a refused record: its row, its column as a spreadsheet calls it, and what has to stand there."""
import re

from model import forms
from model.files import CHECK_KINDS, DAY_KINDS, MOST, MOST_ANNUAL_DAYS, MOST_SPANS_OF_SEGMENT, Column, Values

from .command import printable
from .sheet import Lenient, Refusal, kinds_of_all

COLUMNS = {
    "day": ("an opening day",),
    "node": ("the name of a node",),
    "segment": (
        "the name of a segment",
        "the node where a segment begins",
        "the node where a segment ends",
        "a length in feet",
    ),
    "limit": ("a segment", "what is limited", "the value of a limit"),
    "span": (
        "the name of a span",
        "the segment of a span",
        "the length of a span in inches",
        "a rating in thousandths",
    ),
    "truck": (
        "the name of a truck",
        "a carrier",
        "a height in inches",
        "a width in inches",
        "a length in inches",
        "the list of axles",
    ),
    "actor": ("the name of an actor",),
    "apply": (
        "an actor",
        "a truck",
        "the node where a trip begins",
        "the node where a trip ends",
        "the list of routes",
        "a first day",
        "a last day",
    ),
    "post": ("an actor", "what a posting is on", "what is posted", "the value of a posting"),
    "setday": ("an actor", "a new day"),
    "surrender": ("an actor", "the number of a permit"),
    "show": ("an actor", "the number of a permit"),
    "probe": ("the length of a span in inches", "a rating in thousandths"),
    "end": (),
}
SINGULAR = {"nodes": "node", "segments": "segment", "spans": "span", "trucks": "truck", "actors": "actor"}
TRAINS = {
    1: "a truck has at least 2 axles: write each axle on its own, not the gross weight",
    2: "a truck has at most 32 axles",
    3: "places begin with 0 and rise: they are inches behind the first axle, not distances from axle to axle",
    4: "the weight of an axle is 1 to 200,000 lb",
    5: "all axles together are at most 2,000,000 lb",
    6: "the last axle is at most 3,000 in behind the first",
}
SEPARATORS = ((b";", "semicolons"), (b"\t", "tabs"), (b"|", "bars"))
MOST_SHOWN = 60


def letter_of(column: int) -> str:
    return "ABCDEFGHIJKLMNOPQRSTUVWXYZ"[column - 1] if column <= 26 else str(column)


def quoted(text: bytes) -> str:
    """A field between quotes, with nothing in it that a terminal would obey, and not too long."""
    shown = printable(text.decode("utf-8", "backslashreplace"))
    return f'"{shown[:MOST_SHOWN]}.."' if len(shown) > MOST_SHOWN else f'"{shown}"'


def rows_text(first: int, last: int) -> str:
    return f"row {first}" if first == last else f"rows {first} to {last}"


def what_of(refusal: Refusal) -> str:
    """What stands in the column that is at fault."""
    assert refusal.column is not None
    return COLUMNS[refusal.kind][refusal.column - 2]


def column_of(refusal: Refusal) -> tuple[Column, Values]:
    """The column that is at fault, and the values of the record."""
    assert refusal.column is not None
    columns: list[Column] = kinds_of_all()[refusal.kind]
    return columns[refusal.column - 2], [it.form(text) for it, text in zip(columns, refusal.record[1:])]


def name_hint(text: bytes) -> str:
    if not text:
        return "is missing: it is a name of letters, digits, - and _"
    if re.fullmatch(rb"[A-Za-z0-9_-]{17,}", text):
        return f"is a name of at most 16 letters, digits, - and _, and this has {len(text)}"
    return "is a name: letters, digits, - and _, no spaces"


def form_text(refusal: Refusal) -> str:
    """What the form of a field is."""
    column, _ = column_of(refusal)
    what, text = what_of(refusal), refusal.field_text
    if column.form is forms.name:
        return f"{what} {name_hint(text)}"
    if column.form is forms.routes:
        return f"{what} {routes_hint(text)}"
    if not text:
        return f"{what} is missing"
    if column.form is forms.number:
        return f"{what} is a number: one to nine digits, and nothing else"
    if column.form is forms.day:
        return f"{what} is written YYYY-MM-DD, as 2026-03-02: set the column to the format Text, and write it again"
    if column.form is forms.axles:
        return f"{what} is pairs PLACE:WEIGHT of digits with one space between two, as 0:12000 180:17000"
    words = forms.LIMITS if column.form is forms.limit else forms.POSTED
    return f"{what} is one of {', '.join(words[:-1])} and {words[-1]}, in small letters"


def routes_hint(text: bytes) -> str:
    """What the routes of an application are, and what seems to be wrong with them."""
    count = text.count(b"|") + 1
    if count > forms.MOST_ROUTES:
        return f"has at most {forms.MOST_ROUTES} routes, and here are {count}"
    if any(not route for route in text.split(b"|")):
        return "has one bar between two routes: here a bar stands at an end, or two stand side by side"
    more = ": here is a space beside a bar" if b" |" in text or b"| " in text else ""
    return f"is empty, or the names of segments with one space between two, and one bar | between two routes{more}"


def the_route(refusal: Refusal) -> str:
    """The route that is at fault, or that it is one of several."""
    return "one of the routes" if b"|" in refusal.field_text else "the route"


def unknown_text(refusal: Refusal, sheet: Lenient) -> str:
    """A name that is not there, or stands further below."""
    column, values = column_of(refusal)
    assert refusal.column is not None
    kind = column.referred(values)
    assert kind is not None
    names = column.names(values[refusal.column - 2])
    name = next(name for name in names if sheet.rows.get((kind, name), refusal.row) >= refusal.row)
    below = sheet.rows.get((kind, name))
    if below is not None and below > refusal.row:
        return f"the {SINGULAR[kind]} {name} is defined further below, in row {below}: put that row above this one"
    return (
        f"no {SINGULAR[kind]} above is called {name}: capitals count, and names are defined above the rows that use "
        "them"
    )


def range_text(refusal: Refusal) -> str:
    column, values = column_of(refusal)
    if column.form is forms.day:
        return "there is no such day in the calendar"
    least, most = column.range(values)
    what = what_of(refusal)
    if refusal.kind in ("limit", "post"):
        what += f" of {values[refusal.column - 3 if refusal.column else 0]}"
    return f"{what} is {least:,} to {most:,}"


def fields_text(refusal: Refusal) -> str:
    """Why a record has not eight fields of text."""
    record = refusal.record
    if any(b"\0" in text for text in record):
        return "there are zero bytes: the text is in UTF-16 or is no text; save it as CSV in UTF-8"
    for separator, name in SEPARATORS:
        # the bars of an application stand between its routes
        is_kind = separator == b"|" and refusal.kind in kinds_of_all()
        if len(record) < 8 and not is_kind and sum(text.count(separator) for text in record) >= 3:
            return f"the columns are separated by {name}: save the sheet with the comma as separator"
    if any(b"\n" in text or b"\r" in text for text in record):
        return "a quote is opened in this row and not closed in it, so that it takes in what follows"
    if len(record) == 8:
        return "the text is not in UTF-8, perhaps in Windows-1252 or Latin-1: save the sheet as CSV in UTF-8"
    more = "commas are missing" if len(record) < 8 else "there is a comma too many"
    return f"there are eight columns, A to H, with seven commas, and this row has {len(record)}: {more}"


def kind_text(refusal: Refusal, check: bool) -> str:
    """Why the first field is no kind of this file."""
    kind, names = refusal.kind, list(CHECK_KINDS if check else DAY_KINDS)
    if not any(refusal.record):
        return "an empty row: take it out, or save the sheet without empty rows"
    if kind == "day" and check:
        return "this is a day file: judge it with --day, and give it to the program's command day"
    if kind == "probe" and not check:
        return "a probe stands in check files: judge it with --check, and give it to the program's command check"
    hint = "; there is no row of headings" if refusal.row == 1 else ""
    return f"the kind of a row is one of {', '.join(names[:-1])} and {names[-1]}{hint}"


def order_text(refusal: Refusal, sheet: Lenient, check: bool) -> str:
    if refusal.row == 1:
        if not check and refusal.kind == "truck":
            return (
                "a day file begins with its day; one that begins with a truck is a check file: judge it with --check"
            )
        return f"the first row of the file is the {sheet.first}, and this is the kind {refusal.kind}"
    if refusal.kind == sheet.first:
        return f"the {sheet.first} stands once, in row 1"
    return "this stands behind the end: nothing follows it"


def too_many_text(refusal: Refusal) -> str:
    if refusal.cause == "spans-of-segment":
        return f"a segment has at most {MOST_SPANS_OF_SEGMENT} spans"
    return f"a file has at most {MOST[refusal.cause]:,} {refusal.cause}"


def text_of(refusal: Refusal, sheet: Lenient, check: bool) -> str:
    """What is wrong with a record, and what to do."""
    word, _, number = refusal.cause.partition(" ")
    if refusal.status == 6:
        return too_many_text(refusal)
    if word == "field":
        return form_text(refusal)
    if word == "unknown":
        return unknown_text(refusal, sheet)
    if word == "range":
        return range_text(refusal)
    if word == "train":
        return TRAINS[int(number)]
    if word == "fields":
        return fields_text(refusal)
    if word == "kind":
        return kind_text(refusal, check)
    if word == "order":
        return order_text(refusal, sheet, check)
    if word == "extra":
        return f"a {refusal.kind} has nothing in this column: empty it"
    if word == "same":
        kind = kinds_of_all()[refusal.kind][0].defines or ""
        name = refusal.field_text.decode()
        row = sheet.rows.get((kind, name), 0)
        return f"there is a {SINGULAR[kind]} {name} already, in row {row}: give this one a name of its own"
    return {
        "same-place": "a trip leads to another node than that where it begins",
        "broken-route": f"{the_route(refusal)} is no walk from the one node to the other: segments have a direction, "
        "and each begins where the one before it ends",
        "day-order": "the last day is before the first day: exchange them",
        "annual-days": f"a permit for several routes has its last day at most {MOST_ANNUAL_DAYS} days after its first",
        "end": "the last row is missing: write end into column A below all others"
        if sheet.places
        else "the file is empty: is it the right one?",
    }[word]
