"""What fields look like. Each function gives the value that a field spells, or None where it has another form."""
import datetime
import re

MOST_ROUTES = 8
LIMITS = ("closed", "height", "width", "length", "gross", "allowance", "tridem")
POSTED = LIMITS + ("rating",)
RANGES = {
    "closed": (0, 1), "height": (1, 999), "width": (1, 999), "length": (1, 9999), "gross": (1, 2000000),
    "allowance": (0, 100000), "tridem": (1, 600000), "rating": (0, 100000),
}


def name(field: bytes) -> str | None:
    """1 to 16 letters, digits, `-` or `_`."""
    return field.decode() if re.fullmatch(rb"[A-Za-z0-9_-]{1,16}", field) else None


def number(field: bytes) -> int | None:
    """One to nine digits, zeros in front among them."""
    return int(field) if re.fullmatch(rb"[0-9]{1,9}", field) else None


def day(field: bytes) -> str | None:
    """YYYY-MM-DD, whether or not there is such a day. Of two days the earlier one has the lesser text."""
    return field.decode() if re.fullmatch(rb"[0-9]{4}-[0-9]{2}-[0-9]{2}", field) else None


def is_day(text: str) -> bool:
    """Whether the calendar has the day. Python's calendar is the Gregorian one from the year 1 to the year 9999."""
    try:
        datetime.date(int(text[:4]), int(text[5:7]), int(text[8:]))
    except ValueError:
        return False
    return True


def days_between(first: str, last: str) -> int:
    """How many days the second day of the calendar comes after the first."""
    return (datetime.date.fromisoformat(last) - datetime.date.fromisoformat(first)).days


def axles(field: bytes) -> list[tuple[int, int]] | None:
    """Pairs PLACE:WEIGHT with one space between two."""
    pairs = []
    for pair in field.split(b" "):
        parts = [number(part) for part in pair.split(b":")]
        if len(parts) != 2:
            return None
        place, weight = parts
        if place is None or weight is None:
            return None
        pairs.append((place, weight))
    return pairs


def route(field: bytes) -> list[str] | None:
    """The names of segments, one or more with one space between two."""
    parts = field.split(b" ")
    names = [made for made in map(name, parts) if made is not None]
    return names if len(names) == len(parts) else None


def routes(field: bytes) -> list[list[str]] | None:
    """The routes that are asked for, one to eight with one bar between two; none where the field is empty."""
    parts = field.split(b"|") if field else []
    made = [names for names in map(route, parts) if names is not None]
    return made if len(made) == len(parts) <= MOST_ROUTES else None


def limit(field: bytes) -> str | None:
    """What a `limit` record sets."""
    return field.decode() if field in [word.encode() for word in LIMITS] else None


def posted(field: bytes) -> str | None:
    """What a `post` record sets."""
    return field.decode() if field in [word.encode() for word in POSTED] else None
