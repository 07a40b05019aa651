"""What is said of a refused cell or row: first what befell it, called by its name, and else what has to stand there.

What has to stand there is said by `sayings`. What is to be written in its place is said only where it is certain, and
where the office would take it there.
"""
import re
from collections.abc import Callable
from dataclasses import replace
from typing import NamedTuple

from model import forms

from . import spoiled
from .sayings import SINGULAR, column_of, form_text, quoted, text_of, what_of
from .sheet import Lenient, Refusal, kind_of, kinds_of_all, plain_kind
from .spoiled import Spoiled

Befalls = Callable[[str], Spoiled | None]
BEFALLS: dict[Callable[[bytes], object], Befalls] = {
    forms.number: spoiled.of_number,
    forms.name: spoiled.of_name,
    forms.day: spoiled.of_day,
    forms.axles: spoiled.of_axles,
}
MOST_AT_ONCE = 4
# the column of a posting in which a segment or a span stands
POSTED_ON = 3
BLANK_MORE = "a blank stands in a column in which nothing is to stand, and no eye sees it: empty it"
TRUTHS = "closed is 1 for closed and 0 for open"


class Hint(NamedTuple):
    """What is wrong, in words that are the same for each cell with the same mistake; what to write here; and, where
    the words have a name in them, what is said in their place of many names."""

    what: str
    instead: str | None = None
    of_many: str | None = None

    def text(self) -> str:
        return self.what + (f": write {self.instead}" if self.instead else "")


def hint(refusal: Refusal, sheet: Lenient, check: bool) -> Hint:
    """What is wrong with a record, and what to do."""
    word = refusal.cause.partition(" ")[0]
    made = None
    if word == "field":
        made = of_field(refusal, sheet, check)
    elif word == "extra":
        made = of_extra(refusal)
    elif word == "kind":
        made = of_kind(refusal, check)
    elif word == "fields":
        made = of_fields(refusal)
    elif word == "unknown":
        made = of_another_kind(refusal, sheet)
    return made or Hint(text := text_of(refusal, sheet, check), None, of_many(word, text))


def of_many(word: str, text: str) -> str | None:
    """What is said of many names that are not there, or are there twice."""
    if word == "same":
        return re.sub(r"there is a (\w+) .* already, .*", r"there is a \1 of this name already, in a row above", text)
    if word == "unknown" and text.startswith("no "):
        return re.sub(r"is called \S+:", "is called so:", text)
    if word == "unknown":
        return re.sub(r"the (\w+) .*", r"the \1 is defined further below: put its row above this one", text)
    return None


def of_field(refusal: Refusal, sheet: Lenient, check: bool) -> Hint:
    """A field that has not its form."""
    column, values = column_of(refusal)
    text = refusal.field_text.decode("utf-8", "replace")
    what = what_of(refusal)
    limit = values[-2] if column.form is forms.number and refusal.kind in ("limit", "post") else None
    if limit == "closed" and text.lower() in spoiled.TRUTHS:
        return Hint(f"{text} is a spreadsheet's word, and {TRUTHS}", spoiled.TRUTHS[text.lower()])
    if text and not seen(text):
        return Hint(f"{what}: a blank stands here and nothing else, which no eye sees")
    is_thousandths = "thousandths" in what or limit in ("allowance", "rating")
    found = (spoiled.of_thousandths(text) if is_thousandths else None) or befell(text, column.form)
    if found is None:
        words = forms.POSTED if column.form is forms.posted else forms.LIMITS if column.form is forms.limit else ()
        small = text.lower() in words
        return Hint(f"{what} is written in small letters", text.lower()) if small else Hint(form_text(refusal))
    left = mended(refusal, found.mended, sheet)
    if left is not None and left.cause != refusal.cause:
        return Hint(f"{joined(what, found.what)}, and {text_of(left, sheet, check)}")
    of_pairs = re.sub('in pair [0-9]+, "[^"]*", ', "in a pair ", found.what)
    of_many = joined(what if of_pairs != found.what else "a cell", of_pairs)
    return Hint(joined(what, found.what), found.mended if left is None else None, of_many)


def mended(refusal: Refusal, text: str | None, sheet: Lenient) -> Refusal | None:
    """What the office would still refuse in a cell with this text in it, or nothing where it would take it."""
    if not text:
        return refusal
    at, row = refusal.column or 0, refusal.row
    record = [*refusal.record[:at - 1], text.encode(), *refusal.record[at:]]
    column, values = column_of(left := replace(refusal, record=record))
    kind, is_axles = column.referred(values), column.form is forms.axles
    causes = [it for it in sheet.column_causes(record) if it.endswith(f" {at}") or is_axles and it.startswith("train")]
    causes = [it for it in causes if not sheet.is_doubted(record, it)]
    if column.defines and sheet.rows.get((column.defines, text), row) < row:
        causes.append("same")
    if kind and any(sheet.rows.get((kind, name), 0) > row for name in column.names(values[at - 2] or [])):
        causes.append(f"unknown {at}")
    return replace(left, cause=causes[0]) if causes else None


def joined(what: str, is_wrong: str) -> str:
    """What a cell is, and what is wrong with it, in one sentence."""
    return f"{what} {is_wrong[3:]}" if is_wrong.startswith("it ") else f"{what}: {is_wrong}"


def befell(text: str, form: Callable[[bytes], object]) -> Spoiled | None:
    """What befell a cell, one thing after another: what may befall any cell, and what may befall one of its form."""
    found: list[str] = []
    mended: str | None = text
    while mended is not None and form(mended.encode()) is None and len(found) < MOST_AT_ONCE:
        one = spoiled.of_cell(mended) or BEFALLS.get(form, lambda _: None)(mended)
        if one is None:
            mended = None
            break
        found.append(one.what)
        mended = one.mended
    return Spoiled(", and ".join(found), mended) if found else None


def of_extra(refusal: Refusal) -> Hint | None:
    """Something in a column that the kind leaves empty."""
    text = refusal.field_text.decode("utf-8", "replace")
    nothing = f"in a row of the kind {refusal.kind} nothing stands in this column: empty it"
    if seen(text):
        return Hint(nothing)
    return Hint(f"a blank stands here, which no eye sees, and {nothing}", None, BLANK_MORE)


def of_another_kind(refusal: Refusal, sheet: Lenient) -> Hint | None:
    """A name that is there, but is one of another kind."""
    column, values = column_of(refusal)
    kind, name = column.referred(values), refusal.field_text.decode("utf-8", "replace")
    others = [other for other, names in sheet.names.items() if name in names and other != kind]
    if kind is None or not others or sheet.rows.get((kind, name), 0) > refusal.row:
        return None
    if refusal.kind == "post" and refusal.column == POSTED_ON:
        on = f"{values[POSTED_ON - 1]} is posted on {a_name(SINGULAR[kind])}"
        return Hint(f"{name} is {a_name(SINGULAR[others[0]])}, and {on}")
    return Hint(f"{name} is {a_name(SINGULAR[others[0]])}, and this column names {a_name(SINGULAR[kind])}")


def seen(text: str) -> str:
    """What an eye sees of a cell."""
    return text.translate(dict.fromkeys(map(ord, spoiled.UNSEEN))).strip()


def a_name(word: str) -> str:
    return f"{'an' if word[0] in 'aeiou' else 'a'} {word}"


def of_kind(refusal: Refusal, check: bool) -> Hint | None:
    """A first cell that is no kind."""
    text = refusal.kind
    found = spoiled.of_cell(text)
    kinds = kinds_of_all()
    if found is not None:
        again = found.mended is not None and found.mended.lower() in kinds
        if text.startswith(spoiled.MARK) and refusal.row == 1:
            return Hint("a second byte order mark stands in front of the file: one is taken, and no other", None)
        if text.startswith(spoiled.MARK):
            return Hint("a byte order mark stands here, as where a file was put behind another one: take it out")
        return Hint(joined("the kind of a row", found.what), found.mended.lower() if again and found.mended else None)
    if text not in kinds and plain_kind(text) in kinds and text.lower() != text:
        return Hint("kinds are written in small letters", plain_kind(text))
    if text.startswith(("#", "//", "--")):
        return Hint("here is a remark: no row and no column is for remarks")
    return None


def of_fields(refusal: Refusal) -> Hint | None:
    """A row that has not eight columns of text."""
    first = refusal.record[0] if refusal.record else b""
    if re.fullmatch(rb"sep=.?", first, re.I) and refusal.row == 1:
        return Hint(f"{quoted(first)} is a line for spreadsheets, and no row: take it out")
    if len(refusal.record) == 1 and not first.strip():
        return Hint("a line with nothing but blanks: take it out")
    if len(refusal.record) == 9 and kind_of(refusal.record) in kinds_of_all():
        if refusal.record[8]:
            return Hint(f"{quoted(refusal.record[8])} stands in column I, and there are eight columns, A to H")
        return Hint(
            "there are eight columns, A to H, and this row has 9: a comma too many; or something stands in column I, "
            "perhaps of another row"
        )
    return None
