"""What spreadsheets and hands do to a cell, called by its name: formulas, words for errors, blanks that no eye sees, a
letter O among digits, separators of thousands.

Each function gives what is wrong, and what to write in place of the cell where this can be known. What can be meant in
two ways is not guessed. Of a text that begins with "it", the cell is what is spoken of.
"""
import re
from typing import NamedTuple

from .command import printable


class Spoiled(NamedTuple):
    """What is wrong with a cell, and what it has to be where that is known."""

    what: str
    mended: str | None = None


MARK = "\ufeff"
ERROR = re.compile(r"#(REF|NAME|VALUE|DIV/0|NUM|NULL|N/A|SPILL|CALC|GETTING_DATA)[!?]?|Err:[0-9]{3}", re.I)
TRUTHS = {"true": "1", "yes": "1", "false": "0", "no": "0"}
APOSTROPHES = "'\u2018\u2019`\u00b4"
HARD_BLANKS = "\u00a0\u202f\u2007\u2009\u200a\u2002\u2003\u3000"
UNSEEN = "\u200b\u200c\u200d\u2060\u00ad\u200e\u200f\ufeff"
DASHES = "\u2010\u2011\u2012\u2013\u2014\u2212"
# what looks like a digit, and which one
LETTERS = {"O": "0", "o": "0", "l": "1", "I": "1"}
THOUSANDS = re.compile(rf"[0-9]{{1,3}}([,.' {HARD_BLANKS}\u2019])[0-9]{{3}}(\1[0-9]{{3}})*")
GROUPED = re.compile(rf"([0-9]{{1,3}}(?:([,.' {HARD_BLANKS}\u2019])[0-9]{{3}})(?:\2[0-9]{{3}})*)(?!\2)[.,][0-9]*")
FRACTION = re.compile(r"([0-9]+)[.,]([0-9]*)")
POWER = re.compile(r"([0-9]+)(?:[.,]([0-9]+))?[eE]\+?([0-9]{1,2})")
UNIT = re.compile(r"[0-9][0-9.,]*\s*([A-Za-z]{1,6}\.?|['\"\u2032\u2033\u2019\u201d])([0-9. ]*(in|['\"\u2032\u2033]))?")
DAY = re.compile(r"[0-9]{1,4}[-/.][0-9]{1,2}[-/.][0-9]{1,4}")
MOST_DIGITS = 9


def of_cell(text: str) -> Spoiled | None:
    """What may befall any cell."""
    if text.startswith(MARK):
        return Spoiled("a byte order mark stands in front, which no eye sees", text.lstrip(MARK))
    if text.startswith("="):
        return Spoiled("here is a formula, and not what it gives: paste its value in its place")
    if ERROR.fullmatch(text):
        return Spoiled(f"{text} is what a spreadsheet shows for a formula without a value: write the value itself")
    if re.fullmatch("#{2,}", text):
        return Spoiled("the column was too narrow to show what stands in it: make it wider and save again")
    if len(text) > 1 and text[0] in APOSTROPHES:
        bare = text[1:-1] if text[-1] in APOSTROPHES else text[1:]
        return Spoiled("an apostrophe stands in front, which some spreadsheets save with the text", bare)
    return blanks(text)


def blanks(text: str) -> Spoiled | None:
    """Blanks at an end of a cell, or letters in it that no eye sees."""
    seen = text.translate(dict.fromkeys(map(ord, UNSEEN)))
    if seen != text:
        return Spoiled("a letter stands in it that no eye sees", seen.strip())
    bare = text.strip()
    if bare == text or not bare:
        return None
    is_behind = text != text.rstrip()
    blank = text[len(text.rstrip()):] if is_behind else text[:-len(text.lstrip())]
    kind = "a hard space" if blank[:1] in HARD_BLANKS else "a tab" if "\t" in blank else "a blank"
    if "\n" in blank or "\r" in blank:
        kind = "the end of a line"
    return Spoiled(f"{kind} stands {'behind' if is_behind else 'in front of'} it, which no eye sees", bare)


def of_number(text: str) -> Spoiled | None:
    """What may befall a number: one to nine digits."""
    digits = "".join(LETTERS.get(letter, letter) for letter in text)
    if digits != text and digits.isascii() and digits.isdigit() and re.search("[0-9]", text):
        letter = next(letter for letter in text if letter in LETTERS)
        return Spoiled(f"the letter {letter} stands among its digits", digits)
    if text.lower() in TRUTHS:
        return Spoiled(f"{text} is a spreadsheet's word, and no number")
    if DAY.fullmatch(text):
        return Spoiled("here is a day, and no number")
    if re.fullmatch(r"[0-9]{10,}", text):
        return Spoiled(f"it has at most {MOST_DIGITS} digits, and here are {len(text)}")
    if re.fullmatch(r"[+\u2212-].*[0-9].*", text):
        return Spoiled("it has no sign", text[1:] if text[0] == "+" else None)
    return separators(text) or whole(text) or others(text)


def separators(text: str) -> Spoiled | None:
    """Separators of thousands, in front of a fraction too, or a point that may be one."""
    if found := GROUPED.fullmatch(text):
        return Spoiled("it has no separators", re.sub("[^0-9]", "", found[1]) + text[found.end(1):])
    found = THOUSANDS.fullmatch(text)
    if found is None:
        return None
    digits = re.sub("[^0-9]", "", text)
    if found[1] == "." and text.count(".") == 1:
        return Spoiled(
            f"it is a whole number, with no point: write {digits} where the point parts thousands, and else round it"
        )
    return Spoiled("it has no separators", digits)


def whole(text: str) -> Spoiled | None:
    """A number with a fraction, or as a power of ten."""
    if found := FRACTION.fullmatch(text):
        if found[2].strip("0"):
            return Spoiled("it is a whole number, and here is a fraction: round it")
        return Spoiled("it is a whole number, with nothing behind a point", found[1])
    if found := POWER.fullmatch(text):
        behind, power = found[2] or "", int(found[3])
        exact = len(behind.rstrip("0")) <= power <= 2 * MOST_DIGITS
        number = found[1] + behind.rstrip("0").ljust(power, "0") if exact else None
        return Spoiled("a spreadsheet wrote it as a power of ten, perhaps rounded", number)
    return None


def others(text: str) -> Spoiled | None:
    """A unit, a per cent sign, digits of another script, blanks within, dashes, words."""
    if re.fullmatch(r"[0-9][0-9.,]*\s*%", text):
        return Spoiled("it is no number of per cent")
    if UNIT.fullmatch(text):
        return Spoiled("it has no unit behind it: digits alone, and converted where it is another unit")
    if text.isdigit() and not text.isascii():
        return Spoiled("its digits are those of another script: write 0 to 9")
    if re.fullmatch(r"[0-9]+(\s+[0-9]+)+", text):
        return Spoiled("blanks stand among its digits")
    return None


def of_thousandths(text: str) -> Spoiled | None:
    """A number of thousandths that is written as a factor, as 1.3 for 1300."""
    found = re.fullmatch(r"([0-9])[.,]([0-9]{1,3})0*", text)
    if found is None:
        return None
    return Spoiled("it has no point, since it counts thousandths", str(int(found[1] + found[2].ljust(3, "0"))))


def of_name(text: str) -> Spoiled | None:
    """What may befall a name: 1 to 16 letters from A to Z, digits, - and _."""
    if any(dash in text for dash in DASHES):
        mended = re.sub(f"[{DASHES}]", "-", text)
        return Spoiled("here is a longer dash than -", mended)
    bad = next((letter for letter in text if not re.match("[A-Za-z0-9_ -]", letter)), None)
    if bad is None:
        return None
    # a letter of another alphabet may look like one from A to Z
    shown = printable(bad) if bad.isascii() else f"{printable(bad)} (U+{ord(bad):04X})"
    return Spoiled(f"it has the letters A to Z, digits, - and _ alone, and not {shown}")


def of_day(text: str) -> Spoiled | None:
    """What may befall a day: YYYY-MM-DD."""
    if found := re.fullmatch(r"([0-9]{4})[-/.]([0-9]{1,2})[-/.]([0-9]{1,2})", text):
        return Spoiled("its month and day have two digits, with - between", f"{found[1]}-{found[2]:0>2}-{found[3]:0>2}")
    if found := re.fullmatch(r"([0-9]{4}-[0-9]{2}-[0-9]{2})[ T][0-9:.Z]+", text):
        return Spoiled("it has no time of day", found[1])
    if re.fullmatch(r"[0-9]{5}", text):
        return Spoiled("here is a spreadsheet's own number of a day: set the column to Text, and write the day")
    return None


def of_axles(text: str) -> Spoiled | None:
    """What may befall a list of axles: pairs PLACE:WEIGHT with one space between two."""
    if "\n" in text or "\r" in text:
        return Spoiled("the end of a line stands in it: one space stands between two pairs")
    if re.search(f"[{HARD_BLANKS}\t]", text):
        return Spoiled("a hard space or a tab stands in it", re.sub(f"[{HARD_BLANKS}\t]", " ", text))
    if "  " in text:
        return Spoiled("here are two spaces side by side", re.sub(" +", " ", text))
    if re.fullmatch(r"([0-9]+:[0-9]+[,;/] *)+[0-9]+:[0-9]+", text):
        return Spoiled("one space stands between two pairs, and here is another sign", re.sub("[,;/] *", " ", text))
    for at, pair in enumerate(text.split(" "), 1):
        place, colon, weight = pair.partition(":")
        if not colon:
            return Spoiled(f'pair {at} is "{printable(pair[:20])}", with no colon')
        for number in (place, weight):
            why = of_part(number)
            if why:
                return Spoiled(f'in pair {at}, "{printable(pair[:20])}", {why}')
    return None


def of_part(number: str) -> str:
    """What is wrong with a place or a weight of a pair."""
    if re.fullmatch("[0-9]{1,9}", number):
        return ""
    why = of_number(number) if number else Spoiled("a number is missing")
    return re.sub("^it ", "a number ", why.what) if why else "a number is one to nine digits, and nothing else"
