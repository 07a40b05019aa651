"""Pieces of markup that both kinds of pages share. Every text is escaped, also where nothing is left to escape."""
import base64
import hashlib
import html
import pathlib
from collections.abc import Iterable
from dataclasses import dataclass

from .auditing import Audited

HERE = pathlib.Path(__file__).resolve().parent
MANY_ROWS = 200
# the head and the text of each cell of a row
Row = Iterable[tuple[str, str]]


@dataclass(frozen=True)
class Source:
    """A file that the page shows: what it is, its name and its bytes."""

    what: str
    name: str
    data: bytes

    @property
    def sum(self) -> str:
        return hashlib.sha256(self.data).hexdigest()


def safe(text: object) -> str:
    """A text as it may stand in markup and in attributes."""
    return html.escape(str(text), quote=True)


def part(name: str) -> str:
    """A file of this package: a style, a script or a page."""
    return (HERE / name).read_text(encoding="utf-8")


def policy(style: str, script: str = "") -> str:
    """Lets nothing run but the one script, and nothing be loaded."""
    scripts = f"'{digest(script)}'" if script else "'none'"
    return (
        f"default-src 'none'; style-src '{digest(style)}'; script-src {scripts}; img-src data:; "
        "base-uri 'none'; form-action 'none'"
    )


def digest(text: str) -> str:
    """The sum by which a policy names a style or a script."""
    return "sha256-" + base64.b64encode(hashlib.sha256(text.encode("utf-8")).digest()).decode()


def cells(row: Row) -> str:
    """The cells of a row: what the column is called, and markup."""
    (_, head), *rest = row
    made = [f'<th scope="row" role="rowheader">{head}</th>']
    return "".join(made + [f'<td role="cell" data-label="{safe(label)}">{markup}</td>' for label, markup in rest])


def table(name: str, caption: str, heads: Iterable[str], rows: list[str]) -> str:
    """A table that stays one for screen readers where it is shown as blocks on a narrow screen."""
    head = "".join(f'<th scope="col" role="columnheader">{safe(text)}</th>' for text in heads)
    kind = "rows long" if len(rows) > MANY_ROWS else "rows"
    return (
        f'<table class="{kind}" id="{name}" role="table"><caption>{safe(caption)}</caption>'
        f'<thead role="rowgroup"><tr role="row">{head}</tr></thead>\n'
        f'<tbody role="rowgroup">\n{"".join(rows)}</tbody></table>'
    )


def options(texts: dict[str, str]) -> str:
    """The options of a choice: each value with its text."""
    return "".join(f'<option value="{safe(value)}">{safe(text)}</option>' for value, text in texts.items())


def plural(count: int, word: str) -> str:
    return f"{count:,} {word}" if count == 1 else f"{count:,} {word}s"


def audited_text(audited: Audited | None) -> str:
    """What the head of a page says of an audit."""
    if audited is None:
        return "<strong>Not audited.</strong> No program was asked whether an office may have written this journal."
    script = " This file is a script: its sum says nothing of a program that it starts." if audited.is_script else ""
    return (
        f"<strong>Audited: legal.</strong> The program {safe(audited.name)} (sha256 <code>{safe(audited.sum)}</code>) "
        f"says that an office may have written this journal, {plural(audited.entries, 'line')} of it.{script}"
    )


def sources_text(sources: Iterable[Source]) -> str:
    """The files that are shown, each with its sum."""
    return "\n".join(
        f"<p>{safe(it.what)} <strong>{safe(it.name)}</strong>: sha256 <code>{safe(it.sum)}</code></p>"
        for it in sources
    )
