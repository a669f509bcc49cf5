"""The page as one HTML file, its tables as CSV, and the whole as JSON."""

from __future__ import annotations

import csv
import io
import json
from dataclasses import dataclass, field
from html import escape
from pathlib import Path

from ..given_text import spreadsheet_text
from .tables import Column, Table, cell_text

NUMBERS = ("money", "rate", "count", "price", "decimal")
CURRENCY = "All amounts are in dollars of the United States."


@dataclass
class Page:
    """All that the page says."""

    title: str
    verdict: str
    verdict_text: str
    facts: list
    # Of each file: what it is, its name, its digest.
    files: list
    tables: list
    # What is proved, and what isn't, below its words; and the paragraphs that are signed.
    meaning: tuple
    certification: list
    # The day on which the page is made, and by which program, for the head of each page.
    made: str = ""
    program: str = ""
    picture: str = ""
    remarks: list = field(default_factory=list)
    # What has to be known of the program, in the box of the verdict; empty where it was proved here.
    standing: str = ""

    @property
    def shown(self) -> list:
        return [table for table in self.tables if table.exhibit]


def _class(column: Column) -> str:
    return ' class="number"' if column.kind in NUMBERS else ' class="words"' if column.kind == "text" else ""


def _foot_row(table: Table, values: list) -> str:
    cells = []
    for place, (column, value) in enumerate(zip(table.columns, values)):
        text = str(value) if place == 0 and value is not None else cell_text(column, value, True)
        cells.append("<td%s>%s</td>" % (_class(column) if place else "", escape(text)))
    return "<tr>%s</tr>" % "".join(cells)


def _foot(table: Table) -> list[str]:
    """The totals, and what stands below them."""
    if not any(column.adds_up for column in table.columns):
        return []
    totals = ["Total"] + [table.total(place) for place in range(1, len(table.columns))]
    return ["<tfoot>%s</tfoot>" % "".join(_foot_row(table, list(row)) for row in [totals] + table.further)]


def table_html(table: Table) -> str:
    """An exhibit: its letter and title, its headings, its rows, its totals and its remark."""
    parts = ['<section class="exhibit">', '<h2 id="%s">%s</h2>' % (table.key, escape(table.heading)), '<div class="scroll"><table>']
    parts.append(
        "<thead><tr>%s</tr></thead>"
        % "".join('<th scope="col"%s>%s</th>' % (_class(column), escape(column.name)) for column in table.columns)
    )
    parts.append("<tbody>")
    for number, row in enumerate(table.rows):
        cells = "".join(
            "<td%s>%s</td>" % (_class(column), escape(cell_text(column, value, True)))
            for column, value in zip(table.columns, row)
        )
        parts.append("<tr%s>%s</tr>" % (' class="idle"' if number in table.marked else "", cells))
    parts.append("</tbody>")
    parts += _foot(table) + ["</table></div>"]
    if table.remark:
        parts.append('<p class="remark">%s</p>' % escape(table.remark))
    return "\n".join(parts + ["</section>"])


def _verdict(page: Page) -> str:
    """The first box: the verdict, and what has to be known of the program that says it."""
    texts = [page.verdict_text] + [page.standing] * bool(page.standing)
    said = "".join("<p>%s</p>" % escape(text) for text in texts)
    return '<div class="verdict"><strong>%s</strong>%s</div>' % (escape(page.verdict), said)


def _facts(page: Page) -> list[str]:
    rows = ["<dt>%s</dt><dd>%s</dd>" % (escape(name), escape(value)) for name, value in page.facts]
    return ['<dl class="facts">'] + rows + ["</dl>"]


def _contents(page: Page) -> list[str]:
    """The list of exhibits."""
    rows = ['<li><a href="#%s">%s</a></li>' % (table.key, escape(table.heading)) for table in page.shown]
    return ['<h2 id="contents">Exhibits</h2>', '<ol class="contents">'] + rows + ["</ol>"]


def _files(page: Page) -> list[str]:
    rows = [
        '<tr><td>%s</td><td>%s</td><td class="digest">%s</td></tr>' % (escape(what), escape(name), escape(digest))
        for what, name, digest in page.files
    ]
    return (
        [
            '<section class="exhibit">',
            '<h2 id="files">What was read, and by which program</h2>',
            '<div class="scroll"><table>',
            '<thead><tr><th scope="col">file</th><th scope="col">name</th><th scope="col">SHA-256</th></tr></thead>',
            "<tbody>",
        ]
        + rows
        + ["</tbody></table></div>", "</section>"]
    )


def _meaning(page: Page) -> list[str]:
    rows = ["<p><strong>%s</strong>: %s</p>" % (escape(word), escape(text)) for word, text in page.meaning]
    return ['<section class="whole">', '<h2 id="meaning">What is proved, and what isn\'t</h2>'] + rows + ["</section>"]


def _certification(page: Page) -> list[str]:
    rows = ["<p>%s</p>" % escape(paragraph) for paragraph in page.certification]
    return ['<section class="whole">', '<h2 id="certification">Certification</h2>'] + rows + [SIGNATURES, "</section>"]


SIGNATURES = '<div class="signatures">%s</div>' % "".join(
    "<div>%s</div>" % what
    for what in ("Verified by (name, firm)", "Date", "Signature", "Place", "For the issuer (name, title)", "Date", "Signature", "Place")
)


def _style_text(text: str) -> str:
    """A text as a string of a style sheet."""
    kept = {letter: "\\%x " % ord(letter) for letter in '\\"<>&\n\r'}
    return '"%s"' % "".join(kept.get(letter, letter) for letter in text)


def _running_head(page: Page) -> str:
    """The head and the foot of each printed page."""
    places = (
        ("top-left", _style_text(page.title)),
        ("top-right", _style_text("Made on %s" % page.made)),
        ("bottom-left", _style_text(page.program)),
        ("bottom-right", '"Page " counter(page) " of " counter(pages)'),
    )
    boxes = " ".join("@%s { content: %s; font: 7.5pt Arial, sans-serif; color: #5b6775; }" % place for place in places)
    return "@page { %s }" % boxes


def page_html(page: Page) -> str:
    style = (Path(__file__).parent / "style.css").read_text(encoding="utf-8")
    parts = [
        "<!DOCTYPE html>",
        '<html lang="en">',
        "<head>",
        '<meta charset="utf-8">',
        '<meta name="viewport" content="width=device-width, initial-scale=1">',
        "<title>%s</title>" % escape(page.title),
        "<style>",
        style,
        _running_head(page),
        "</style>",
        "</head>",
        "<body>",
        "<h1>%s</h1>" % escape(page.title),
        '<p class="subtitle">Verification of a refunding escrow, made on %s. %s</p>' % (escape(page.made), CURRENCY),
        _verdict(page),
    ]
    parts += _facts(page)
    parts += ['<p class="remark">%s</p>' % escape(remark) for remark in page.remarks]
    parts += _contents(page)
    for table in page.shown:
        parts.append(table_html(table))
        if table.key == "cash" and page.picture:
            head = '<h2 id="picture">Receipts, needs and idle cash over time</h2>'
            parts += ['<section class="whole">', head, '<div class="scroll">', page.picture, "</div>", "</section>"]
    parts += _files(page) + _meaning(page) + _certification(page) + ["</body>", "</html>", ""]
    return "\n".join(parts)


def page_json(page: Page) -> str:
    """All that the page says, its figures as they stand in the tables for a spreadsheet."""

    def rows_of(table: Table, rows: list) -> list:
        return [[cell_text(column, value, False) for column, value in zip(table.columns, row)] for row in rows]

    def described(table: Table) -> dict:
        totals = {column.name: cell_text(column, table.total(place), False) for place, column in enumerate(table.columns) if column.adds_up}
        further = [[str(row[0])] + [cell_text(column, value, False) for column, value in list(zip(table.columns, row))[1:]] for row in table.further]
        head = {"exhibit": table.exhibit, "title": table.title, "columns": [column.name for column in table.columns]}
        return {**head, "rows": rows_of(table, table.rows), "totals": totals, "further": further, "remark": table.remark}

    whole = {
        "title": page.title,
        "made": page.made,
        "program": page.program,
        "currency": "USD",
        "verdict": page.verdict,
        "verdict text": page.verdict_text,
        "standing": page.standing,
        "facts": dict(page.facts),
        "remarks": page.remarks,
        "exhibits": {table.key: described(table) for table in page.tables if table.columns},
        "files": [dict(zip(("file", "name", "sha256"), row)) for row in page.files],
        "meaning": dict(page.meaning),
        "certification": page.certification,
    }
    return json.dumps(whole, ensure_ascii=False, indent=1) + "\n"


def table_csv(table: Table) -> str:
    """A table with a heading row and plain numbers, without totals; nothing of one that this case hasn't got."""
    text = io.StringIO()
    rows = csv.writer(text, lineterminator="\n")
    if table.columns:
        rows.writerow([column.name for column in table.columns])
    for row in table.rows:
        cells = [(column, cell_text(column, value, False)) for column, value in zip(table.columns, row)]
        rows.writerow([text if column.kind in NUMBERS else spreadsheet_text(text) for column, text in cells])
    return text.getvalue()
