"""HTML: elements, names that are links or have their IRI with them, and what every page has around its content."""
import re
from html import escape
from pathlib import Path

FOLDER = Path(__file__).resolve().parent
FOOTER = "Made by tools/ of Jezundwa, which is not proved. The answers that it shows are, where Jezundwa gave them."


def attributes(**values):
    """Attributes by their names, without those that are None; `_` behind a name is left out, and others are dashes."""
    found = [(name.rstrip("_").replace("_", "-"), value) for name, value in values.items() if value is not None]
    return "".join(f" {name}" if value is True else f' {name}="{escape(str(value))}"' for name, value in found)


def wrapped(name, inner, **values):
    """An element around what is HTML already."""
    return f"<{name}{attributes(**values)}>{inner}</{name}>"


def element(name, text, style=None):
    """An element with a text, which is escaped."""
    return wrapped(name, escape(text, quote=False), class_=style)


def details(summary, inner, is_open=False, **values):
    """What can be folded away, behind a summary; all of them HTML already."""
    return wrapped("details", f"{wrapped('summary', summary)}{inner}", open=True if is_open else None, **values)


class LinkedNames:
    """Names as HTML: a link to the place of a thing on the page where it has one, and its IRI as what is shown when
    one points at it.
    """

    def __init__(self, names, places=None):
        self.names = names
        self.places = places or {}

    def of(self, iri):
        return self.marked(iri, self.names.of(iri))

    def marked(self, iri, text):
        """A text that stands for a thing."""
        text = escape(text, quote=False)
        if self.has_own_form(iri):
            return f"<span>{text}</span>"
        if iri in self.places:
            return f'<a href="#{self.places[iri]}" title="{escape(iri)}">{text}</a>'
        return f'<span title="{escape(iri)}">{text}</span>'

    def placed(self, iri):
        """The name at the place to which links lead."""
        text = escape(self.names.of(iri), quote=False)
        return f'<span id="{self.places[iri]}" title="{escape(iri)}">{text}</span>'

    def bare(self, iri):
        return self.names.of(iri)

    def order(self, iri):
        return self.names.order(iri)

    def shown(self, iris):
        return self.names.shown(iris)

    def has_own_form(self, iri):
        return self.names.has_own_form(iri)


def search_field(what):
    """The field for searching on the page, which is there only where its script runs."""
    label = '<label for="search">Search</label>'
    field = f'<input type="search" id="search" autocomplete="off" spellcheck="false" placeholder="{escape(what)}">'
    found = '<output id="found" class="quiet" for="search"></output>'
    return f'<div class="search" role="search" data-needs-script hidden>{label}{field}{found}</div>'


def table(heads, rows, label, is_narrow=False):
    """A table, which scrolls within the page where it is wide: its heads, its rows as HTML, and its name."""
    cells = "".join(f"<th scope='col'>{escape(it)}</th>" for it in heads)
    head = f"<thead><tr>{cells}</tr></thead>" if heads else ""
    kind = ' class="narrow"' if is_narrow else ""
    inner = f"<table{kind}>{head}<tbody>{''.join(rows)}</tbody></table>"
    return wrapped("div", inner, class_="wide", tabindex="0", role="group", aria_label=label)


def fold_buttons(within):
    """The buttons that open and close all that is within a part of the page."""
    buttons = [f'<button type="button" data-fold="{how}" data-within="{within}">{how} all</button>'
               for how in ("open", "close")]
    return f'<p class="tools" data-needs-script hidden>{" ".join(buttons)}</p>'


def bar(links, searched=""):
    """The bar with links to the parts of the page, as pairs of a place and a text, and with the field for search."""
    shown = [f'<a href="#{place}">{escape(text)}</a>' for place, text in links]
    parts = [*shown, search_field(searched)] if searched else shown
    return f'<nav class="bar" aria-label="This page"><div class="within">{" ".join(parts)}</div></nav>'


def note_box(lines):
    """A note that stands at the top of a page. Lines that are indented are the rows of a list."""
    parts, rows = [], []
    for line in lines:
        if line.startswith("  "):
            rows.append(element("li", " · ".join(re.split(r"\s{2,}", line.strip()))))
            continue
        parts += [wrapped("ul", "".join(rows))] * bool(rows) + [element("p", f"{line[0].upper()}{line[1:]}")]
        rows = []
    parts += [wrapped("ul", "".join(rows))] * bool(rows)
    return f'<div class="note" role="note">{"".join(parts)}</div>' if parts else ""


def whole_page(title, head, parts, navigation=""):
    """The page: its title, what stands above its parts, the bar, and the parts."""
    style = (FOLDER / "page.css").read_text(encoding="utf-8")
    script = (FOLDER / "page.js").read_text(encoding="utf-8")
    lines = [
        "<!DOCTYPE html>",
        '<html lang="en">',
        '<head><meta charset="utf-8"><meta name="viewport" content="width=device-width, initial-scale=1">',
        element("title", title),
        f"<style>\n{style}</style></head>",
        "<body>",
        '<header class="within">',
        *head,
        "</header>",
        navigation,
        '<main class="within">',
        *parts,
        "</main>",
        f'<footer class="within quiet">{element("p", FOOTER)}</footer>',
        f"<script>\n{script}</script>",
        "</body></html>",
        "",
    ]
    return "\n".join(lines)
