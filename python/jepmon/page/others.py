"""The table of the other keys of a history that are not legal, with links to their pages."""
from __future__ import annotations

import html

from .given import Other, PageInput
from .labels import printable


def others_table(given: PageInput) -> str:
    """The section as HTML; nothing if there is no other key."""
    if given.back:
        return f'<section class="others"><p><a href="{html.escape(given.back)}">The first key that is not legal</a></p></section>'
    if not given.others:
        return ""
    rows = "".join(map(row, given.others))
    return ('<section class="others"><h2>Other keys that are not legal</h2><div class="scrolled"><table><thead><tr><th scope="col">key</th>'
            f'<th scope="col">verdict</th><th scope="col">event</th><th scope="col">cause</th></tr></thead><tbody>{rows}</tbody></table></div>'
            "</section>")


def row(other: Other) -> str:
    name = html.escape(printable(other.name))
    if other.link:
        name = f'<a href="{html.escape(other.link)}">{name}</a>'
    at = "" if other.at is None else str(other.at)
    return f'<tr><th scope="row">{name}</th><td>{other.word}</td><td>{at}</td><td>{html.escape(printable(other.headline))}</td></tr>'
