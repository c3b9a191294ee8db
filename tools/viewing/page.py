"""A page of a capture, which stands alone: no script, and no style or font from elsewhere."""
from __future__ import annotations

import base64
import hashlib
import html
import os
from dataclasses import dataclass
from typing import Iterator, List

from viewing.articles import article
from viewing.octets import element, shown, text_of
from viewing.sections import sections
from viewing.session import Judgement
from viewing.top import contents, top, verdict

FOLDER = os.path.dirname(__file__)


@dataclass
class Page:
    """What a page is made of: what is said of a capture, the page's title, and the options that `explain` was given."""

    judgement: Judgement
    title: bytes
    options: List[str]

    def text(self) -> str:
        """The whole page."""
        style = style_of_several() if self.judgement.has_several() else sheet("page.css")
        return "\n".join((*head(self.title, style), "<body>", *self.body(), "</body>", "</html>", ""))

    def body(self) -> Iterator[str]:
        """What stands in the page."""
        judgement = self.judgement
        yield from ("<header>", f"<h1>{shown(self.title)}</h1>", *verdict(judgement), *self.judged_with())
        yield from (*contents(judgement), "</header>")
        if judgement.bad:
            yield '<input type="checkbox" id="only">'
        yield from top(judgement)
        yield "<main>"
        for session in judgement.sessions:
            yield from article(judgement, session) if judgement.has_several() else sections(judgement, session)
        yield "</main>"

    def judged_with(self) -> Iterator[str]:
        """The options, if there are any."""
        if self.options:
            yield f"<p>Judged with {' '.join(element('code', option.encode()) for option in self.options)}.</p>"


def sheet(name: str) -> str:
    """A style sheet of this folder."""
    with open(os.path.join(FOLDER, name), encoding="utf-8") as file:
        return file.read()


def style_of_several() -> str:
    """The style of a page of several sessions. The lines of a short one look as those in a section, and stand in its
    article."""
    return sheet("page.css").replace("section > ol", ":is(article, section) > ol") + sheet("sessions.css")


def head(title: bytes, style: str) -> Iterator[str]:
    """The head of a page, which forbids all but its own style."""
    digest = base64.b64encode(hashlib.sha256(style.encode()).digest()).decode()
    policy = f"default-src 'none'; style-src 'sha256-{digest}'; base-uri 'none'; form-action 'none'"
    yield from ("<!DOCTYPE html>", '<html lang="en">', "<head>", '<meta charset="utf-8">')
    yield f'<meta http-equiv="Content-Security-Policy" content="{policy}">'
    yield '<meta name="viewport" content="width=device-width, initial-scale=1">'
    yield f"<title>{html.escape(text_of(title), quote=False)}</title>"
    yield from (f"<style>{style}</style>", "</head>")
