"""The lines of a session in sections: its exchanges, a hundred to a heading, and its lines without an answer."""
from __future__ import annotations

from typing import Iterator

from viewing.lines import LINES, asked, item
from viewing.octets import counted
from viewing.places import SOLE
from viewing.session import Judgement, Session
from viewing.top import unanswered_id

# How many exchanges stand under one heading, and below how many lines a section is a low one, and a session short.
TOGETHER = 100
LOW = 25


def sections(judgement: Judgement, session: Session) -> Iterator[str]:
    """The exchanges of a session, and the lines without an answer."""
    for first in range(0, len(session.exchanges), TOGETHER):
        yield from section(judgement, session, first)
    if session.unanswered:
        yield opened(session, len(session.unanswered), True) + "\n".join(unanswered(session))
        yield "</section>"


def section(judgement: Judgement, session: Session, first: int) -> Iterator[str]:
    """Exchanges under one heading, which is left out where it is all of one among several sessions."""
    exchanges = session.exchanges[first : first + TOGETHER]
    last = exchanges[-1].index
    is_clean = all(exchange.place() not in judgement.explanation.bad for exchange in exchanges)
    yield opened(session, len(exchanges), is_clean)
    if session.number == SOLE or len(session.exchanges) > TOGETHER:
        yield heading(session, f"Answers {first} to {last}" if first < last else f"Answer {first}")
    yield f"<ol>{''.join(item(judgement, exchange) for exchange in exchanges)}</ol>"
    yield "</section>"


def opened(session: Session, lines: int, is_clean: bool) -> str:
    """The beginning of a section. It is clean without a bad answer, and among several sessions low with few lines."""
    is_low = session.number != SOLE and lines < LOW
    classes = [name for name, is_so in (("clean", is_clean), ("low", is_low)) if is_so]
    return f'<section class="{" ".join(classes)}">' if classes else "<section>"


def heading(session: Session, text: str, attribute: str = "") -> str:
    """The heading of a section, which is one below that of the session, if there are several."""
    tag = "h2" if session.number == SOLE else "h3"
    return f"<{tag}{attribute}>{text}</{tag}>"


def unanswered(session: Session) -> Iterator[str]:
    """The first lines without an answer under their heading, and how many more there are."""
    lines = session.unanswered
    title = heading(session, "Without an answer", f' id="{unanswered_id(session)}"')
    yield f"{title}<ol>"
    for exchange in lines[:LINES]:
        yield f'<li class="nothing">\n{exchange.index} no answer {asked(exchange)}</li>'
    yield "</ol>"
    if len(lines) > LINES:
        yield f"<p>and {counted(len(lines) - LINES, 'line')} more</p>"
