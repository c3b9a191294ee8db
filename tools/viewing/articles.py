"""The sessions of a page that has several: each is an article under its heading. There may be ten thousand, and a page
opens the sooner, the fewer elements they are made of."""
from __future__ import annotations

from typing import Iterator

from viewing.lines import LINES, is_plain, item, lone_greeting
from viewing.octets import shown
from viewing.sections import LOW, sections, unanswered
from viewing.session import Judgement, Session
from viewing.top import summary


def article(judgement: Judgement, session: Session) -> Iterator[str]:
    """A session. It is sound without a bad answer, if another has one."""
    name, title = f"s{session.number}", f"session {session.number}"
    sound = ' class="sound"' if judgement.bad and not judgement.bad_in(session) else ""
    if session.name:
        title += f" {shown(session.name)}"
    yield f'<article{sound} aria-labelledby="{name}"><h2 id="{name}">{title}</h2>'
    yield summary(judgement, session)
    yield from short(judgement, session) if is_short(session) else sections(judgement, session)
    yield "</article>"


def is_short(session: Session) -> bool:
    """Whether a session has few lines."""
    return len(session.exchanges) + min(len(session.unanswered), LINES) < LOW


def short(judgement: Judgement, session: Session) -> Iterator[str]:
    """The lines of a short session, without sections."""
    exchanges = session.exchanges
    if len(exchanges) == 1 and is_plain(judgement, exchanges[0]):
        yield lone_greeting(judgement, exchanges[0])
    elif exchanges:
        yield f"<ol>{''.join(item(judgement, exchange) for exchange in exchanges)}</ol>"
    if session.unanswered:
        yield from unanswered(session)
