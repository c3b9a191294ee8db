"""What stands in a page above its lines: the verdict, the list of sessions, and the bar."""
from __future__ import annotations

from collections import Counter
from typing import Iterator

from viewing.bar import bar, marked_every
from viewing.lines import LINES, kind_of
from viewing.octets import counted, element
from viewing.places import SOLE, link
from viewing.sentences import CLASSES, sentence_of
from viewing.session import Judgement, Session

# How many sessions are listed unfolded.
UNFOLDED = 10
# What is counted, by state, and how.
COUNTS = {
    **{kind: kind for kind in CLASSES},
    "named": "named as a reason",
    "accepted": "accepted",
    "says nothing": "saying nothing of the spool",
}


def verdict(judgement: Judgement) -> Iterator[str]:
    """How many answers are bad, and how many have each state."""
    answers, bad, sessions = len(judgement.exchanges()), judgement.bad, len(judgement.sessions)
    within = f" in {counted(sessions, 'session')}" if judgement.has_several() else ""
    if bad:
        many = f"{len(bad):,} of {counted(answers, 'answer')}{within} {'is' if len(bad) == 1 else 'are'} bad"
        yield f"<p>{many}. The first is {link(bad[0])}.</p>"
    elif answers:
        explained = "the session" if sessions == 1 else "all sessions"
        yield f"<p>No answer of {answers:,}{within} is bad: some spool explains {explained}.</p>"
    else:
        yield f"<p>The server sent no answer{within}.</p>"
    yield from unanswered_first(judgement)
    if answers:
        yield from counts(judgement)
    for line in judgement.explanation.front:
        yield f"<p>{sentence_of(line)}</p>"


def unanswered_first(judgement: Judgement) -> Iterator[str]:
    """How many lines of the client have no answer, and where the first of them stand."""
    sessions = [session for session in judgement.sessions if session.unanswered]
    if sessions:
        count = sum(len(session.unanswered) for session in sessions)
        lines, verb = counted(count, "line"), "has" if count == 1 else "have"
        yield f'<p><a href="#{unanswered_id(sessions[0])}">{lines} of the client</a> {verb} no answer.</p>'


def unanswered_id(session: Session) -> str:
    """The id of the lines of a session that have no answer."""
    return "unanswered" if session.number == SOLE else f"s{session.number}unanswered"


def counts(judgement: Judgement) -> Iterator[str]:
    """How many answers have each state; so they explain the colours too."""
    states = Counter(judgement.state(exchange) for exchange in judgement.exchanges())
    yield '<ul class="counts">'
    for state in (*COUNTS, *sorted(set(states) - set(COUNTS))):
        if states[state]:
            yield f'<li class="{kind_of(state)}">{states[state]:,} {COUNTS.get(state, state)}</li>'
    yield "</ul>"


def contents(judgement: Judgement) -> Iterator[str]:
    """The first sessions, where a capture has several, each with a link to it."""
    if not judgement.has_several():
        return
    sessions = judgement.sessions
    is_open = " open" if len(sessions) <= UNFOLDED else ""
    yield f'<nav aria-label="Sessions"><details class="sessions"{is_open}>'
    yield f"<summary>{counted(len(sessions), 'session')}</summary><ul>"
    for session in sessions[:LINES]:
        sent = f'<a href="#s{session.number}">{called(session)}</a>: {summary(judgement, session)}'
        yield f'<li class="{mark_of(judgement, session)}">{sent}</li>'
    yield "</ul>"
    if len(sessions) > LINES:
        yield f"<p>and {counted(len(sessions) - LINES, 'session')} more</p>"
    yield "</details></nav>"


def called(session: Session) -> str:
    """The number and the name of a session."""
    return f"session {session.number}" + (f" {element('code', session.name)}" if session.name else "")


def summary(judgement: Judgement, session: Session) -> str:
    """How many answers a session has, how many of these are bad, and how many lines have none."""
    answers, unanswered_lines = len(session.exchanges), len(session.unanswered)
    bad = len(judgement.bad_in(session))
    parts = [counted(answers, "answer"), f"{bad:,} bad" if bad else "none bad"] if answers else ["no answer"]
    if unanswered_lines:
        parts.append(f"{counted(unanswered_lines, 'line')} without an answer")
    return ", ".join(parts)


def mark_of(judgement: Judgement, session: Session) -> str:
    """The class of a session in the list: that of its first bad answer, if it has any."""
    for place in judgement.bad_in(session):
        return kind_of(judgement.explanation.bad[place].kind)
    return "accepted" if session.exchanges else "nothing"


def top(judgement: Judgement) -> Iterator[str]:
    """What stays on top: the bar over all sessions, and the choice of the bad answers alone."""
    if not judgement.exchanges():
        return
    what = "Where sessions begin, and bad answers are" if judgement.has_several() else "Where the bad answers are"
    yield '<div class="top">'
    yield f'<nav class="bar" aria-label="{what}">{"".join(bar(judgement))}</nav>'
    if judgement.bad:
        yield '<label for="only">Bad ones alone</label>'
    every = marked_every(judgement)
    if every > 1:
        yield f"<small>A mark every {counted(every, 'session')}</small>"
    yield "</div>"
