"""The sessions of a capture as a page shows them: what was sent, and what nntpcheck says of it."""
from __future__ import annotations

from dataclasses import dataclass, field
from typing import Dict, Iterator, List, Set

from viewing.capture import Disagreement, Exchange, pair, sessions_in
from viewing.octets import octets_of, printed
from viewing.passwords import without_passwords, without_secret
from viewing.places import SOLE, Place
from viewing.report import SHOWN_END, Display, Explanation, displays_of, explanation_of

# How many octets of a line or a name reports print, and how many lines of each answer before `explain` tells of it.
TOLD = 512
FRONT = 2


@dataclass
class Session:
    """The exchanges of a session, the lines that weren't answered, and what `show` prints of them."""

    number: int
    name: bytes
    exchanges: List[Exchange]
    unanswered: List[Exchange]
    display: Display

    def title(self) -> str:
        """The line that stands before what reports print of the session, where there are several."""
        if self.number == SOLE:
            return ""
        return f"session {self.number}" + (f" {printed(self.name[:TOLD])}" if self.name else "")

    def under(self, exchange: Exchange) -> List[str]:
        """The lines that `show` prints under an exchange."""
        shown = self.display.shown
        return shown[exchange.index].under if exchange.index < len(shown) else []


@dataclass
class Judgement:
    """The sessions of a capture, and what nntpcheck says of all of them."""

    sessions: List[Session]
    explanation: Explanation
    # Whether overviews are judged.
    has_overviews: bool
    # Which answers are bad, in their order.
    bad: List[Place] = field(init=False)
    # The answers that are named behind `because`, each with the bad ones that name it.
    named_by: Dict[Place, List[Place]] = field(init=False)
    # The answers to which a page has links.
    linked: Set[Place] = field(init=False)
    # The bad answers by their sessions.
    bad_of: Dict[int, List[Place]] = field(init=False)

    def __post_init__(self) -> None:
        self.bad = sorted(self.explanation.bad)
        self.bad_of = {}
        for place in self.bad:
            self.bad_of.setdefault(place.session, []).append(place)
        self.named_by = self.explanation.named_by()
        self.linked = {*self.bad, *self.named_by, *self.explanation.mentioned()}

    def has_several(self) -> bool:
        """Whether this is the judgement on a capture of several sessions, though it may have but one."""
        return self.explanation.sessions is not None

    def bad_in(self, session: Session) -> List[Place]:
        """Which answers of a session are bad, in their order."""
        return self.bad_of.get(session.number, [])

    def exchanges(self) -> List[Exchange]:
        """The exchanges of all sessions."""
        return [exchange for session in self.sessions for exchange in session.exchanges]

    def session_of(self, place: Place) -> Session:
        """The session that an answer is of."""
        return self.sessions[0 if place.session == SOLE else place.session - 1]

    def exchange_at(self, place: Place) -> Exchange:
        """An answer, and what it answers."""
        return self.session_of(place).exchanges[place.index]

    def state(self, exchange: Exchange) -> str:
        """What is said of an answer, in a word or two."""
        bad = self.explanation.bad.get(exchange.place())
        if bad:
            return bad.kind
        if exchange.place() in self.named_by:
            return "named"
        return "says nothing" if exchange.says_nothing(self.has_overviews) else "accepted"


def judgement_of(capture: bytes, show: str, explain: str, has_overviews: bool, has_passwords: bool) -> Judgement:
    """What these reports of `show` and `explain` say of a capture, the second by judging overviews or not."""
    explanation = explanation_of(explain)
    sessions = list(sessions_of(capture, show, explanation))
    agree(sessions, explanation)
    for told in explanation.told():
        # what the exchange itself has isn't told again
        told.lines = told.lines[FRONT:]
    if not has_passwords:
        blot_out(sessions, explanation)
    return Judgement(sessions, explanation, has_overviews)


def sessions_of(capture: bytes, show: str, explanation: Explanation) -> Iterator[Session]:
    """The sessions of a capture, each with what `show` prints of it."""
    all_sent, displays, left = sessions_in(capture), displays_of(show), explanation.left()
    has_several = all_sent[0].name is not None
    if len(displays) != len(all_sent) or explanation.sessions != (len(all_sent) if has_several else None):
        raise Disagreement("there is another number of sessions")
    for number, (sent, display) in enumerate(zip(all_sent, displays), 1 if has_several else SOLE):
        lines = list(pair(sent, number, left.get(number)))
        exchanges = [line for line in lines if line.initial is not None]
        yield Session(number, sent.name or b"", exchanges, lines[len(exchanges) :], display)


def blot_out(sessions: List[Session], explanation: Explanation) -> None:
    """Blots out the passwords, also in what `explain` tells."""
    for session in sessions:
        lines = list(without_passwords((*session.exchanges, *session.unanswered)))
        answers = len(session.exchanges)
        session.exchanges, session.unanswered = lines[:answers], lines[answers:]
    for told in explanation.told():
        told.lines = [printed(without_secret(octets_of(line))) for line in told.lines]


def agree(sessions: List[Session], explanation: Explanation) -> None:
    """Makes sure that both reports tell of the same lines as the exchanges: theirs are those that count."""
    counts = sum(len(session.exchanges) for session in sessions), sum(len(session.unanswered) for session in sessions)
    if counts != (explanation.answers, explanation.unanswered):
        raise Disagreement("there is another number of answers")
    by_number = {session.number: session for session in sessions}
    for session in sessions:
        agree_with_display(session)
    for number, title in explanation.titles.items():
        if number not in by_number or title != by_number[number].title():
            raise Disagreement(f"`explain` has another session {number}")
    for told in explanation.told():
        exchanges = by_number[told.place.session].exchanges if told.place.session in by_number else []
        if told.place.index >= len(exchanges) or told.lines[:FRONT] != front(exchanges[told.place.index]):
            raise Disagreement(f"`explain` has other lines of {told.place.called_in()}")


def agree_with_display(session: Session) -> None:
    """Makes sure that `show` tells of the same session."""
    display, end = session.display, SHOWN_END.fullmatch(session.display.end)
    if display.title != session.title():
        raise Disagreement(f"`show` has another session {session.number}")
    counts = len(session.exchanges), len(session.unanswered)
    if len(display.shown) > counts[0] or (end and (int(end[1]), int(end[2])) != counts):
        raise Disagreement("there is another number of answers")
    for exchange, there in zip(session.exchanges, display.shown):
        if exchange.as_shown() != there.line:
            raise Disagreement(f"`show` has another line of {exchange.place().called_in()}")


def front(exchange: Exchange) -> List[str]:
    """The lines of an exchange that `explain` prints."""
    command = "no command" if exchange.line is None else f"command {printed(exchange.line[:TOLD])}"
    return [command, f"answer {printed((exchange.initial or b'')[:TOLD])}"]
