"""The places of answers in a capture, what they are called, and links to them."""
from __future__ import annotations

from typing import NamedTuple

# The session of a capture that has just one: it is called by no number.
SOLE = 0
# How reports call an answer: one that is called without a session is of the session that is told.
CALLED = r"[0-9]+(?: of session [0-9]+)?"


class Place(NamedTuple):
    """An answer: its session, counted from 1 where a capture has several, and its number in it."""

    session: int
    index: int

    def identity(self) -> str:
        """The id of the answer's line in a page."""
        return f"a{self.index}" if self.session == SOLE else f"s{self.session}a{self.index}"

    def called_in(self, session: int = SOLE) -> str:
        """What it is called where this session is told."""
        return f"answer {self.index}" + ("" if self.session == session else f" of session {self.session}")


def place_called(text: str, session: int) -> Place:
    """The answer that is called so where this session is told, as `4` or `4 of session 2`."""
    index, _, other = text.partition(" of session ")
    return Place(int(other or session), int(index))


def link(place: Place, session: int = SOLE) -> str:
    """A link to an answer, which stands where this session is told."""
    return f'<a href="#{place.identity()}">{place.called_in(session)}</a>'
