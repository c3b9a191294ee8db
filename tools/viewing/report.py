"""Reads what `nntpcheck show` and `nntpcheck explain` print (docs/FORMATS.md)."""
from __future__ import annotations

import re
from dataclasses import dataclass, field
from typing import Dict, Iterator, List, Optional

from viewing.places import CALLED, SOLE, Place, place_called

# The line that a session's part of a report begins with, where a capture has several.
TITLE = re.compile(r"session ([0-9]+)(?: .+)?")
SHOWN = re.compile(r"[0-9]+ ")
SHOWN_END = re.compile(r"end answers=([0-9]+) unanswered=([0-9]+)")
BAD = re.compile(r"bad answer ([0-9]+) ([A-Za-z]+)")
BECAUSE = re.compile(rf"because answer ({CALLED})")
# The answers in `in NAME since J at N since I` and in `because some of J to I`.
MENTIONED = re.compile(rf" (?:since|of|to) ({CALLED})")
END = re.compile(r"end (?:sessions=([0-9]+) )?answers=([0-9]+) bad=([0-9]+) unanswered=([0-9]+)")
# The classes of octets that answer nothing.
LEFT = ("Surplus", "Cut")


class NoReport(Exception):
    """What was printed is no report that can be read."""


@dataclass
class Shown:
    """What `show` prints of an exchange: a line, and lines under it."""

    line: str
    under: List[str] = field(default_factory=list)


@dataclass
class Display:
    """What `show` prints of a session: its title, where a capture has several, its exchanges, and its last line."""

    title: str = ""
    shown: List[Shown] = field(default_factory=list)
    end: str = ""

    def add(self, line: str) -> None:
        """Reads a line, which isn't a title."""
        if SHOWN.match(line):
            self.shown.append(Shown(line))
        elif line.startswith("  ") and self.shown:
            self.shown[-1].under.append(line[2:])
        elif line:
            self.end = line


@dataclass
class Told:
    """An answer, and the lines that tell of it."""

    place: Place
    lines: List[str] = field(default_factory=list)


@dataclass
class Bad(Told):
    """A bad answer, its class, and the answers behind `because`."""

    kind: str = ""
    cited: List[Told] = field(default_factory=list)


@dataclass
class Explanation:
    """What `explain` prints."""

    # None of a capture that is one session.
    sessions: Optional[int]
    answers: int
    unanswered: int
    bad: Dict[Place, Bad]
    # Lines before the first bad answer.
    front: List[str]
    # The titles of the sessions that have bad answers.
    titles: Dict[int, str]

    def left(self) -> Dict[int, int]:
        """The answers from which on the server's octets answer nothing, by their sessions."""
        return {place.session: place.index for place, bad in self.bad.items() if bad.kind in LEFT}

    def told(self) -> Iterator[Told]:
        """All that is told of answers, of bad ones and of their reasons."""
        for bad in self.bad.values():
            yield from (bad, *bad.cited)

    def mentioned(self) -> Iterator[Place]:
        """The answers that lines tell of otherwise than behind `because`."""
        for told in self.told():
            for line in told.lines:
                if line.startswith(("in ", "because ")):
                    yield from (place_called(called, told.place.session) for called in MENTIONED.findall(line))

    def named_by(self) -> Dict[Place, List[Place]]:
        """Each answer that is named behind `because`, and the bad ones that name it."""
        named: Dict[Place, List[Place]] = {}
        for bad in self.bad.values():
            for cited in bad.cited:
                named.setdefault(cited.place, []).append(bad.place)
        return named


def displays_of(report: str) -> List[Display]:
    """The sessions in a report of `show`."""
    displays: List[Display] = []
    for line in report.split("\n"):
        if TITLE.fullmatch(line):
            displays.append(Display(line))
        else:
            if not displays:
                displays.append(Display())
            displays[-1].add(line)
    return displays


def explanation_of(report: str) -> Explanation:
    """What a report of `explain` tells."""
    front: List[str] = []
    bad: Dict[Place, Bad] = {}
    titles: Dict[int, str] = {}
    session, lines = SOLE, front
    for line in report.split("\n"):
        title, is_bad, because, end = (form.fullmatch(line) for form in (TITLE, BAD, BECAUSE, END))
        if end:
            sessions = int(end[1]) if end[1] else None
            return Explanation(sessions, int(end[2]), int(end[4]), bad, front, titles)
        if title:
            session = int(title[1])
            titles[session] = line
        elif is_bad:
            place = Place(session, int(is_bad[1]))
            last = bad[place] = Bad(place, kind=is_bad[2])
            lines = last.lines
        elif because and bad:
            last.cited.append(Told(place_called(because[1], session)))
            lines = last.cited[-1].lines
        else:
            lines.append(line)
    raise NoReport("explain: its report has no end")
