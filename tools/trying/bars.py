"""Tries what the bar of a page shows of several sessions, and how light the page of very many is."""
from __future__ import annotations

from typing import List, Tuple

from trying.reader import PageReader
from trying.trial import GREETING, MOST_ELEMENTS_OF_SESSIONS, Trial, named, session

ASKED = b"DATE", b"111 20261128000000"
GROUP = b"GROUP g", b"211 1 5 5 g"
THERE = b"STAT 5", b"223 5 <a@x>"
GONE = b"STAT 5", b"423 no"


def try_bars(trial: Trial) -> None:
    """All that is tried here."""
    for part in try_begins, try_unequal, try_answerless, try_rulers, try_one, try_lone_greetings:
        part(trial)


def marks_of(page: PageReader) -> List[Tuple[str, str]]:
    """Where the marks of a bar lead, and what they are called."""
    return [(part.link, part.text) for part in page.bar if part.is_mark]


def shape_of(page: PageReader) -> str:
    """A bar in letters: of a mark, of a cell that leads to bad answers, and of another."""
    return "".join("|" if part.is_mark else "B" if part.link else "." for part in page.bar)


def try_begins(trial: Trial) -> None:
    """That each session begins with a mark, which leads to it, and takes the place of no answer."""
    sent = session(GREETING, GROUP, THERE), session(GREETING, GROUP, GONE), session(GREETING), session(GREETING, GONE)
    page = trial.page("begins", b"".join(named(b"<%d>" % number, octets) for number, octets in enumerate(sent)))
    trial.expect(shape_of(page) == "|...|..B|.|.B", f"begins: {shape_of(page)}")
    wanted = [(f"#s{number}", f"session {number}") for number in range(1, 5)]
    trial.expect(marks_of(page) == wanted, f"begins: {marks_of(page)}")
    links = [part.link for part in page.bar if part.link and not part.is_mark]
    trial.expect(links == ["#s2a2", "#s4a1"], f"begins: {links}")


def try_unequal(trial: Trial) -> None:
    """That short sessions beside a long one are seen, each with a cell, and cells are of one session each."""
    long = session(GREETING, GROUP, THERE, *[ASKED] * 1997)
    sent = [long, *[session(GREETING, GROUP, GONE), session(GREETING)] * 5, long]
    page = trial.page("unequal", b"".join(named(b"", octets) for octets in sent))
    # half of a hundred for half of the answers
    wanted = ["", 50 * ".", *["B", "."] * 5, 50 * "."]
    trial.expect(shape_of(page).split("|") == wanted, f"unequal: {shape_of(page)}")


def try_answerless(trial: Trial) -> None:
    """That sessions without an answer share the mark of the next that has one, and the last ones have one too."""
    none, greeting = b"", session(GREETING)
    sent = none, greeting, none, none, greeting, greeting, none, none
    page = trial.page("answerless", b"".join(named(b"", octets) for octets in sent))
    wanted = [
        ("#s1", "sessions 1 to 2"), ("#s3", "sessions 3 to 5"), ("#s6", "session 6"), ("#s7", "sessions 7 to 8"),
    ]
    trial.expect((shape_of(page), marks_of(page)) == ("|.|.|.|", wanted), f"answerless: {marks_of(page)}")
    page = trial.page("no answer", named(b"", none) * 3)
    trial.expect(page.bar == [], f"no answer: {page.bar}")


def try_rulers(trial: Trial) -> None:
    """That of more sessions than can be seen apart only some are marked, as on a ruler, which is said."""
    for count, every in ((49, 1), (50, 1), (51, 2), (101, 2), (102, 5), (250, 5), (256, 10), (600, 20)):
        page = trial.page(f"{count} sessions", b"".join(named(b"", session(GREETING)) for _ in range(count)))
        wanted = [(f"#s{number}", f"session {number}") for number in range(every, count + 1, every)]
        trial.expect(marks_of(page) == wanted, f"{count} sessions: {marks_of(page)}")
        trial.expect("||" not in shape_of(page), f"{count} sessions: {shape_of(page)}")
        is_said = f"A mark every {every} sessions" in page.text
        trial.expect(is_said == (every > 1) and page.text.count("A mark") < 2, f"{count} sessions: {page.text[:500]}")


def try_one(trial: Trial) -> None:
    """That the page of a capture that is one session has no mark."""
    page = trial.page("one", session(GREETING, *[ASKED] * 400, GROUP, THERE, GONE))
    trial.expect(shape_of(page) == 99 * "." + "B", f"one: {shape_of(page)}")
    trial.expect(page.labels == ["Where the bad answers are"], f"one: {page.labels}")


def lone_greetings() -> bytes:
    """The capture of 10,000 sessions that are greetings alone."""
    return b"".join(named(b"captures/%d.capture" % number, session(GREETING)) for number in range(1, 10001))


def try_lone_greetings(trial: Trial) -> None:
    """That the page of these is light, and has each session, and its line as others have it."""
    page = trial.page("greetings", lone_greetings())
    trial.expect(page.elements <= MOST_ELEMENTS_OF_SESSIONS, f"greetings: the page has {page.elements} elements")
    trial.expect((page.counts["article"], page.counts["h2"]) == (10000, 10000), f"greetings: {page.counts}")
    texts = {"span": "greeting", "samp": "200 hi"}
    lines = page.all_lines()
    is_whole = all((line.state, line.texts) == ("says nothing", texts) for _, _, line in lines)
    trial.expect(len(lines) == 10000 and is_whole, f"greetings: {len(lines)} lines")
    wanted = [(f"#s{number}", f"session {number}") for number in range(200, 10001, 200)]
    trial.expect(marks_of(page) == wanted, f"greetings: {marks_of(page)}")
