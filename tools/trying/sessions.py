"""Tries the pages of captures that have several sessions."""
from __future__ import annotations

import glob
import os
import re
import subprocess
import tempfile
from typing import Iterator, Tuple

from trying.reader import PageReader
from trying.trial import GREETING, MOST_ELEMENTS, MOST_OCTETS, Trial, named, session

ONE = session(GREETING, (b"GROUP g", b"211 1 5 5 g"), (b"STAT 5", b"223 5 <a@x>"))
DENIED = session(GREETING, (b"GROUP g", b"211 1 5 5 g"), (b"STAT 5", b"423 no"))


def in_pieces(kind: bytes, octets: bytes) -> bytes:
    """What an end sent, an octet to a piece, with pieces of a spool between."""
    return b"".join(b"spool 1\nx%s 1\n%c" % (kind, octet) for octet in octets)


def try_sessions(trial: Trial) -> None:
    parts = try_examples, try_names, try_odd_sessions, try_many, try_reasons, try_ends, try_passwords
    for part in (*parts, try_lightness, try_damaged, try_disagreements):
        part(trial)


def joined(*paths: str) -> bytes:
    """What tools/join makes of captures."""
    return subprocess.run(["tools/join", *paths], stdout=subprocess.PIPE, check=True).stdout


def states_of(page: PageReader) -> str:
    """What is said of the answers, session by session."""
    return "; ".join(", ".join(line.state for line in lines.values()) for lines in page.sessions.values())


def expect_text(trial: Trial, name: str, page: PageReader, *texts: str) -> None:
    for text in texts:
        trial.expect(text in page.text, f"{name}: not '{text}': {page.text}")


def try_examples(trial: Trial) -> None:
    paths = sorted(glob.glob("examples/**/*.capture", recursive=True))
    trial.page("all examples", joined(*paths), "--show-passwords")
    trial.page("all examples", joined(*paths, *paths), "--strict-marks", "--wide", "--overview")
    page = trial.page("inn-between", joined(*sorted(glob.glob("examples/inn-between/*.capture"))))
    wanted = "says nothing, accepted, named, says nothing; says nothing, Contradiction, says nothing"
    trial.expect(states_of(page) == wanted, f"inn-between: {states_of(page)}")
    labels = ["Sessions", "Where sessions begin, and bad answers are"]
    trial.expect(page.labels == labels, f"inn-between: {page.labels}")
    reasons = page.sessions[2][1].reasons
    for sentence in (
        "Before it, no group was selected.",
        "The conflict is about the number 2 of test.kept",
        "It conflicts with this answer:answer 2 of session 1: STAT 2",
        "Before it, answer 1 of session 1 had selected test.kept, whose first article was the current one",
        "It says that the id at the number 2 of test.kept is <test.kept.2@host.example.org>.",
    ):
        trial.expect(sentence in reasons, f"inn-between: not '{sentence}': {reasons}")
    trial.expect(page.sessions[1][2].under == ["named by answer 1 of session 2"], f"inn-between: {page.sessions[1][2]}")
    expect_text(trial, "inn-between", page, "1 of 7 answers in 2 sessions is bad. The first is answer 1 of session 2.")
    bar = [link for link in page.links if link == "#s2a1"]
    trial.expect(len(bar) == 3, f"inn-between: these lead to the bad answer: {page.links}")


def try_names(trial: Trial) -> None:
    """Names of any octets: they are text, and no part of the markup or of a report."""
    markup = b'<h2 id="s9">&lt;"</article></main>\'>'
    names = (
        b"", b" ", b"   two  ", b"\\", b"\n", b"a\nsession 9 b", b"2 x", b"-->", markup, "\u00e9\u05d0\u202e".encode(),
        b"\x00\x09\x1b[31m\x7f\x80\xff\xed\xa0\x80", b"same", b"same", b"n" * 512, b"n" * 3000, b"\xff" * 700,
    )
    page = trial.page("names", b"".join(named(name, session(GREETING)) for name in names))
    titles = list(page.titles.values())
    trial.expect(titles[:3] == ["session 1", "session 2  ", "session 3    two  "], f"names: {titles[:3]}")
    trial.expect(titles[8] == f"session 9 {markup.decode()}", f"names: {titles[8]}")
    trial.expect(titles[9] == "session 10 \u00e9\u05d0\\xe2\\x80\\xae", f"names: {titles[9]}")
    trial.expect(titles[14].rstrip() == f"session 15 {'n' * 1000}", f"names: {titles[14]}")
    expect_text(trial, "names", page, "and 2,000 octets more", "No answer of 16 in 16 sessions is bad")


def try_odd_sessions(trial: Trial) -> None:
    """Sessions without octets or without answers, one in front without a name, and where spools and cuts stand."""
    page = trial.page("first without a name", ONE + named(b"second", DENIED))
    trial.expect(list(page.titles.values()) == ["session 1", "session 2 second"], f"nameless: {page.titles}")
    states = states_of(page)
    trial.expect(states.endswith("named; says nothing, accepted, Contradiction"), f"nameless: {states}")
    empty = b"client 0\nserver 0\nspool 3\nabc"
    page = trial.page("no octets in front", empty + named(b"a", ONE) + named(b"b", empty) + named(b"c"))
    trial.expect(list(page.titles.values()) == ["session 1 a", "session 2 b", "session 3 c"], f"empty: {page.titles}")
    trial.expect(list(page.summaries.values())[1:] == ["no answer", "no answer"], f"empty: {page.summaries}")
    page = trial.page("one", named(b"alone", ONE))
    expect_text(trial, "one", page, "No answer of 3 in 1 session is bad: some spool explains the session.")
    page = trial.page("none", named(b"", b"client 6\nDATE\r\n") + named(b"x", b"client 5\nDATE\r"))
    expect_text(trial, "none", page, "The server sent no answer in 2 sessions.", "1 line of the client has no answer.")
    trial.expect(page.summaries[1] == "no answer, 1 line without an answer", f"none: {page.summaries}")
    client = in_pieces(b"client", b"GROUP g\r\nSTAT 5\r\n")
    server = in_pieces(b"server", b"200 hi\r\n211 1 5 5 g\r\n423 no\r\n")
    page = trial.page("in pieces", named(b"a", ONE) + named(b"b", server + client))
    trial.expect(states_of(page).endswith("says nothing, accepted, Contradiction"), f"in pieces: {states_of(page)}")


def try_many(trial: Trial) -> None:
    """More sessions than are listed, more answers in one than stand under a heading, and more lines than are shown."""
    page = trial.page("many", b"".join(named(b"%d" % number, ONE) for number in range(250)))
    expect_text(trial, "many", page, "250 sessions", "and 50 sessions more")
    trial.expect("#s200" in page.links and "#s201" not in page.links, f"many: these are listed: {page.links}")
    long = session(GREETING, *[(b"DATE", b"111 20261128000000")] * 250)
    asked = b"client 1500\n" + b"DATE\r\n" * 250
    page = trial.page("long", named(b"a", long) + named(b"b", session(GREETING)) + named(b"c", asked))
    expect_text(trial, "long", page, "Answers 0 to 99", "Answers 200 to 250", "and 50 lines more")
    trial.expect("Answer 0" not in page.text.replace("Answers 0", ""), "long: a short session has a heading in it")
    trial.expect("#s3unanswered" in page.links, f"long: {page.links}")


def try_reasons(trial: Trial) -> None:
    """Reasons in sessions before, in the session itself, and more of them than are told."""
    group = GREETING, (b"GROUP g", b"211 5 1 10 g")
    shown = [(b"STAT %d" % number, b"223 %d <%d@x>" % (number, number)) for number in range(1, 7)]
    page = trial.page("count", named(b"a", session(*group, *shown[:3])) + named(b"b", session(*group, *shown[3:])))
    reasons = page.sessions[2][4].reasons
    some = "One or more of the accepted answers answer 0 of session 1 to answer "
    trial.expect(some in reasons, f"count: not '{some}': {reasons}")
    trial.expect("answer 2: STAT 4" in reasons and "answer 3: STAT 5" in reasons, f"count: {reasons}")
    low = session(GREETING, (b"GROUP g", b"211 1 5 5 g"), (b"GROUP g", b"211 2 4 5 g"))
    page = trial.page("low mark", named(b"a", session(GREETING)) + named(b"b", low))
    reasons = page.sessions[2][2].reasons
    trial.expect("This answer gave that low mark:answer 1: GROUP g" in reasons, f"low mark: {reasons}")
    trial.expect("#s2a1" in page.links_of(2, 2), f"low mark: {page.links_of(2, 2)}")
    page = trial.page("greeting", named(b"a", session(GREETING)) + named(b"b", session((None, b"281 hi"))))
    trial.expect("A greeting has no code 281." in page.sessions[2][0].reasons, f"greeting: {page.sessions[2][0]}")
    page = trial.page("next", b"".join(named(b"%d" % number, DENIED) + named(b"", ONE) for number in range(3)))
    reasons = page.sessions[4][2].reasons
    for way in ("The bad one before: answer 2 of session 2.", "The next bad one: answer 2 of session 6."):
        trial.expect(way in reasons, f"next: not '{way}': {reasons}")
    twice = session(GREETING, (b"GROUP g", b"211 1 5 5 g"), (b"STAT 5", b"423 no"), (b"STAT 5", b"423 no"))
    page = trial.page("twice", named(b"a", ONE) + named(b"b", twice))
    trial.expect("The bad one before: answer 2." in page.sessions[2][3].reasons, f"twice: {page.sessions[2][3]}")
    wanted = ["named by answer 2 of session 2, answer 3 of session 2"]
    trial.expect(page.sessions[1][2].under == wanted, f"twice: {page.sessions[1][2]}")


def try_ends(trial: Trial) -> None:
    """What nntpcheck can't pair, each in a session, and what is answered in others all the same."""
    numbers = b"LISTGROUP g", b"211 1 1 1 g\r\nnone\r\n1\r\n."
    ends = {
        b"malformed": session(GREETING, numbers, (b"DATE", b"111 1"), (b"DATE", b"?")),
        b"surplus": session(GREETING, (b"QUIT", b"205 bye")) + session(*[(None, b"400 late")] * 3),
        b"cut": session(GREETING, (b"HELP", b"100 help\r\nof it"), (b"DATE", b"")),
        b"whole": session(GREETING, (b"DATE", b"111 1")),
    }
    page = trial.page("ends", b"".join(named(name, sent) for name, sent in ends.items()))
    wanted = (
        "says nothing, Malformed, says nothing, Malformed; says nothing, named, Surplus;"
        " says nothing, Cut, no answer; says nothing, says nothing"
    )
    trial.expect(states_of(page) == wanted, f"ends: {states_of(page)}")
    reasons = page.sessions[2][2].reasons
    trial.expect("This answer closed it:answer 1: QUIT" in reasons, f"ends: {reasons}")
    trial.expect(page.summaries[3] == "2 answers, 1 bad, 1 line without an answer", f"ends: {page.summaries}")
    expect_text(trial, "ends", page, "It is none.", "2 lines behind it", "1 line of the client has no answer.")


def try_passwords(trial: Trial) -> None:
    """That passwords are blotted out in each session, and none goes on in the next."""
    first = session(GREETING, (b"AUTHINFO PASS hidden", b"281 hidden"), (b"AUTHINFO SASL LOGIN", b"383 more"))
    second = session(GREETING, (b"c2VjcmV0", b"500 no"), (b"AUTHINFO PASS hidden", b"481 no"))
    capture = named(b"reader", first) + named(b"other", second)
    page, whole = trial.page("passwords", capture), trial.page("passwords", capture, "--show-passwords")
    trial.expect("hidden" not in page.text and page.text.count("(blotted out)") > 2, f"passwords: {page.text}")
    trial.expect("hidden" in whole.text and "(blotted out)" not in whole.text, f"passwords: {whole.text}")
    trial.expect("c2VjcmV0" in page.text, f"passwords: a session goes on in the next: {page.text}")


def light() -> Iterator[bytes]:
    """Sessions of 10,000 exchanges in all. Each fiftieth is bad: it denies what the session before showed."""
    for part in range(100):
        exchanges = [GREETING, (b"GROUP a.b", b"211 20000 1 20000 a.b")]
        for number in range(100 * part + 2, 100 * part + 100):
            there = (b"STAT %d" % number, b"223 %d <article.%d@news.example.org> status" % (number, number))
            gone = (b"STAT %d" % (number - 101), b"423 no such article number in this group")
            exchanges.append(gone if part and number % 50 == 49 else there)
        yield named(b"captures/%03d.capture" % (part + 1), session(*exchanges))


def try_lightness(trial: Trial) -> None:
    """That the page of 10,000 exchanges in 100 sessions is as light as that of one session."""
    page = trial.page("light sessions", b"".join(light()))
    lines = page.all_lines()
    bad = sum("bad" in line.classes for _, _, line in lines)
    trial.expect((len(lines), bad) == (10000, 198), f"light sessions: {len(lines)} answers, {bad} of them bad")
    trial.expect(page.octets <= MOST_OCTETS, f"light sessions: the page has {page.octets} octets")
    trial.expect(page.elements <= MOST_ELEMENTS, f"light sessions: the page has {page.elements} elements")


def refused(trial: Trial, name: str, capture: bytes, why: str, program: str = "") -> None:
    """That a capture has no page, and why."""
    done = trial.view(name, capture, program=program)
    told = re.fullmatch(f"view: not judged: {why}\n", done.stderr.decode())
    is_so = done.returncode == 3 and not done.stdout and bool(told)
    trial.expect(is_so, f"{name}: {done.returncode} {done.stderr.decode()}")


def try_damaged(trial: Trial) -> None:
    """Pieces that begin a session, and are cut, misspelled, or within another: they are none, as others."""
    whole = named(b"first", session(GREETING))
    for number, octets in (
        (4, b"session 6\nsecon"), (4, b"session 6"), (4, b"session "), (4, b"sess"), (4, b"sessions 6\nsecond"),
        (4, b"session 12345678901\n"), (4, b"session -1\n"), (4, b"session  1\nx"), (4, b"Session 1\nx"),
        (5, b"session 3\nsecondclient 0\n"), (4, b"session 7\nsecond"), (5, b"client 3\nsession 1\nx"),
    ):
        refused(trial, f"damaged {octets!r}", whole + octets, f"nntpcheck: bad capture piece {number}")
    page = trial.page("within", named(b"session 1\nx", session(GREETING, (b"session 1\nx", b"500 session 1\nx"))))
    trial.expect(len(page.titles) == 1, f"within: {page.titles}")


# What stands for a program that says another thing: of a task, how its lines are changed.
CHANGES: Tuple[Tuple[str, str, str], ...] = (
    ("explain", "s/sessions=2/sessions=3/", "there is another number of sessions"),
    ("explain", "s/sessions=2 //", "there is another number of sessions"),
    ("explain", "s/answers=6/answers=7/", "there is another number of answers"),
    ("explain", "s/unanswered=0/unanswered=1/", "there is another number of answers"),
    ("explain", "s/^session 2 second/session 2 other/", "`explain` has another session 2"),
    ("explain", "s/^session 2 second/session 2/", "`explain` has another session 2"),
    ("explain", "s/^session 2 second/session 7 second/", "`explain` has another session 7"),
    ("explain", "/^session/d", "`explain` has other lines of answer 2"),
    ("explain", "s/ of session 1/ of session 3/", "`explain` has other lines of answer 2 of session 3"),
    ("explain", "s/because answer 2/because answer 9/", "`explain` has other lines of answer 9 of session 1"),
    ("explain", "s/^bad answer 2/bad answer 1/", "`explain` has other lines of answer 1 of session 2"),
    ("explain", "s/^bad answer 2 .*/bad answer 1 Surplus/", "there is another number of answers"),
    ("explain", "/^end/d", "explain: its report has no end"),
    ("show", "/^session/d", "there is another number of sessions"),
    ("show", "/^session 2/,$d", "there is another number of sessions"),
    ("show", "s/^session 1 first/session 1/", "`show` has another session 1"),
    ("show", "s/^session 2/session 3/", "`show` has another session 2"),
    ("show", "s/^1 GROUP g/1 GROUP h/", "`show` has another line of answer 1 of session 1"),
    ("show", "s/^end answers=3/end answers=2/", "there is another number of answers"),
)


def try_disagreements(trial: Trial) -> None:
    """That nothing is shown of reports that tell of other sessions than those that are read here."""
    capture = named(b"first", ONE) + named(b"second", DENIED)
    with tempfile.TemporaryDirectory() as folder:
        program = f"{folder}/program"
        for task, change, why in (*CHANGES, ("none", "", "")):
            with open(program, "w", encoding="utf-8") as file:
                file.write(f'#!/bin/sh\nif [ "$1" = {task} ]; then change=\'{change}\'; fi\n')
                file.write(f'{trial.program} "$@" | sed -e "$change"\n')
            os.chmod(program, 0o755)
            told = f"{re.escape(program)} says another thing than is expected: {re.escape(why)}"
            if why:
                refused(trial, f"{task} with {change}", capture, told, program)
            else:
                done = trial.view("no change", capture, program=program)
                trial.expect(done.returncode == 0, f"no change: {done.returncode} {done.stderr.decode()}")
