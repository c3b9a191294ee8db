"""Makes pages, and tries on each what is so of all."""
from __future__ import annotations

import re
import subprocess
from typing import Dict, List, Optional, Tuple

from trying.reader import Line, PageReader, link_to

GREETING = (None, b"200 hi")
# How many octets and elements the page of 10,000 exchanges may have, with about 200 bad answers among them.
MOST_OCTETS = 1500000
MOST_ELEMENTS = 40000
# How many elements it may have if each of these is a session, and how many sessions a bar marks.
MOST_ELEMENTS_OF_SESSIONS = 45000
MOST_MARKS = 50


class Trial:
    """Tries pages, and counts what is wrong."""

    def __init__(self, program: str) -> None:
        self.program = program
        self.wrong = 0

    def complain(self, what: str) -> None:
        self.wrong += 1
        print(f"wrong: view: {what}")

    def expect(self, is_so: bool, what: str) -> None:
        if not is_so:
            self.complain(what)

    def told(self, task: str, capture: bytes, *options: str) -> List[str]:
        """The lines that nntpcheck prints of a capture."""
        done = subprocess.run([self.program, task, *options], input=capture, stdout=subprocess.PIPE, check=False)
        return done.stdout.decode("ascii").split("\n")[:-1]

    def view(self, name: str, capture: bytes, *options: str, program: str = "") -> subprocess.CompletedProcess[bytes]:
        """What tools/view does with a capture."""
        words = ["tools/view", "--program", program or self.program, "--title", name, *options, "-"]
        return subprocess.run(words, input=capture, capture_output=True, check=False)

    def page(self, name: str, capture: bytes, *options: str) -> PageReader:
        """The page of a capture, of which all is tried that is so of each page."""
        done = self.view(name, capture, *options)
        self.expect(done.returncode == 0 and not done.stderr, f"{name}: {done.returncode} {done.stderr.decode()}")
        page = PageReader(done.stdout.decode("utf-8"))
        for fault in page.faults[:5]:
            self.complain(f"{name}: {fault}")
        handed = [option for option in options if option != "--show-passwords"]
        self.try_bad(name, page, self.told("explain", capture, *handed))
        show = self.told("show", capture)
        self.try_sessions(name, page, show)
        self.try_bar(name, page)
        if "--show-passwords" in options or b"AUTHINFO" not in capture.upper():
            for session, lines in parts_of(show).items():
                self.try_lines(name, page.sessions.get(session, {}), lines)
        return page

    def try_bad(self, name: str, page: PageReader, explain: List[str]) -> None:
        """That each bad answer is there once, with its class, and links to its reasons and back."""
        parts = parts_of(explain)
        told = [(session, *bad_in(line)) for session, lines in parts.items() for line in lines if bad_in(line)]
        there = [(session, index, line.state) for session, index, line in page.all_lines() if "bad" in line.classes]
        self.expect(there == told, f"{name}: these are bad: {there}")
        self.expect(("As printed" in page.text) is False, f"{name}: a line isn't told in a sentence")
        for session, lines in parts.items():
            self.try_links(name, page, session, lines)
        answers = re.search(" answers=([0-9]+) ", explain[-1])
        answered = sum("samp" in line.texts for _, _, line in page.all_lines())
        self.expect(bool(answers) and str(answered) == answers[1], f"{name}: {answered} answers are there")

    def try_links(self, name: str, page: PageReader, session: int, explain: List[str]) -> None:
        """That the bad answers of a session have links to their reasons and back."""
        bad = 0
        for line in explain:
            bad = bad_in(line)[0] if bad_in(line) else bad
            cited = re.fullmatch(r"because answer ([0-9]+)(?: of session ([0-9]+))?", line)
            if cited:
                place = int(cited[2] or session), int(cited[1])
                is_there = link_to(*place) in page.links_of(session, bad)
                self.expect(is_there, f"{name}: {bad} of {session} has no link to {place}")
                is_back = link_to(session, bad) in page.links_of(*place)
                self.expect(is_back, f"{name}: {place} has no link to {bad} of {session}")

    def try_sessions(self, name: str, page: PageReader, show: List[str]) -> None:
        """That each session has its heading, the link to it, and what its last line counts."""
        titles = [line for line in show if line.startswith("session ")]
        self.expect(len(page.titles) == len(titles), f"{name}: {len(page.titles)} sessions, and not {len(titles)}")
        for title, there in zip(titles, map(as_printed, page.titles.values())):
            is_same = there == title or (len(title) > 512 and there.startswith(title))
            self.expect(is_same, f"{name}: not '{title[:200]}': '{there[:200]}'")
        for session, lines in parts_of(show).items():
            end = re.fullmatch("end answers=([0-9]+) unanswered=([0-9]+)", lines[-1])
            if end and session:
                there = page.summaries[session].replace(",", "").replace("no answer", "0 answers") + " 0 lines"
                counts = re.findall("([0-9]+) (?:answer|line)", there)[:2]
                self.expect(counts == [end[1], end[2]], f"{name}: session {session}: {page.summaries[session]}")

    def try_bar(self, name: str, page: PageReader) -> None:
        """That the bar leads to bad answers in their order, each between the mark of its session and that of the next,
        and says so to all readers."""
        links = [re.fullmatch("#(?:s([0-9]+))?(?:a([0-9]+))?", part.link) for part in page.bar if part.link]
        places = [(int(link[1] or 0), int(link[2] or -1)) for link in links if link]
        self.expect(places == sorted(set(places)) and all(links), f"{name}: the bar leads to {places}")
        self.expect(all(part.title == part.text for part in page.bar), f"{name}: the bar says {page.bar}")
        marks = sum(part.is_mark for part in page.bar)
        self.expect(marks <= MOST_MARKS, f"{name}: the bar has {marks} marks")

    def try_lines(self, name: str, page: Dict[int, Line], show: List[str]) -> None:
        """That each line of `show` of a session is there once; of a long one its front."""
        there = [line for line in show if re.match("[0-9]|  ", line)]
        lines: List[str] = []
        for index, line in sorted(page.items()):
            if "samp" in line.texts and len(lines) < len(there):
                asked = line.texts.get("kbd", line.texts.get("span", ""))
                lines.append(f"{index} {asked} -> {line.texts['samp']}")
                lines += [f"  {told}" for told in line.under if not told.startswith("named by ")]
        for line, wanted in zip(map(as_printed, lines), there):
            is_same = line == wanted or (len(wanted) > 1000 and line[:1000] == wanted[:1000])
            self.expect(is_same, f"{name}: not '{wanted[:200]}': '{line[:200]}'")
        self.expect(len(lines) >= len(there), f"{name}: {len(lines)} lines of `show`, and not {len(there)}")


def parts_of(report: List[str]) -> Dict[int, List[str]]:
    """The lines of a report by their sessions, without the titles of these; 0 is the session of one."""
    parts: Dict[int, List[str]] = {}
    session = 0
    for line in report:
        title = re.fullmatch("session ([0-9]+)(?: .+)?", line)
        session = int(title[1]) if title else session
        parts.setdefault(session, []).extend([] if title else [line])
    return parts


def bad_in(line: str) -> Optional[Tuple[int, str]]:
    """The number and the class of the bad answer that a line of `explain` tells, if it tells one."""
    told = re.fullmatch("bad answer ([0-9]+) ([A-Za-z]+)", line)
    return (int(told[1]), told[2]) if told else None


def as_printed(text: str) -> str:
    """A text of a page as nntpcheck prints it: UTF-8 as its octets."""
    return "".join(letter if letter < "\x7f" else as_octets(letter) for letter in text)


def as_octets(letter: str) -> str:
    """The octets of a letter as nntpcheck prints them."""
    return "".join(f"\\x{octet:02x}" for octet in letter.encode())


def named(name: bytes, sent: bytes = b"") -> bytes:
    """A session of this name in a capture of several."""
    return b"session %d\n%s%s" % (len(name), name, sent)


def session(*exchanges: Tuple[Optional[bytes], bytes]) -> bytes:
    """The capture of lines with what answers each, of which the first answers none."""
    client = b"".join(line + b"\r\n" for line, _ in exchanges if line is not None)
    server = b"".join(answer + b"\r\n" for _, answer in exchanges)
    return b"client %d\n%sserver %d\n%s" % (len(client), client, len(server), server)
