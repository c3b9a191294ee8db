"""Reads a page, and notes what is wrong with its markup."""
from __future__ import annotations

import re
from collections import Counter
from dataclasses import dataclass, field
from html.parser import HTMLParser
from typing import Dict, List, Optional, Tuple

VOID = {"meta", "input"}
TAGS = VOID | set(
    "html head title style body header h1 h2 h3 p a ul ol li div nav i label main article section details summary span"
    " kbd samp code pre small".split()
)
ATTRIBUTES = set("lang charset http-equiv content name id class href title type for open aria-label aria-labelledby".split())
# What each page has once.
PARTS = ("title", "header", "h1", "main")
# What no page has as it is: control octets, and what moves or hides text.
UNSEEN = re.compile("[\x00-\x09\x0b-\x1f\x7f-\x9f\u200b-\u200f\u2028-\u202e\u2066-\u2069]")
# The classes of lines by their states, but for those of bad answers.
CLASSES = {"accepted": [], "named": ["named"], "says nothing": ["nothing"], "no answer": ["nothing"]}


def link_to(session: int, index: object) -> str:
    """The link to an answer, whose session is 0 on a page of one."""
    return f"#s{session}a{index}" if session else f"#a{index}"


@dataclass
class Line:
    """What a page has of an exchange."""

    name: str
    classes: List[str]
    # What stands in front: the number, and what is said of the answer.
    front: str = ""
    state: str = ""
    texts: Dict[str, str] = field(default_factory=dict)
    under: List[str] = field(default_factory=list)
    links: List[str] = field(default_factory=list)
    reasons: str = ""
    more: str = ""
    block: Optional[str] = None


@dataclass
class Part:
    """A part of the bar: where it leads, if it is a link, and what it says by its text and as it is pointed at."""

    link: str
    title: str
    is_mark: bool
    text: str = ""


class PageReader(HTMLParser):
    """Reads a page, and notes what is wrong with its markup."""

    def __init__(self, text: str) -> None:
        super().__init__(convert_charrefs=True)
        self.faults: List[str] = []
        # The elements that are open, each with its class.
        self.open: List[Tuple[str, str]] = []
        self.ids: List[str] = []
        self.links: List[str] = []
        # Which session is read, 0 where the page has no heading of one; their headings, and what stands below these.
        self.session = 0
        self.titles: Dict[int, str] = {}
        self.summaries: Dict[int, str] = {}
        # How deep the last heading is, and what the parts for navigation are called.
        self.depth = 0
        self.labels: List[str] = []
        self.bar: List[Part] = []
        # The lines of each session, by their numbers.
        self.sessions: Dict[int, Dict[int, Line]] = {}
        self.line: Optional[Line] = None
        self.text = ""
        self.octets = len(text.encode())
        # How often each element is there.
        self.counts: Counter[str] = Counter()
        self.feed(text)
        self.close()
        self.faults += [f"<{tag}> is there {self.counts[tag]} times" for tag in PARTS if self.counts[tag] != 1]
        if len(set(self.labels)) < len(self.labels) or len(self.labels) != self.counts["nav"]:
            self.faults.append(f"these parts are for navigation: {self.labels}")
        self.faults += [f"<{tag}> isn't closed" for tag, _ in self.open]
        ids = Counter(self.ids)
        self.faults += [f"id {name} is there {count} times" for name, count in ids.items() if count > 1]
        self.faults += [f"{link} leads nowhere" for link in self.links if link[1:] not in ids or link[0] != "#"]
        if UNSEEN.search(text):
            self.faults.append(f"it has {UNSEEN.search(text)[0]!r}")

    @property
    def lines(self) -> Dict[int, Line]:
        """The lines of the page of one session."""
        return self.sessions.get(0, {})

    def all_lines(self) -> List[Tuple[int, int, Line]]:
        """All lines with their sessions and numbers, in their order."""
        return [(session, index, line) for session, lines in self.sessions.items() for index, line in lines.items()]

    @property
    def elements(self) -> int:
        """How many elements there are."""
        return sum(self.counts.values())

    def tags(self) -> List[str]:
        return [tag for tag, _ in self.open]

    def has_class(self, *names: str) -> bool:
        """Whether an open element has one of these classes."""
        return any(name in names for _, name in self.open)

    def is_at_line(self, tag: str) -> bool:
        """Whether this is the element of a line, which begins or has ended: one of the list that a section or a session
        has, or a paragraph, if it is all of a session."""
        around = self.tags()[-2:]
        is_lone = tag == "p" and around[-1:] == ["article"]
        return is_lone or (tag == "li" and around in (["section", "ol"], ["article", "ol"]))

    def is_in_front(self) -> bool:
        """Whether the innermost element is the line itself, which is the summary where the line unfolds."""
        is_there = self.tags()[-1:] in (["li"], ["summary"]) or self.tags()[-2:] == ["article", "p"]
        return is_there and not self.has_class("reasons", "block")

    def handle_starttag(self, tag: str, attrs: List[Tuple[str, Optional[str]]]) -> None:
        has = {name: value or "" for name, value in attrs}
        if tag not in TAGS or not set(has) <= ATTRIBUTES or len(has) < len(attrs):
            self.faults.append(f"<{tag}> with {sorted(has)}")
        self.counts[tag] += 1
        self.ids += [has["id"]] if "id" in has else []
        self.links += [has["href"]] if "href" in has else []
        self.labels += [has["aria-label"]] if "aria-label" in has else []
        if re.fullmatch("h[1-6]", tag):
            self.head(int(tag[1]), has.get("id", ""))
        elif tag == "article" and has.get("aria-labelledby") != f"s{self.session + 1}":
            self.faults.append(f"session {self.session + 1} is named by another heading")
        elif self.is_at_line(tag):
            self.line = Line(has.get("id", ""), has.get("class", "").split())
        elif self.open and self.open[-1] == ("nav", "bar"):
            self.bar.append(Part(has.get("href", ""), has.get("title", ""), has.get("class") == "begin"))
        elif self.line and "href" in has:
            self.line.links.append(has["href"])
        elif self.line and tag == "pre":
            self.line.block = ""
        elif self.line and has.get("class") == "under":
            self.line.under.append("")
        elif self.line and self.is_in_front():
            self.line.texts[tag] = ""
        if tag not in VOID:
            self.open.append((tag, has.get("class", "")))

    def head(self, depth: int, name: str) -> None:
        """Notes a heading; each session has one, in their order."""
        if depth > self.depth + 1:
            self.faults.append(f"a heading {depth} stands below one of {self.depth}")
        self.depth = depth
        if self.tags()[-1] == "article" and depth == 2:
            self.session += 1
            self.titles[self.session] = self.summaries[self.session] = ""
            if name != f"s{self.session}":
                self.faults.append(f"session {self.session} has the id '{name}'")

    def handle_endtag(self, tag: str) -> None:
        if not self.open or self.open.pop()[0] != tag:
            self.faults.append(f"</{tag}> closes another element")
        if self.line and self.is_at_line(tag):
            self.keep(self.line)
            self.line = None

    def keep(self, line: Line) -> None:
        """Keeps a line under its number, by which its id has to be named, as its classes by its state."""
        front, tab, asked = line.front.partition("\t")
        if tab:
            line.texts["span"] = asked.strip()
        number, *words = front.split() or [""]
        line.state = " ".join(words)
        lines = self.sessions.setdefault(self.session, {})
        is_new = number.isdecimal() and int(number) not in lines
        if not is_new or line.name not in ("", link_to(self.session, number)[1:]):
            self.faults.append(f"this is no line with the id '{line.name}': {line.front!r}")
        if line.classes != CLASSES.get(line.state, ["bad", line.state.lower()]):
            self.faults.append(f"'{line.state}' has the classes {line.classes}")
        if is_new:
            lines[int(number)] = line

    def links_of(self, session: int, index: int) -> List[str]:
        """The links in a line, if it is there."""
        lines = self.sessions.get(session, {})
        return lines[index].links if index in lines else []

    def handle_data(self, data: str) -> None:
        self.text += data if self.open and self.open[-1][0] != "style" else ""
        tags = self.tags()
        if not self.line:
            if "article" in tags and "h2" in tags and tags[-1] != "small":
                self.titles[self.session] += data
            elif tags[-1:] == ["article"]:
                self.summaries[self.session] += data.strip()
            elif self.bar and self.has_class("bar"):
                self.bar[-1].text += data
            return
        if tags[-1:] == ["small"]:
            self.line.more += data
        elif self.is_in_front():
            self.line.front += data
        elif self.has_class("reasons"):
            self.line.reasons += data
        elif "pre" in tags:
            self.line.block = (self.line.block or "") + data
        elif self.has_class("under"):
            self.line.under[-1] += data
        elif tags[-1] in self.line.texts:
            self.line.texts[tags[-1]] += data

    def handle_comment(self, data: str) -> None:
        self.faults.append("it has a comment")
