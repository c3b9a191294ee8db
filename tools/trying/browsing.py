"""Tries pages of several sessions in a browser."""
from __future__ import annotations

import json
import re
import subprocess
from typing import Any, Dict, Iterator, List

from trying.bars import ASKED, GONE, GROUP, THERE, lone_greetings
from trying.browser import Browser, console, jump, on_paper, slowness
from trying.sessions import light
from trying.trial import GREETING, named, session

Faults = Iterator[str]
# What a reader has of each part of the bar: its place, what is met in its middle, and its colour on that of the bar.
BAR = """JSON.stringify([...document.querySelectorAll('.bar > *')].map(part => {
  const box = part.getBoundingClientRect(), style = getComputedStyle(part), bar = part.parentElement;
  return {
    isMark: part.className == 'begin', isLink: part.tagName == 'A',
    left: box.left, right: box.right, top: box.top, bottom: box.bottom,
    isMet: document.elementFromPoint((box.left + box.right) / 2, (box.top + box.bottom) / 2) == part,
    colour: style.borderLeftColor, ground: getComputedStyle(bar).backgroundColor,
    isPrinted: style.printColorAdjust == 'exact' && part.checkVisibility(),
  };
}))"""
SHOWN = (1000, "light", ""), (1000, "dark", ""), (360, "light", ""), (360, "dark", "")
# What is behind a bar without a colour of its own on paper.
PAPER = {"rgba(0, 0, 0, 0)": "rgb(255, 255, 255)"}
# The contrast that a mark has at least with what is behind it, and how many pixels are between it and the next one.
LEAST_CONTRAST = 3
LEAST_ROOM = 4


def tries_of_sessions() -> Dict[str, Any]:
    """The captures of several sessions by the names of their files, and what looks for faults of their pages."""
    return {
        "inn-between": (joined, faults_of_sessions),
        "sessions": (lambda: b"".join(light()), faults_of_long_sessions),
        "greetings": (lone_greetings, faults_of_greetings),
        "marks": (fifty, faults_of_marks),
        "unanswered": (without_answers, faults_of_unanswered),
    }


def joined() -> bytes:
    """A capture whose second session denies what the first showed."""
    sessions = [f"examples/inn-between/{name}.capture" for name in ("first", "second")]
    return subprocess.run(["tools/join", *sessions], stdout=subprocess.PIPE, check=True).stdout


def fifty() -> bytes:
    """The capture of as many sessions as are marked one by one. Each but the first denies what that showed."""
    exchanges = GREETING, GROUP, THERE, ASKED
    rest = session(GREETING, GROUP, GONE, ASKED)
    return named(b"1", session(*exchanges)) + b"".join(named(b"%d" % number, rest) for number in range(2, 51))


def without_answers() -> bytes:
    """Three sessions: one with a line without an answer, one that denies what the first showed, and a greeting."""
    asked = b"client 6\nDATE\r\n"
    first = session(GREETING, GROUP, THERE) + asked
    return named(b"a", first) + named(b"b", session(GREETING, GROUP, GONE)) + named(b"c", session(GREETING))


def faults_of_sessions(browser: Browser, path: str) -> Faults:
    """What is wrong with the page of two sessions: answer 1 of the second conflicts with answer 2 of the first."""
    browser.open(path)
    browser.click(".sessions li:nth-of-type(2) a")
    state = browser.state()
    if state["hash"] != "#s2" or state["top"] < state["bar"]:
        yield f"the list of sessions leads elsewhere: {state}"
    browser.open(path)
    both = browser.state()["titles"]
    browser.click("label")
    state = browser.state()
    if state["lines"] != [1] or state["titles"] != both[1:]:
        yield f"these are the bad ones of two sessions: {state}"
    browser.click("#s2a1 .reasons li a")
    state = browser.state()
    if state["hash"] != "#s1a2" or state["lines"] != [2, 1] or state["titles"] != both or state["top"] < state["bar"]:
        yield f"the link to another session leads elsewhere: {state}"
    browser.click("#s1a2 .under:last-child a")
    state = browser.state()
    if state["hash"] != "#s2a1" or state["titles"] != both[1:]:
        yield f"the link back from another session leads elsewhere: {state}"
    browser.open(path)
    browser.click(".bar a:not(.begin)")
    state = browser.state()
    if state["hash"] != "#s2a1" or state["top"] < state["bar"]:
        yield f"the bar leads elsewhere: {state}"
    yield from console(browser)


def faults_of_long_sessions(browser: Browser, path: str) -> Faults:
    """What is wrong with the page of 10,000 exchanges in 100 sessions."""
    yield from slowness(browser, path)
    yield from jump(browser, ".bar a:last-of-type", "s100a49")
    yield from jump(browser, ".bar a:not(.begin)", "s2a49")
    yield from jump(browser, "#s2a49 .reasons li a", "s1a48")
    yield from is_told(browser, "#s90", "heading", "session 90 captures/090.capture")
    browser.click("label")
    state = browser.state()
    if state["lines"] != [48, *[49, 99] * 99] or len(state["titles"]) != 100:
        yield f"these are the bad ones of 100 sessions, and a named one: {state['lines']}, {state['titles']}"
    yield from on_paper(browser)
    yield from console(browser)


def faults_of_greetings(browser: Browser, path: str) -> Faults:
    """What is wrong with the page of 10,000 sessions of an answer each."""
    yield from slowness(browser, path)
    state = browser.state()
    if len(state["titles"]) != 10000 or state["lines"] != [0] * 10000:
        yield f"{len(state['titles'])} sessions have {len(state['lines'])} lines"
    yield from jump(browser, ".begin[href='#s5000']", "s5000")
    yield from is_told(browser, "#s9000", "heading", "session 9000 captures/9000.capture")
    yield from is_told(browser, "article:nth-of-type(9000) > p", "paragraph", "")
    yield from jump(browser, ".bar a:last-of-type", "s10000")
    yield from on_paper(browser)
    yield from console(browser)


def is_told(browser: Browser, selector: str, role: str, name: str) -> Faults:
    """That a screen reader doesn't know an element, which is far from what is on the screen."""
    browser.call("Accessibility.enable")
    root = browser.call("DOM.getDocument", depth=0)["root"]["nodeId"]
    node = browser.call("DOM.querySelector", nodeId=root, selector=selector)["nodeId"]
    told = browser.call("Accessibility.getPartialAXTree", nodeId=node, fetchRelatives=False)["nodes"][0]
    browser.call("Accessibility.disable")
    there = told["role"]["value"], told.get("name", {}).get("value", "")
    if there != (role, name):
        yield f"a screen reader knows {selector} as {there}"


def faults_of_marks(browser: Browser, path: str) -> Faults:
    """What is wrong with the marks of 50 sessions: on a wide screen and on a narrow one, in both colour schemes, and on
    paper; by a click on the flag, and by keys."""
    for width, scheme, media in (*SHOWN, (700, "light", "print"), (700, "dark", "print")):
        browser.show(width, 800, scheme, media)
        browser.open(path)
        yield from (f"{width} pixels, {scheme} {media}: {fault}" for fault in faults_of_bar(browser, media))
    browser.show(1000, 800, "light")
    browser.open(path)
    flag = json.loads(browser.evaluate(BAR))
    mark = [part for part in flag if part["isMark"]][24]
    browser.click_at(mark["left"] + 2, mark["top"] - 4)
    browser.settle()
    yield from is_at(browser, "#s25")
    browser.evaluate("document.querySelectorAll('.begin')[29].focus()")
    browser.press("Enter", 13, "\r")
    browser.settle()
    yield from is_at(browser, "#s30")
    yield from console(browser)


def is_at(browser: Browser, wanted: str) -> Faults:
    """That a link didn't lead to a session, below the bar."""
    state = browser.state()
    if state["hash"] != wanted or not state["bar"] <= state["top"] < state["height"]:
        yield f"a mark leads to {state['hash']} at {state['top']}, below {state['bar']}, and not to {wanted}"


def faults_of_bar(browser: Browser, media: str) -> Faults:
    """What is wrong with a bar of 50 sessions, of which all but one have a bad answer."""
    parts = json.loads(browser.evaluate(BAR))
    marks, bad = ([part for part in parts if part["isLink"] and part["isMark"] == is_mark] for is_mark in (True, False))
    if (len(marks), len(bad)) != (50, 49):
        yield f"{len(marks)} marks and {len(bad)} bad ones are there"
    for part, behind in zip(parts, parts[1:]):
        if part["right"] > behind["left"] + 0.1:
            yield f"one part covers another: {part}, {behind}"
    for mark, behind in zip(marks, marks[1:]):
        if not 0.5 <= mark["right"] - mark["left"] <= 2 or behind["left"] - mark["right"] < LEAST_ROOM:
            yield f"a mark isn't seen apart from the next: {mark}, {behind}"
    for mark in marks:
        if contrast(mark["colour"], PAPER.get(mark["ground"], mark["ground"])) < LEAST_CONTRAST:
            yield f"a mark has the colour of the bar: {mark}"
    if media == "print" and not all(part["isPrinted"] for part in parts):
        yield "the bar isn't there"
    if media != "print" and not all(part["isMet"] for part in bad):
        yield "a bad answer is hidden"


def contrast(*colours: str) -> float:
    """The contrast of two colours (WCAG 2.1, 'contrast ratio')."""
    bright: List[float] = []
    for colour in colours:
        parts = [int(part) / 255 for part in re.findall("[0-9]+", colour)[:3]]
        linear = [part / 12.92 if part <= 0.03928 else ((part + 0.055) / 1.055) ** 2.4 for part in parts]
        bright.append(sum(weight * part for weight, part in zip((0.2126, 0.7152, 0.0722), linear)))
    return (max(bright) + 0.05) / (min(bright) + 0.05)


def faults_of_unanswered(browser: Browser, path: str) -> Faults:
    """That a link to lines without an answer doesn't lead there while the bad ones alone are shown."""
    browser.open(path)
    titles = browser.state()["titles"]
    browser.click("label")
    state = browser.state()
    if state["lines"] != [2] or state["titles"] != titles[1:2]:
        yield f"these are the bad ones: {state}"
    browser.click("header a[href='#s1unanswered']")
    state = browser.state()
    if state["lines"] != [3, 2] or state["titles"] != titles[:2] or not state["bar"] <= state["top"] < state["height"]:
        yield f"the link to lines without an answer leads elsewhere: {state}"
    browser.click(".begin[href='#s3']")
    state = browser.state()
    if state["lines"] != [2] or state["titles"] != titles[1:]:
        yield f"the mark of a session that is sound leads elsewhere: {state}"
    yield from console(browser)
