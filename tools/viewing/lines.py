"""The lines of a page: what was asked, what was answered, and why a bad answer is bad."""
from __future__ import annotations

import re
from bisect import bisect_left
from typing import Iterator, Optional

from viewing.capture import Exchange, count_lines, lines_of
from viewing.octets import counted, element, octets_of, shown
from viewing.places import link
from viewing.report import LEFT, Bad
from viewing.sentences import CLASSES, sentence_of
from viewing.session import Judgement

# How many lines of a block a page has.
LINES = 200
# What leads to the answers behind `because`, by the class of the bad one.
LEADS = {
    "OutOfPlace": "This answer gave that low mark:",
    "Surplus": "This answer closed it:",
    "Contradiction": "It conflicts with this answer:",
}
FAULTY_LINE = re.compile(r"why block line ([0-9]+) \S+")


def kind_of(state: str) -> str:
    """The state as a class of elements."""
    return state.split(" ")[-1].lower()


def item(judgement: Judgement, exchange: Exchange) -> str:
    """An exchange: its line, its reasons if it is bad, and its block. A long page has thousands of these, and opens the
    sooner, the fewer elements and attributes it is made of."""
    place, state = exchange.place(), judgement.state(exchange)
    bad = judgement.explanation.bad.get(place)
    line = f"\n{exchange.index} {state} {both(exchange)}"
    if bad:
        # the first one is where to begin
        is_open = " open" if place == judgement.bad[0] else ""
        why = "".join(reasons(judgement, bad))
        line = f'<details class="why"{is_open}><summary>{line}</summary><div class="reasons">{why}</div></details>'
    below = "".join((*under(judgement, exchange), *block(exchange, bad)))
    return f"<li{identity(judgement, exchange)}{classes(state, bad)}>{line}{below}</li>"


def is_plain(judgement: Judgement, exchange: Exchange) -> bool:
    """Whether an exchange is a line and no more: it isn't bad, and nothing stands under it."""
    is_bad = exchange.place() in judgement.explanation.bad
    return not is_bad and exchange.block is None and not any(under(judgement, exchange))


def lone_greeting(judgement: Judgement, exchange: Exchange) -> str:
    """The line of a plain greeting that is the only answer of its session. A list of one tells nothing; and the word
    behind the tab needs no element of its own to stand where commands do."""
    state, initial = judgement.state(exchange), element("samp", exchange.initial or b"")
    attributes = identity(judgement, exchange) + classes(state, None)
    return f"<p{attributes}>{exchange.index} {state}&#9;greeting {initial}</p>"


def identity(judgement: Judgement, exchange: Exchange) -> str:
    """The id of a line to which there are links."""
    place = exchange.place()
    return f' id="{place.identity()}"' if place in judgement.linked else ""


def classes(state: str, bad: Optional[Bad]) -> str:
    """The classes of a line. One that is accepted has none."""
    if state == "accepted":
        return ""
    return f' class="bad {kind_of(state)}"' if bad else f' class="{kind_of(state)}"'


def under(judgement: Judgement, exchange: Exchange) -> Iterator[str]:
    """What stands under a line: what `show` prints there, and which bad answers name this one."""
    for told in judgement.session_of(exchange.place()).under(exchange):
        yield f'<p class="under">{shown(octets_of(told))}</p>'
    named_by = judgement.named_by.get(exchange.place())
    if named_by:
        yield f'<p class="under">named by {", ".join(link(bad, exchange.session) for bad in named_by)}</p>'


def both(exchange: Exchange) -> str:
    """The line of the client, and the initial line of the answer."""
    return f"{asked(exchange)} {element('samp', exchange.initial or b'')}"


def asked(exchange: Exchange) -> str:
    """The line of the client."""
    if exchange.line is None:
        return "<span>greeting</span>" if exchange.index == 0 else "<span>no command</span>"
    return element("kbd", exchange.line)


def block(exchange: Exchange, bad: Optional[Bad]) -> Iterator[str]:
    """The block of an answer, or what came behind the first line of octets that answer nothing."""
    if exchange.block is None:
        return
    count = count_lines(exchange.block)
    what = f"{counted(count, 'line')} behind it" if bad and bad.kind in LEFT else f"block of {counted(count, 'line')}"
    lines = "\n".join(map(shown, lines_of(exchange.block, LINES)))
    more = f"<p>and {counted(count - LINES, 'line')} more</p>" if count > LINES else ""
    # the parser drops a newline behind the tag
    yield f'<details class="block"><summary>{what}</summary><pre>\n{lines}</pre>{more}</details>'


def reasons(judgement: Judgement, bad: Bad) -> Iterator[str]:
    """Why an answer is bad: in sentences, with the answers that are reasons."""
    if bad.kind in CLASSES:
        yield f"<p>{CLASSES[bad.kind]}</p>"
    exchange, session = judgement.exchange_at(bad.place), bad.place.session
    last = [line for line in bad.lines if line.startswith("because ")]
    for line in bad.lines:
        if line not in last:
            yield f"<p>{sentence_of(line, bad.place, session)}{quoted(exchange, line)}</p>"
    if not bad.lines:
        yield "<p>Reasons are told of the first hundred bad answers.</p>"
    elif contradicts_itself(bad):
        yield "<p>There is no other answer to compare with: it contradicts itself, or what is so of every spool.</p>"
    if bad.cited:
        many = len(bad.cited) + len(last)
        together = f"It conflicts with these {len(bad.cited)} answers together, none of which can be left out:"
        yield f"<p>{together if many > 1 else LEADS.get(bad.kind, 'Because of this answer:')}</p><ol>"
        for cited in bad.cited:
            told = "".join(f"<p>{sentence_of(line, cited.place, session)}</p>" for line in cited.lines)
            yield f"<li>{link(cited.place, session)}: {both(judgement.exchange_at(cited.place))}{told}</li>"
        yield "</ol>"
    for line in last:
        yield f"<p>{sentence_of(line, bad.place, session)}</p>"
    yield from neighbours(judgement, bad)


def contradicts_itself(bad: Bad) -> bool:
    """Whether neither another answer nor the place where the session stands is a reason."""
    about_step = any(line.startswith("about step ") for line in bad.lines)
    return bad.kind == "Contradiction" and not bad.cited and not about_step


def quoted(exchange: Exchange, line: str) -> str:
    """The line of the block that is told to be wrong, if it is there."""
    faulty = FAULTY_LINE.fullmatch(line)
    lines = lines_of(exchange.block or b"", int(faulty[1])) if faulty else []
    return f" It is {element('code', lines[-1])}." if faulty and len(lines) == int(faulty[1]) else ""


def neighbours(judgement: Judgement, bad: Bad) -> Iterator[str]:
    """Links to the bad answers before and behind one."""
    all_bad, session = judgement.bad, bad.place.session
    number = bisect_left(all_bad, bad.place)
    if number > 0:
        yield f"<p>The bad one before: {link(all_bad[number - 1], session)}.</p>"
    if number + 1 < len(all_bad):
        yield f"<p>The next bad one: {link(all_bad[number + 1], session)}.</p>"
