"""Reads a capture, and pairs what the server sent with the lines of the client, as nntpcheck does."""
from __future__ import annotations

import re
from dataclasses import dataclass, field
from io import BytesIO
from typing import Iterator, List, Optional, Tuple

from captures.pieces import BadPiece, pieces_in
from viewing.octets import printed
from viewing.places import SOLE, Place

CRLF = b"\r\n"
# The end of a block, with the end of the line before.
DOT_LINE = b"\r\n.\r\n"
BLANKS = re.compile(rb"[ \t]+")
UNCLEAN = re.compile(rb"[\x00\r\n]")
# Of an initial line (RFC 3977, section 3.2).
CODE = re.compile(rb"([1-5][0-9]{2})(?: |\Z)")
# The codes that a block follows (docs/PROFILE.md, 'Frames').
BLOCK_CODES = frozenset(b"100 101 215 220 221 222 224 225 230 231".split())
RANGE = re.compile(rb"[0-9]{1,16}(?:-(?:[0-9]{1,16})?)?")
# The codes of answers that say something of the spool, by the keyword of the command.
STEP_CODES = frozenset(b"223 420 421 422".split())
ARTICLE_CODES = frozenset(b"220 221 222 223 420 423 430".split())
SAYING_CODES = {
    **dict.fromkeys((b"GROUP", b"LISTGROUP"), frozenset(b"211 411".split())),
    **dict.fromkeys((b"NEXT", b"LAST"), STEP_CODES),
    **dict.fromkeys((b"ARTICLE", b"HEAD", b"BODY", b"STAT"), ARTICLE_CODES),
}
# Those of answers to what asks for overviews, where these are judged.
OVERVIEW_CODES = {
    **dict.fromkeys((b"OVER", b"XOVER"), frozenset(b"224 420 423 430".split())),
    b"HDR": frozenset(b"225 423".split()),
    b"XHDR": frozenset(b"221 420 423".split()),
}


class Disagreement(Exception):
    """The capture reads otherwise here than nntpcheck reads it."""


@dataclass
class Sent:
    """What both ends of a session sent, in pieces."""

    # None where the capture is this one session.
    name: Optional[bytes] = None
    client: List[bytes] = field(default_factory=list)
    server: List[bytes] = field(default_factory=list)


@dataclass
class Exchange:
    """A line of the client, and what the server answers it."""

    index: int
    # None of the greeting, and where no line is answered.
    line: Optional[bytes]
    # None where no answer came.
    initial: Optional[bytes]
    # The lines of the block as they are sent, each with its CRLF; of octets that answer nothing, all behind the first
    # line. None where no block is due.
    block: Optional[bytes]
    # Which session it is of.
    session: int = SOLE

    def place(self) -> Place:
        """The place of the answer."""
        return Place(self.session, self.index)

    def words(self) -> List[bytes]:
        """The words of the line."""
        return words_of(self.line or b"")

    def code(self) -> bytes:
        """The code of the answer; no octets if it has none."""
        return code_of(self.initial or b"")

    def says_nothing(self, has_overviews: bool) -> bool:
        """Whether the answer says nothing of any group, number or article, by the rule of tools/judge. Overviews may be
        judged or not."""
        word, *arguments = [word.upper() for word in self.words()] or [b""]
        if word == b"LIST":
            return self.code() != b"215" or arguments[:1] not in ([], [b"ACTIVE"])
        if word in OVERVIEW_CODES:
            is_judged = has_overviews and asks_for_overviews(word, arguments)
            return not is_judged or self.code() not in OVERVIEW_CODES[word]
        return self.code() not in SAYING_CODES.get(word, ())

    def as_shown(self) -> str:
        """The line that `show` prints of the exchange."""
        line = "greeting" if self.line is None else printed(self.line)
        return f"{self.index} {line} -> {printed(self.initial or b'')}"


def sessions_in(capture: bytes) -> List[Sent]:
    """What was sent in each session. What stands before the first piece that begins one is a session too, if it has
    octets, or if there is no such piece."""
    first = Sent()
    sessions = [first]
    try:
        for piece in pieces_in(BytesIO(capture)):
            octets = capture[piece.place : piece.place + piece.size]
            if piece.kind == b"session":
                sessions.append(Sent(octets))
            elif piece.kind == b"client":
                sessions[-1].client.append(octets)
            elif piece.kind == b"server":
                sessions[-1].server.append(octets)
    except BadPiece as fault:
        raise Disagreement(str(fault)) from fault
    if len(sessions) == 1:
        return sessions
    first.name = b""
    return sessions if any(first.client) or any(first.server) else sessions[1:]


def words_of(line: bytes) -> List[bytes]:
    return [word for word in BLANKS.split(line) if word]


def code_of(initial: bytes) -> bytes:
    code = CODE.match(initial)
    return code[1] if code else b""


def is_list_group(line: bytes) -> bool:
    """Whether the line asks for the numbers of a group (docs/PROFILE.md, 'Commands')."""
    words = words_of(line)
    if UNCLEAN.search(line) or len(line) > 510 or not 1 <= len(words) <= 3:
        return False
    return words[0].upper() == b"LISTGROUP" and (len(words) < 3 or bool(RANGE.fullmatch(words[2])))


def asks_for_overviews(keyword: bytes, arguments: List[bytes]) -> bool:
    """Whether a keyword of these asks for overviews by these words, in upper case: OVER and XOVER by none, by an id, or
    by a range; HDR and XHDR by Message-ID and a range."""
    if keyword in (b"HDR", b"XHDR"):
        return len(arguments) == 2 and arguments[0] == b"MESSAGE-ID" and bool(RANGE.fullmatch(arguments[1]))
    if len(arguments) != 1:
        return not arguments
    return arguments[0].startswith(b"<") or bool(RANGE.fullmatch(arguments[0]))


def is_block_due(line: Optional[bytes], initial: bytes) -> bool:
    """Whether a block follows the initial line of the answer to this line."""
    code = code_of(initial)
    return code in BLOCK_CODES or (code == b"211" and line is not None and is_list_group(line))


def lines_of(block: bytes, most: int) -> List[bytes]:
    """The first lines of a block, without the dots that were put in front."""
    *lines, rest = block.split(CRLF, most)
    if rest and len(lines) < most:
        lines.append(rest)
    return [line[1:] if line.startswith(b"..") else line for line in lines]


def count_lines(block: bytes) -> int:
    """How many lines a block has; one that isn't ended counts too."""
    return block.count(CRLF) + (1 if block and not block.endswith(CRLF) else 0)


def frame(server: bytes, place: int, line: Optional[bytes]) -> Tuple[bytes, Optional[bytes], int]:
    """The answer to this line that begins there: its initial line, its block if one is due, and where it ends."""
    end = server.find(CRLF, place)
    initial = server[place:end]
    if end >= 0 and not is_block_due(line, initial):
        return initial, None, end + len(CRLF)
    dot = server.find(DOT_LINE, end) if end >= 0 else -1
    if dot < 0:
        raise Disagreement("an answer isn't whole")
    return initial, server[end + len(CRLF) : dot + len(CRLF)], dot + len(DOT_LINE)


def pair(sent: Sent, session: int, left: Optional[int]) -> Iterator[Exchange]:
    """The exchanges of a session, and then the lines without an answer. From the answer `left` on the server's octets
    answer nothing."""
    server = b"".join(sent.server)
    *lines, _ = b"".join(sent.client).split(CRLF)
    prompts: List[Optional[bytes]] = [None, *lines]
    place = answers = 0
    while place < len(server):
        line = prompts[answers] if answers < len(prompts) else None
        if answers == left:
            initial, _, block = server[place:].partition(CRLF)
            yield Exchange(answers, line, initial, block or None, session)
            place = len(server)
        else:
            initial, block, place = frame(server, place, line)
            yield Exchange(answers, line, initial, block, session)
        answers += 1
    # the greeting's place has no line
    for index in range(max(answers, 1), len(prompts)):
        yield Exchange(index, prompts[index], None, None, session)
