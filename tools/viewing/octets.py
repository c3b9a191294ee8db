"""Octets as text: as nntpcheck prints them, and as a page shows them."""
from __future__ import annotations

import html
import re

# What nntpcheck prints for octets that don't stand for themselves (docs/FORMATS.md, 'The report of `check`').
PRINTED = {**{octet: f"\\x{octet:02x}" for octet in (*range(32), *range(127, 256))}, ord("\\"): "\\\\"}
ESCAPE = re.compile(rb"\\(?:\\|x([0-9a-f]{2}))")
# How many octets of a line a page shows.
SHOWN = 1000


def printed(octets: bytes) -> str:
    """Octets as nntpcheck prints them."""
    return octets.decode("latin-1").translate(PRINTED)


def octets_of(text: str) -> bytes:
    """The octets that nntpcheck prints so."""
    return ESCAPE.sub(lambda escape: bytes.fromhex(escape[1].decode()) if escape[1] else b"\\", text.encode("latin-1"))


def text_of(octets: bytes) -> str:
    """Octets as they are printed, but UTF-8 as its characters, where these can be seen."""
    text = octets.replace(b"\\", b"\\\\").decode("utf-8", "backslashreplace")
    if text.isprintable():
        return text
    return "".join(letter if letter.isprintable() else printed(letter.encode()) for letter in text)


def counted(count: int, thing: str) -> str:
    """So many things."""
    return f"{count:,} {thing}" if count == 1 else f"{count:,} {thing}s"


def shown(octets: bytes) -> str:
    """The front of a line, as it stands in a page, and how much is left out."""
    left_out = len(octets) - SHOWN
    text = html.escape(text_of(octets[:SHOWN]), quote=False)
    return f"{text} <small>and {counted(left_out, 'octet')} more</small>" if left_out > 0 else text


def element(tag: str, octets: bytes) -> str:
    """An element that has a line."""
    return f"<{tag}>{shown(octets)}</{tag}>"
