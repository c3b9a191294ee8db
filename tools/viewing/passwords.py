"""Blots out the passwords that a client gives (RFC 4643)."""
from __future__ import annotations

import re
from dataclasses import replace
from typing import Iterable, Iterator, Optional

from viewing.capture import Exchange

BLOT = b"(blotted out)"
# What gives a password, behind the words that say how it is given. A name is none.
SECRET = re.compile(rb"AUTHINFO[ \t]+(?:SASL[ \t]+[^ \t]+|(?!USER[ \t]|SASL[ \t])[^ \t]+)[ \t]+([^ \t].*)", re.I | re.S)
# What the next lines may go on with a password behind.
BEGINNING = re.compile(rb"[ \t]*AUTHINFO[ \t]+(?!USER\b|PASS\b)", re.I)
ASKS_FOR_MORE = re.compile(rb"3[0-9][0-9]")
BASE64 = re.compile(rb"(?:[A-Za-z0-9+/]{4})*(?:[A-Za-z0-9+/]{2}==|[A-Za-z0-9+/]{3}=)?|=|\*")
# The commands that are base64 too.
COMMANDS = frozenset(b"BODY CAPABILITIES DATE HEAD HELP LAST LIST NEXT OVER POST QUIT STAT STARTTLS".split())


def is_more(before: Exchange, line: bytes) -> bool:
    """Whether a line goes on behind one that gives a password. Where an answer too many came before, it is the form of
    the line that tells."""
    if before.initial is None or ASKS_FOR_MORE.match(before.initial):
        return True
    return bool(BASE64.fullmatch(line)) and line.upper() not in COMMANDS


def secret_in(line: bytes) -> Optional[bytes]:
    """What of the line is a password, up to its end."""
    found = SECRET.search(line)
    return found[1] if found else None


def without_secret(line: bytes) -> bytes:
    """The line without a password in it."""
    secret = secret_in(line)
    return line[: -len(secret)] + BLOT if secret else line


def without_echo(answer: Optional[bytes], secret: bytes) -> Optional[bytes]:
    """What answers a password, which it may repeat."""
    if not answer or not secret.strip():
        return answer
    return re.sub(rb"(?<![A-Za-z0-9])" + re.escape(secret.strip()) + rb"(?![A-Za-z0-9])", BLOT, answer)


def without_passwords(exchanges: Iterable[Exchange]) -> Iterator[Exchange]:
    """The exchanges of a session, from the first on, with passwords blotted out."""
    before: Optional[Exchange] = None
    for exchange in exchanges:
        line = exchange.line or b""
        is_inside = before is not None and is_more(before, line)
        secret = line if is_inside else secret_in(line)
        before = exchange if is_inside or BEGINNING.match(line) else None
        if secret:
            exchange = replace(
                exchange,
                line=BLOT if is_inside else without_secret(line),
                initial=without_echo(exchange.initial, secret),
                block=without_echo(exchange.block, secret),
            )
        yield exchange
