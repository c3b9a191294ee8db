"""Reads the pieces of a capture (docs/FORMATS.md, 'Captures')."""
from __future__ import annotations

import os
import re
from dataclasses import dataclass
from typing import BinaryIO, Iterator

# The first line of a piece, and how many octets the longest one has.
HEAD = re.compile(rb"(client|server|spool|session) ([0-9]{1,10})\n")
LONGEST = len(b"session 0123456789\n")
# How many octets are held at a time.
CHUNK = 1 << 20


class BadPiece(Exception):
    """The octets are no capture: the piece of this number, counted from 1, is none."""

    def __init__(self, number: int) -> None:
        super().__init__(f"bad capture piece {number}")


@dataclass
class Piece:
    """A piece that is there whole, in the file in which its octets stand."""

    kind: bytes
    place: int
    size: int
    file: BinaryIO

    def chunks(self) -> Iterator[bytes]:
        """The octets, in order."""
        left = self.size
        self.file.seek(self.place)
        while left > 0:
            chunk = self.file.read(min(left, CHUNK))
            if not chunk:
                raise OSError("a file became shorter while it was read")
            yield chunk
            left -= len(chunk)


def pieces_in(file: BinaryIO) -> Iterator[Piece]:
    """The pieces of the capture that a file holds; between two the file may be read and moved in."""
    end, size, number = 0, file.seek(0, os.SEEK_END), 0
    while end < size:
        number += 1
        file.seek(end)
        head = HEAD.fullmatch(file.readline(LONGEST))
        end = file.tell() + (int(head[2]) if head else 0)
        if not head or end > size:
            raise BadPiece(number)
        yield Piece(head[1], end - int(head[2]), int(head[2]), file)
