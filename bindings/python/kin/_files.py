"""What a link file holds: its counts, and each person's links."""

from __future__ import annotations

import datetime
import struct
from typing import NamedTuple

from ._library import Bytes, library, number, slice_of, unchanging
from ._refused import not_refused


class Counts(NamedTuple):
    """How many persons, links and feeds a sound file has."""

    persons: int
    links: int
    feeds: int


class Link(NamedTuple):
    """A link in a row view: the person it leads to, its day (0 for undated), its feed and its kind.

    Kinds are 1 parent of, 2 child of, 3 spouse of, 4 sibling of, 5 same person, 16 to 31 named together in papers.
    """

    target: int
    day: int
    feed: int
    kind: int

    @property
    def date(self) -> datetime.date | None:
        """The day as a date; None if the link is undated."""
        return datetime.date.fromordinal(self.day) if self.day else None


def check(file: Bytes) -> Counts:
    """The counts of a sound file; a faulty one is refused (1 to 9)."""
    answer = not_refused(library.kin_check(*slice_of(unchanging(file))))
    return Counts(answer & 0xFFFF, answer >> 16 & 0xFFFF, answer >> 32)


def row_view(file: Bytes, person: int) -> memoryview:
    """The very part of the file that holds a person's links, 12 bytes each; links_in reads them.

    It is empty for a person without links, for a person who isn't in the file and for a refused file; check tells which.
    """
    length = library.kin_row(*slice_of(unchanging(file)), number(person))
    part = memoryview(file).cast("B")
    if length == 0:
        return part[:0]
    # The library answers the length only; that it isn't 0 says that the header and the row table are sound.
    row_table, link_table = struct.unpack_from("<II", part, 20)
    first, behind = struct.unpack_from("<II", part, row_table + 4 * person)
    part = part[link_table + 12 * first:link_table + 12 * behind]
    return part if len(part) == length else part[:0]


def links_in(row: Bytes) -> list[Link]:
    """The links in a row view, in its order."""
    return [Link(*link) for link in struct.iter_unpack("<IIHBx", row)]
