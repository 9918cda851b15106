"""What a question is answered: chains and rings, in portions or all, and fewest hops."""

from __future__ import annotations

import ctypes
from collections.abc import Iterator, Sequence
from typing import NamedTuple

from ._library import RECORD_CELLS, Bytes, Cells, lent, library, number, numbers, room_for, slice_of, unchanging
from ._question import Question, numbers_of, question_of
from ._refused import not_refused

# The persons of a chain, From first and To last.
Chain = tuple[int, ...]

# The persons of a ring, the one that it leads back to first and last.
Ring = tuple[int, ...]

# Chains or rings a portion, unless another room is asked for. Each portion checks the file again.
ROOM = 1_024

# Half chains that the join has room for, unless another room is asked for.
WORKING_ROOM = 65_536

# A held listing is the eight numbers of its question, the started mark and the record of the last chain. Before version 2 a question
# had no number for undated links, and they counted.
_UNDATED = 7
_STARTED = _UNDATED + 1
_RECORD = _STARTED + 1
_HELD_CELLS = _RECORD + RECORD_CELLS
_STORED_HELD_CELLS = _HELD_CELLS - 1

# The bit of a listing that says ended; below it stands the count.
_ENDED = 1 << 62

# A cell that begins no record.
_UNTOUCHED = 0xFFFF_FFFF


class Portion(NamedTuple):
    """The chains of a portion, and whether none follows the last of them."""

    chains: list[Chain]
    ended: bool


class RingPortion(NamedTuple):
    """The rings of a portion, and whether none follows the last of them."""

    rings: list[Ring]
    ended: bool


class Joined(NamedTuple):
    """A portion listed by joining half chains, and all the half chains there are."""

    portion: Portion
    half_chains: list[Chain]


class HeldListing:
    """A question and how far its listing has come: not started, or after a chain. Each call moves it on by a portion.

    It lists chains. Who lists rings keeps the last one, after which they go on.

    Two threads must not move the same held listing on at once.
    """

    def __init__(self, question: Question, after: Sequence[int] | None = None) -> None:
        self._cells = lent([*numbers_of(question), *_started_and_record(after)])

    @classmethod
    def from_cells(cls, cells: Sequence[int]) -> HeldListing:
        """Takes up again a held listing that was put away.

        One of 18 cells was put away before version 2. It goes on where it was, over undated links too, as it did; put away again, it
        has 19 cells.
        """
        if len(cells) == _STORED_HELD_CELLS:
            cells = [*cells[:_UNDATED], True, *cells[_UNDATED:]]
        if len(cells) != _HELD_CELLS:
            raise ValueError(f"a held listing has {_HELD_CELLS} cells, or {_STORED_HELD_CELLS} as before version 2, not {len(cells)}")
        held = cls.__new__(cls)
        held._cells = lent(cells)
        return held

    def __repr__(self) -> str:
        return f"HeldListing({self.question}, after={self.last})"

    def __reduce__(self) -> tuple[object, ...]:
        # A copy has cells of its own, and a held listing can be pickled.
        return HeldListing.from_cells, (self.cells,)

    @property
    def cells(self) -> list[int]:
        """What to put away: the eight numbers of the question, started, and the record of the last chain, 19 cells in all."""
        return list(self._cells)

    @property
    def question(self) -> Question:
        """The question, which no call changes. Its days are numbers, also where dates were given."""
        return question_of(self._cells[:_STARTED])

    @property
    def last(self) -> Chain | None:
        """The last chain handed over, after which the listing goes on; None if it isn't started."""
        return _chain_at(self._cells, _RECORD) if self._cells[_STARTED] else None

    def move_on(self, file: Bytes, room: int = ROOM) -> Portion:
        """The next chains, at most so many; the last one is kept. If there are none, or on a refusal, nothing changes here."""
        output = room_for(room)
        answer = library.kin_held(*slice_of(self._cells), *slice_of(unchanging(file)), *slice_of(output))
        return Portion(*_listed(answer, output))


class _OneByOne(Iterator[Chain]):
    """What is still to come of a listing, and the last that was handed out."""

    def __init__(self, question: Question, after: Sequence[int] | None, to_come: Iterator[Chain]) -> None:
        self.question = question
        self.last = after
        self._to_come = to_come

    def __repr__(self) -> str:
        return f"{type(self).__name__}({self.question}, after={self.last})"

    def __next__(self) -> Chain:
        self.last = chain = next(self._to_come)
        return chain


class Chains(_OneByOne):
    """The chains of a question still to come, one after another. The last one handed out is a bookmark, to go on after it later."""

    def __init__(self, file: Bytes, question: Question, room: int, after: Sequence[int] | None) -> None:
        super().__init__(question, after, _chains_onward(unchanging(file), HeldListing(question, after), room))


class Rings(_OneByOne):
    """The rings of a person still to come, one after another. The last one handed out is a bookmark, to go on after it later."""

    def __init__(self, file: Bytes, question: Question, room: int, after: Sequence[int] | None) -> None:
        asked, start = numbers_of(question), numbers(_started_and_record(after))
        super().__init__(question, after, _rings_onward(unchanging(file), asked, room, start))


def fewest_hops(file: Bytes, question: Question, person: int) -> int | None:
    """The fewest hops from a person to the question's To; None if they are more than the question's hops. Refusals 1 to 15, 20."""
    fewest = not_refused(library.kin_fewest(*slice_of(unchanging(file)), *numbers_of(question), number(person)))
    return fewest if fewest <= question.hops else None


def portion(file: Bytes, question: Question, room: int = ROOM, after: Sequence[int] | None = None) -> Portion:
    """The first chains, at most so many, in dictionary order; with a bookmark, the first after that chain. Refusals 1 to 17, 20."""
    started, *record = _started_and_record(after)
    output = room_for(room)
    answer = library.kin_portion(
        *slice_of(unchanging(file)), *numbers_of(question), started, *slice_of(lent(record)), *slice_of(output)
    )
    return Portion(*_listed(answer, output))


def chains(file: Bytes, question: Question, room: int = ROOM, after: Sequence[int] | None = None) -> Chains:
    """All chains, or all after a bookmark, in dictionary order. A refusal is raised when the first chain is asked for.

    They are fetched so many a portion; the room shows in the time it takes only.
    """
    return Chains(file, question, room, after)


def ring_portion(file: Bytes, question: Question, room: int = ROOM, after: Sequence[int] | None = None) -> RingPortion:
    """The first rings of the question's person, at most so many, in dictionary order; with a bookmark, the first after that ring.

    A ring is 2 to the question's hops from the person back to that person, all others different from it and from each other. Both
    directions round are two rings. Refusals 1 to 10, 12 to 17, 20, and 21 if the question names two persons.
    """
    return _ring_portion(unchanging(file), numbers_of(question), room, _started_and_record(after))


def rings(file: Bytes, question: Question, room: int = ROOM, after: Sequence[int] | None = None) -> Rings:
    """All rings of the question's person, or all after a bookmark, in dictionary order. A refusal is raised when the first ring is
    asked for.

    They are fetched so many a portion; the room shows in the time it takes only.
    """
    return Rings(file, question, room, after)


def join(file: Bytes, question: Question, room: int = ROOM, working_room: int = WORKING_ROOM) -> Joined:
    """The first chains, at most so many, shorter ones first, and all half chains they are joined from. Refusals 1 to 16, 18, 20."""
    working, output = room_for(working_room), room_for(room)
    ctypes.memset(working, 0xFF, ctypes.sizeof(working))
    answer = library.kin_join(
        *slice_of(unchanging(file)), *numbers_of(question), *slice_of(working), *slice_of(output)
    )
    listed = Portion(*_listed(answer, output))
    # The library doesn't say how many half chains there are, but leaves the cells behind them as they came.
    return Joined(listed, list(_chains_in(working, working_room)))


def _chains_onward(file: bytes, held: HeldListing, room: int) -> Iterator[Chain]:
    """The chains still to come of a held listing, which is moved on portion by portion."""
    ended = False
    while not ended:
        found, ended = held.move_on(file, room)
        yield from found


def _rings_onward(file: bytes, asked: list[int], room: int, start: list[int]) -> Iterator[Ring]:
    """The rings still to come, each portion after the last ring of the one before."""
    ended = False
    while not ended:
        found, ended = _ring_portion(file, asked, room, start)
        if found:
            start = _started_and_record(found[-1])
        yield from found


def _ring_portion(file: bytes, asked: list[int], room: int, start: list[int]) -> RingPortion:
    started, *record = start
    output = room_for(room)
    answer = library.kin_rings(*slice_of(file), *asked, started, *slice_of(lent(record)), *slice_of(output))
    return RingPortion(*_listed(answer, output))


def _listed(answer: int, output: Cells) -> tuple[list[Chain], bool]:
    """What was written to the output, and whether the listing has ended."""
    listed = not_refused(answer)
    return list(_chains_in(output, listed & (_ENDED - 1))), bool(listed & _ENDED)


def _chains_in(cells: Cells, count: int) -> Iterator[Chain]:
    """The chains of the first records in the cells, up to so many, ending before cells that were never written."""
    for record in range(0, count * RECORD_CELLS, RECORD_CELLS):
        if cells[record] == _UNTOUCHED:
            return
        yield _chain_at(cells, record)


def _chain_at(cells: Cells, record: int) -> Chain:
    """The persons of a record: one more than its hops."""
    hops = cells[record]
    return tuple(cells[record + 1:record + hops + 2])


def _started_and_record(after: Sequence[int] | None) -> list[int]:
    """A chain of no person, or of more than a record has room for, gets hops that no listing has: it is refused (17)."""
    if after is None:
        return [0] * (1 + RECORD_CELLS)
    record = [max(len(after) - 1, 0), *after, *[0] * RECORD_CELLS]
    return [1, *record[:RECORD_CELLS]]
