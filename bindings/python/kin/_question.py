"""What is asked."""

from __future__ import annotations

import datetime
import enum
from collections.abc import Sequence
from typing import Any, NamedTuple, Union

from ._library import numbers

# A day, as a date or by its number: day 1 is 1 January of year 1, as date.toordinal counts them.
Day = Union[int, datetime.date]

# 31 December 9999, the last day that a link or a question can name.
LAST_DAY = 3_652_059


class Classes(enum.IntFlag):
    """The classes of link that count, put together by |."""

    PARENT_CHILD_SIBLING = 1
    SPOUSE = 2
    SAME_PERSON = 4
    NAMED_TOGETHER = 8
    ALL = 15


class DateMeaning(enum.IntEnum):
    """What the day of a dated link means: the day of the event, or the day of registration."""

    EVENT = 1
    REGISTRATION = 2


class Question(NamedTuple):
    """What is asked: between whom, in how many hops, over links of which classes, with days of which meaning in which window,
    and whether undated links count too. Rings are asked of one person, who is from_person and to_person: back_to asks so.

    Classes, meaning, days and undated may be plain numbers too; the library refuses those that make no sense (10 to 15, 20, 21).
    """

    from_person: int
    to_person: int
    hops: int
    classes: int = Classes.ALL
    meaning: int = DateMeaning.EVENT
    first_day: Day = 1
    last_day: Day = LAST_DAY
    undated: Union[bool, int] = True

    @classmethod
    def back_to(cls, person: int, hops: int, **others: Any) -> Question:
        """Asks for the rings of a person. What else a question says may follow by its name."""
        return cls(person, person, hops, **others)


def numbers_of(question: Question) -> list[int]:
    """The eight numbers of a question, in the order in which the library takes them."""
    *others, first_day, last_day, undated = question
    return numbers([*others, _day_number(first_day), _day_number(last_day), undated])


def question_of(asked: Sequence[int]) -> Question:
    """The question that has these eight numbers, with names where there are any."""
    from_person, to_person, hops, classes, meaning, first_day, last_day, undated = asked
    if meaning in tuple(DateMeaning):
        meaning = DateMeaning(meaning)
    if undated in (False, True):
        undated = bool(undated)
    return Question(from_person, to_person, hops, Classes(classes), meaning, first_day, last_day, undated)


def _day_number(day: Day) -> int:
    return day.toordinal() if isinstance(day, datetime.date) else day
