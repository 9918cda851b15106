"""The library's seven functions, as include/kin.h declares them, and what is lent to them."""

from __future__ import annotations

import ctypes
import operator
import os
from collections.abc import Iterable
from pathlib import Path
from typing import Any, Union

Bytes = Union[bytes, bytearray, memoryview]
Cells = ctypes.Array[ctypes.c_uint32]

RECORD_CELLS = 10


def number(value: int) -> int:
    """The value itself. ctypes would cut others down to 32 bits, and another question would be answered."""
    if not 0 <= operator.index(value) < 1 << 32:
        raise ValueError(f"{value} is no whole number of 32 bits")
    return value


def numbers(values: Iterable[int]) -> list[int]:
    return [number(value) for value in values]


def lent(values: Iterable[int]) -> Cells:
    """Cells that hold these numbers."""
    held = numbers(values)
    return (ctypes.c_uint32 * len(held))(*held)


def room_for(records: int) -> Cells:
    return (ctypes.c_uint32 * (records * RECORD_CELLS))()


def unchanging(file: Bytes) -> bytes:
    """The file in memory that nobody changes during a call."""
    return file if isinstance(file, bytes) else bytes(memoryview(file))


def slice_of(elements: bytes | Cells) -> tuple[bytes | Cells, int]:
    return elements, len(elements)


def _load() -> ctypes.CDLL:
    """The library that the package carries, or that KIN_LIBRARY names; each function with its types."""
    place = os.environ.get("KIN_LIBRARY", str(Path(__file__).resolve().with_name("libkin.so")))
    try:
        loaded = ctypes.CDLL(place)
    except OSError as why:
        raise ImportError(f"{place} cannot be loaded: run bindings/python/build.sh first, or name it by KIN_LIBRARY") from why
    whole_number = ctypes.c_uint32
    file: list[Any] = [ctypes.c_char_p, ctypes.c_size_t]
    cells: list[Any] = [ctypes.POINTER(ctypes.c_uint32), ctypes.c_size_t]
    question: list[Any] = [whole_number] * 8
    for function, takes in (
        (loaded.kin_check, file),
        (loaded.kin_row, [*file, whole_number]),
        (loaded.kin_fewest, [*file, *question, whole_number]),
        (loaded.kin_portion, [*file, *question, whole_number, *cells, *cells]),
        (loaded.kin_rings, [*file, *question, whole_number, *cells, *cells]),
        (loaded.kin_held, [*cells, *file, *cells]),
        (loaded.kin_join, [*file, *question, *cells, *cells]),
    ):
        function.argtypes = takes
        function.restype = ctypes.c_uint64
    return loaded


library = _load()
