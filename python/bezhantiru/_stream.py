"""The stream file."""

from __future__ import annotations

import array
import ctypes
import os
import sys
from typing import NamedTuple, Optional, Union

from ._library import library
from ._lists import NO_BUFFER, NO_DELAY
from ._refused import check

#: No accepted file is as long as this, so that what stands behind it decides nothing.
_MOST_BYTES = 65_537


class Stream(NamedTuple):
    """A table, a delay limit, a buffer limit and the packets that arrive in slots 1, 2, .."""

    table: list[int]
    delay: Optional[int]
    buffer: Optional[int]
    arrivals: list[int]


def read_stream(path: Union[str, os.PathLike[str]]) -> Stream:
    """The stream of a stream file, as docs/FORMAT.md describes it.

    ``run(*read_stream(path))`` runs it.

    Refused: 12, 1, 10, 13, 2, 3, 4, 6, 7, 14, 8.
    """
    with open(path, "rb") as file:
        data = file.read(_MOST_BYTES)
    # An empty file still has a place in memory.
    held = ctypes.create_string_buffer(data, max(1, len(data)))
    where = ctypes.cast(held, ctypes.POINTER(ctypes.c_uint8))
    part = library["counts_part"](where, len(data))
    check(part.number)
    numbers = array.array("I", data)
    if sys.byteorder == "big":
        numbers.byteswap()
    last, slots, bursts, delay, buffer = numbers[:5]
    table = numbers[5 : 6 + last].tolist()
    arrivals = [0] * slots
    for slot, count in zip(numbers[6 + last : 6 + last + bursts], numbers[6 + last + bursts :]):
        arrivals[slot - 1] = count
    return Stream(
        table,
        None if delay == NO_DELAY else delay,
        None if buffer == NO_BUFFER else buffer,
        arrivals,
    )
