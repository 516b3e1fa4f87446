"""What is lent to the library: numbers and lists, checked before C sees them.

A number that is no integer is a TypeError, one that its place cannot hold a ValueError. Arrays of
numpy with 32-bit unsigned numbers are lent as they are, and answers to them are arrays that the
library has written to; everything else is copied.
"""

from __future__ import annotations

import array
import ctypes
import operator
import sys
from collections.abc import Sequence
from ctypes import c_uint32
from typing import Any, Optional, Union

NO_DELAY = 255
NO_BUFFER = 4_294_967_295

#: Lists, tuples, ranges and arrays of integers; numpy's arrays of one dimension.
Numbers = Union[Sequence[int], Any]


def number(name: str, value: Any, bits: int = 32) -> int:
    """An integer that so many bits hold."""
    try:
        found = operator.index(value)
    except TypeError:
        raise TypeError(f"{name} has to be an integer, not {type(value).__name__}") from None
    if not 0 <= found < 1 << bits:
        raise ValueError(f"{name} has to be from 0 to {(1 << bits) - 1:,}, not {found:,}")
    return found


def delay_limit(delay: Optional[int]) -> int:
    """A delay limit as the library takes it; None is no limit."""
    return NO_DELAY if delay is None else number("delay", delay)


def buffer_limit(buffer: Optional[int]) -> int:
    """A buffer limit as the library takes it; None is no limit."""
    return NO_BUFFER if buffer is None else number("buffer", buffer)


def limits(delay: Optional[int], buffer: Optional[int]) -> tuple[int, int]:
    """Both limits."""
    return (delay_limit(delay), buffer_limit(buffer))


class Lent:
    """A list that is lent to C: the place of its first number, and how many there are.

    The place is a valid one also where there is no number.
    """

    __slots__ = ("length", "pointer", "array")

    def __init__(self, kept: Any, address: int, length: int, numpy_array: Any = None) -> None:
        self.length = length
        self.array = numpy_array
        self.pointer = ctypes.cast(address, ctypes.POINTER(c_uint32))
        # As long as there is the pointer, there is what it points into.
        setattr(self.pointer, "_kept", kept)

    def __iter__(self) -> Any:
        yield self.pointer
        yield self.length


def _is_numpy(values: Any) -> bool:
    numpy = sys.modules.get("numpy")
    return numpy is not None and isinstance(values, numpy.ndarray)


def lent(name: str, values: Numbers) -> Lent:
    """A list of 32-bit numbers."""
    if _is_numpy(values):
        return _lent_array(name, values)
    if isinstance(values, (str, bytes, bytearray, memoryview)) or not isinstance(
        values, (Sequence, array.array)
    ):
        raise TypeError(f"{name} has to be a list of integers, not {type(values).__name__}")
    try:
        copied = array.array("I", values)
    except TypeError:
        raise TypeError(f"{name} has to be a list of integers") from None
    except OverflowError:
        raise ValueError(f"the numbers of {name} have to be from 0 to 4,294,967,295") from None
    return _of_array(copied, len(values))


def _of_array(copied: array.array[int], length: int) -> Lent:
    # An array without numbers has no place of its own.
    if not copied:
        copied = array.array("I", [0])
    return Lent(copied, copied.buffer_info()[0], length)


def _lent_array(name: str, values: Any) -> Lent:
    numpy = sys.modules["numpy"]
    if values.ndim != 1:
        raise ValueError(f"{name} has to be an array of one dimension, not {values.ndim}")
    if not numpy.issubdtype(values.dtype, numpy.integer):
        raise TypeError(f"{name} has to be an array of integers, not of {values.dtype}")
    if values.size and (int(values.min()) < 0 or int(values.max()) > NO_BUFFER):
        raise ValueError(f"the numbers of {name} have to be from 0 to 4,294,967,295")
    same = numpy.ascontiguousarray(values, dtype=numpy.uint32)
    return Lent(same, same.ctypes.data, len(same), same)


def empty(length: int, beside: Optional[Lent] = None) -> Lent:
    """A list of zeros for C to write to, as an array of numpy's beside one."""
    if beside is not None and beside.array is not None:
        zeros = sys.modules["numpy"].zeros(length, dtype="uint32")
        return Lent(zeros, zeros.ctypes.data, length, zeros)
    return _of_array(array.array("I", bytes(4 * length)), length)


def written(filled: Lent) -> Any:
    """What C has written: a list, or the array itself."""
    if filled.array is not None:
        return filled.array
    return filled.pointer[: filled.length]


def all_of(lists: Sequence[Lent]) -> list[Any]:
    """The places and lengths of lists, one after another."""
    return [part for one in lists for part in one]
