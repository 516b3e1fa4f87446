"""The live regulator and the live device of leaky buckets."""

from __future__ import annotations

from collections.abc import Iterable
from ctypes import byref, c_uint32, c_uint64
from typing import Any, NamedTuple, Optional

from ._library import DeviceState, RegulatorState, library
from ._lists import Numbers, lent, limits, number
from ._refused import check


def form_fill(held_before: int, admitted: int, departed: int) -> int:
    """The fill at a slot's end, as the order form reads it.

    >>> form_fill(held_before=3, admitted=4, departed=2)
    5
    """
    packets = [number(*of, bits=64) for of in _named(held_before, admitted, departed)]
    return int(library["form_fill"](*packets))


def bench_fill(held_before: int, admitted: int) -> int:
    """The fill before a slot's departures, as the bench reads it.

    >>> bench_fill(held_before=3, admitted=4)
    7
    """
    packets = [number(*of, bits=64) for of in _named(held_before, admitted)]
    return int(library["bench_fill"](*packets))


def _named(*values: int) -> Iterable[tuple[str, int]]:
    return zip(("held_before", "admitted", "departed"), values)


class Record(NamedTuple):
    """The packets held before a slot, and those admitted, dropped and departed in it."""

    held_before: int
    admitted: int
    dropped: int
    departed: int

    @property
    def form_fill(self) -> int:
        """The fill at the slot's end."""
        return form_fill(self.held_before, self.admitted, self.departed)

    @property
    def bench_fill(self) -> int:
        """The fill before the slot's departures."""
        return bench_fill(self.held_before, self.admitted)


class Preview(NamedTuple):
    """The record that the next slot would give, and the headroom: what it would admit at most."""

    held_before: int
    admitted: int
    dropped: int
    departed: int
    headroom: int


class _Live:
    """What takes one slot after another. ``None`` is no limit."""

    __slots__ = ("_state",)
    _state: Any

    @property
    def slots(self) -> int:
        """Accepted slots so far."""
        return int(self._state.slots)

    @property
    def admitted(self) -> int:
        """Packets admitted so far."""
        return int(self._state.admitted)

    @property
    def form_peak(self) -> int:
        """The greatest fill at a slot's end so far, as the order form reads it."""
        return int(self._state.form_peak)

    @property
    def bench_peak(self) -> int:
        """The greatest fill before a slot's departures so far, as the bench reads it."""
        return int(self._state.bench_peak)

    def _take(self, state: Any) -> None:
        """A state of its own."""
        self._state = state

    def __copy__(self) -> _Live:
        other = type(self).__new__(type(self))
        other._take(type(self._state).from_buffer_copy(self._state))
        return other

    def __deepcopy__(self, memo: object) -> _Live:
        return self.__copy__()


class Regulator(_Live):
    """A fresh regulator for a table f(0) to f(L), a delay limit and a buffer limit.

    It takes one slot after another, for at most 1,000,000 slots. A copy (``copy.copy``) goes on
    from the same slot on its own. Threads that each have their own regulator need no lock.

    >>> regulator = Regulator([0, 2, 3], delay=1)
    >>> regulator.slot(5)
    Record(held_before=0, admitted=3, dropped=2, departed=2)
    >>> regulator.slot(0)
    Record(held_before=1, admitted=0, dropped=0, departed=1)
    >>> regulator.slots, regulator.form_peak, regulator.bench_peak
    (2, 1, 3)

    Refused: 1 to 4 for the table, 6, 7, 23.
    """

    __slots__ = ()

    def __init__(
        self, table: Numbers, delay: Optional[int] = None, buffer: Optional[int] = None
    ) -> None:
        made = library["set_up"](*lent("table", table), *limits(delay, buffer))
        check(made.number)
        self._take(RegulatorState.from_buffer_copy(made.regulator))

    def slot(self, arrivals: int) -> Record:
        """The next slot, with the packets that arrive in it.

        Refused: 8, 9; the regulator is then as it was.
        """
        row = library["slot"](byref(self._state), number("arrivals", arrivals, 64))
        check(row.number)
        return Record(row.held_before, row.admitted, row.dropped, row.departed)

    def preview(self, arrivals: int) -> Preview:
        """What the next slot would answer for so many packets; the regulator is not advanced.

        An encoder that asks before it sends loses no packet:

        >>> regulator = Regulator([0, 2, 3], delay=1)
        >>> regulator.preview(5)
        Preview(held_before=0, admitted=3, dropped=2, departed=2, headroom=3)
        >>> regulator.slot(regulator.preview(0).headroom).dropped
        0

        Refused: 8, 9.
        """
        state = self._state
        row = library["preview_on"](
            state.row,
            state.settings.near_windows,
            state.settings.last,
            state.settings.delay,
            state.settings.buffer,
            state.slots,
            state.admitted,
            number("arrivals", arrivals, 64),
        )
        check(row.number)
        return Preview(row.held_before, row.admitted, row.dropped, row.departed, row.headroom)


#: The parts of a device that a slot advances, in the order in which they are lent.
_ADVANCED = {
    c_uint32: ["slots"],
    c_uint64: ["admitted", "departed", "form_peak", "bench_peak"],
}


class Device(_Live):
    """A fresh device of one to four leaky buckets, each a (rate, burst) pair, and both limits.

    What departs in a window of slots is at most rate * window + burst for every bucket.

    >>> device = Device([(4, 0), (1, 12)], buffer=4)
    >>> device.slot(6)
    Record(held_before=0, admitted=4, dropped=2, departed=4)

    Refused: 15, 16, 6, 7, 23.
    """

    __slots__ = ("_lent",)

    def __init__(
        self,
        buckets: Iterable[tuple[int, int]],
        delay: Optional[int] = None,
        buffer: Optional[int] = None,
    ) -> None:
        profile: list[int] = []
        for bucket in buckets:
            if not isinstance(bucket, (tuple, list)) or len(bucket) != 2:
                raise TypeError(f"a bucket has to be a (rate, burst) pair, not {bucket!r}")
            profile += bucket
        made = library["device_set_up"](*lent("buckets", profile), *limits(delay, buffer))
        check(made.number)
        self._take(DeviceState.from_buffer_copy(made.device))

    def _take(self, state: Any) -> None:
        super()._take(state)
        settings = state.settings
        self._lent = [state.levels, settings.rates, settings.bursts]
        self._lent += [settings.buckets, settings.delay, settings.buffer]
        for kind, names in _ADVANCED.items():
            for name in names:
                self._lent.append(byref(kind.from_buffer(state, getattr(DeviceState, name).offset)))

    @property
    def departed(self) -> int:
        """Packets departed so far."""
        return int(self._state.departed)

    def slot(self, arrivals: int) -> Record:
        """The next slot, with the packets that arrive in it.

        Refused: 8, 9; the device is then as it was.
        """
        row = library["device_slot_on"](*self._lent, number("arrivals", arrivals, 64))
        check(row.number)
        return Record(row.held_before, row.admitted, row.dropped, row.departed)
