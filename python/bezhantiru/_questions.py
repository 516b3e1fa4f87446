"""What is asked of envelopes and traces: bounds, chains, the worst trace, sizes, the judge.

``None`` is no limit. Answers are named tuples of numbers and lists.
"""

from __future__ import annotations

from collections.abc import Sequence
from typing import NamedTuple, Optional

from ._library import library
from ._lists import (
    Numbers,
    all_of,
    buffer_limit,
    delay_limit,
    empty,
    lent,
    limits,
    number,
    written,
)
from ._refused import check


class Chain(NamedTuple):
    """Slots rising from 0, and the mark and amount of the link to each.

    The marks: 1 arrivals, 2 the delay limit, 3 the buffer limit.
    """

    slots: list[int]
    marks: list[int]
    amounts: list[int]


class WorstTrace(NamedTuple):
    """A trace, and the packets that are lost of it."""

    trace: list[int]
    loss: int


class Size(NamedTuple):
    """Whether some limit does, the smallest that does or else the greatest, and what it loses."""

    found: bool
    limit: int
    lost: int


class Judgement(NamedTuple):
    """The rule that breaks first, the slot in which it does, and for rule 3 the window; or 0s.

    Of a certificate, 6 and 7 are the links that do not hold.
    """

    rule: int
    slot: int
    window: int


class Bound(NamedTuple):
    """The first piece of a window in slots, and the packets that may depart in the window."""

    piece: int
    packets: int


def envelope(table: Numbers, window: int) -> Bound:
    """The closed envelope of a table at a window of 0 to 4,160 slots, and its first piece.

    >>> envelope([0, 2, 3], window=4)
    Bound(piece=2, packets=6)

    Refused: 1 to 4 for the table, 5.
    """
    bound = library["envelope"](*lent("table", table), number("window", window))
    check(bound.number)
    return Bound(bound.piece, bound.packets)


def find_chain(
    table: Numbers, delay: Optional[int], buffer: Optional[int], arrivals: Numbers, slot: int
) -> Chain:
    """Why no more is admitted by a slot of a trace: slots rising from 0 to it, link by link.

    The amounts add up to the packets admitted by the slot.

    >>> find_chain([0, 2, 3], delay=1, buffer=9, arrivals=[5, 0, 4, 0], slot=3)
    Chain(slots=[0, 3], marks=[0, 2], amounts=[0, 6])

    Refused: 1 to 4 for the table, 6, 7, 23, 10, 8, 18.
    """
    trace = lent("arrivals", arrivals)
    lists = [empty(trace.length + 1) for _ in Chain._fields]
    found = library["find_chain"](
        *lent("table", table), *limits(delay, buffer), *trace, number("slot", slot), *all_of(lists)
    )
    check(found.number)
    return Chain(*(written(one)[: found.places] for one in lists))


def check_chain(
    table: Numbers,
    delay: Optional[int],
    buffer: Optional[int],
    arrivals: Numbers,
    slot: int,
    slots: Sequence[int],
    marks: Sequence[int],
    amounts: Sequence[int],
) -> bool:
    """Whether anyone's lists are a sound chain to a slot, however it was found.

    Then no more packets are admitted by the slot than the amounts' sum.

    >>> trace = dict(table=[0, 2, 3], delay=1, buffer=9, arrivals=[5, 0, 4, 0], slot=3)
    >>> check_chain(**trace, slots=[0, 3], marks=[0, 2], amounts=[0, 6])
    True
    >>> check_chain(**trace, slots=[0, 3], marks=[0, 1], amounts=[0, 6])
    False

    Refused: 1 to 4 for the table, 6, 7, 23, 10, 11 for more places than there are slots and one, 8,
    18.
    """
    places = len(slots)
    if len(marks) != places or len(amounts) != places:
        raise ValueError("slots, marks and amounts have to be equally long")
    trace = lent("arrivals", arrivals)
    # The library takes lists one longer than the trace, and looks at no place beyond the number.
    rest = [0] * (trace.length + 1 - places)
    lists = [
        lent(name, [*given, *rest])
        for name, given in (("slots", slots), ("marks", marks), ("amounts", amounts))
    ]
    verdict = library["check_chain"](
        *lent("table", table),
        *limits(delay, buffer),
        *trace,
        number("slot", slot),
        *all_of(lists),
        number("the number of places", places),
    )
    check(verdict.number)
    return bool(verdict.sound)


def worst_trace(
    table: Numbers,
    delay: Optional[int],
    buffer: Optional[int],
    slots: int,
    most_in_slot: int,
    most_in_all: int,
) -> WorstTrace:
    """The trace within these limits of which the most is lost by its last slot.

    Among equals it has the most in slot 1, then in slot 2, and so on.

    >>> worst_trace([0, 2, 3], 1, 9, slots=3, most_in_slot=5, most_in_all=12)
    WorstTrace(trace=[5, 5, 2], loss=6)

    Refused: 1 to 4 for the table, 6, 7, 23, 10, 8.
    """
    slots = number("slots", slots)
    # A list is made only for slots that are not refused anyway.
    trace = empty(slots if slots <= 4_096 else 0)
    found = library["worst_trace"](
        *lent("table", table),
        *limits(delay, buffer),
        slots,
        number("most_in_slot", most_in_slot),
        number("most_in_all", most_in_all),
        *trace,
    )
    check(found.number)
    return WorstTrace(written(trace), found.loss)


def smallest_buffer(
    table: Numbers, delay: Optional[int], arrivals: Numbers, most_lost: int
) -> Size:
    """The smallest buffer limit, 0 to 1,000,000, that loses at most so many packets of a trace.

    Where there is no delay limit d, or the trace ends in at least d slots without arrivals, nobody
    loses as few with a smaller one; where none is found, whoever has one up to 1,000,000 loses more
    than `most_lost`.

    >>> smallest_buffer([0, 2, 3], delay=1, arrivals=[5, 0, 4, 0], most_lost=4)
    Size(found=True, limit=3, lost=3)
    >>> smallest_buffer([0, 2, 3], delay=1, arrivals=[5, 0, 4, 0], most_lost=0)
    Size(found=False, limit=1000000, lost=3)

    Refused: 1 to 4 for the table, 6, 10, 8.
    """
    return _size("smallest_buffer", table, delay_limit(delay), arrivals, most_lost)


def smallest_delay(
    table: Numbers, buffer: Optional[int], arrivals: Numbers, most_lost: int
) -> Size:
    """The smallest delay limit, 0 to 64, that loses at most so many packets of a trace.

    Where it is d and the trace ends in at least d - 1 slots without arrivals, nobody loses as few
    with a smaller one; where none is found and it ends in at least 64, whoever has one up to 64
    loses more than `most_lost`.

    >>> smallest_delay([0, 2, 3], buffer=9, arrivals=[5, 0, 4, 0], most_lost=2)
    Size(found=True, limit=2, lost=1)

    Refused: 1 to 4 for the table, 7, 10, 8.
    """
    return _size("smallest_delay", table, buffer_limit(buffer), arrivals, most_lost)


def _size(name: str, table: Numbers, given: int, arrivals: Numbers, most_lost: int) -> Size:
    trace = lent("arrivals", arrivals)
    found = library[name](*lent("table", table), given, *trace, number("most_lost", most_lost))
    check(found.number)
    return Size(bool(found.found), found.limit, found.lost)


def short_traces(slots: int) -> list[list[int]]:
    """Every trace of 0 to 5 slots with 0 to 3 packets in each, in dictionary order.

    >>> short_traces(1)
    [[0], [1], [2], [3]]
    >>> len(short_traces(5))
    1024

    Refused: 24.
    """
    slots = number("slots", slots)
    traces = 4**slots if slots <= 5 else 0
    counts = empty(slots * traces)
    check(library["short_traces"](slots, *counts))
    flat = written(counts)
    return [flat[slots * place : slots * (place + 1)] for place in range(traces)]


def judge(
    table: Numbers,
    delay: Optional[int],
    buffer: Optional[int],
    arrivals: Numbers,
    admitted: Numbers,
    departed: Numbers,
) -> Judgement:
    """Whether anyone's rows of a trace are permitted, and if not, which rule breaks first.

    The rules: 1 arrivals, 2 departures, 3 the envelope, 4 the buffer limit, 5 the delay limit.

    >>> trace = dict(table=[0, 2, 3], delay=1, buffer=9, arrivals=[5, 0, 4, 0])
    >>> judge(**trace, admitted=[3, 0, 3, 0], departed=[2, 1, 2, 1])
    Judgement(rule=0, slot=0, window=0)
    >>> judge(**trace, admitted=[4, 0, 3, 0], departed=[2, 2, 2, 1])
    Judgement(rule=3, slot=2, window=2)

    Refused: 1 to 4 for the table, 6, 7, 23, 10, 11, 8.
    """
    lists = [lent("arrivals", arrivals), lent("admitted", admitted), lent("departed", departed)]
    said = library["judge"](*lent("table", table), *limits(delay, buffer), *all_of(lists))
    check(said.number)
    return Judgement(said.rule, said.slot, said.window)
