"""Whole traces through regulators, and through a port that they share.

``None`` is no limit. Answers are named tuples of lists, or of numpy's arrays where ``arrivals``
(for ``port_run`` its ``input``) is such an array.
"""

from __future__ import annotations

from collections.abc import Sequence
from typing import Any, NamedTuple, Optional

from ._library import library
from ._lists import Numbers, all_of, empty, lent, limits, number, written
from ._refused import check

SQUARE = 33
STAGES = 4


class Run(NamedTuple):
    """The packets admitted, dropped and departed in slots 1, 2, .."""

    admitted: Any
    dropped: Any
    departed: Any


class PathRun(NamedTuple):
    """The packets admitted and dropped at the entrance, and those departed from each stage."""

    admitted: Any
    dropped: Any
    departed: Any


class PortRun(NamedTuple):
    """The packets sent in each slot, laid out as the input is, and one late count a stream."""

    sent: Any
    late: Any


def run(table: Numbers, delay: Optional[int], buffer: Optional[int], arrivals: Numbers) -> Run:
    """All slots of a trace of at most 4,096 slots, from a fresh regulator.

    >>> run([0, 2, 3], delay=1, buffer=9, arrivals=[5, 0, 4, 0])
    Run(admitted=[3, 0, 3, 0], dropped=[2, 0, 1, 0], departed=[2, 1, 2, 1])

    Refused: 1 to 4 for the table, 6, 7, 23, 10, 8.
    """
    return _run("run", [*lent("table", table)], delay, buffer, arrivals)


def pencil_run(
    table: Numbers, delay: Optional[int], buffer: Optional[int], arrivals: Numbers
) -> Run:
    """The pencil version of ``run``, for traces of at most 5 slots.

    >>> pencil_run([0, 2, 3], delay=1, buffer=9, arrivals=[5, 0, 4, 0])
    Run(admitted=[3, 0, 3, 0], dropped=[2, 0, 1, 0], departed=[2, 1, 2, 1])

    Refused: 1 to 4 for the table, 6, 7, 23, 24, 8.
    """
    return _run("pencil_run", [*lent("table", table)], delay, buffer, arrivals)


def square_run(
    square: Sequence[Sequence[int]],
    delay: Optional[int],
    buffer: Optional[int],
    arrivals: Numbers,
) -> Run:
    """All slots of a trace under an envelope that varies with time.

    ``square[s][t]`` is the most that may depart in slots s + 1 to t, for s and t from 0 to 32.

    >>> square = [[max(0, 2 * (t - s)) for t in range(33)] for s in range(33)]
    >>> square_run(square, delay=1, buffer=9, arrivals=[5, 0, 4])
    Run(admitted=[4, 0, 4], dropped=[1, 0, 0], departed=[2, 2, 2])

    Refused: 19, then 3 and 4 along the rows, 6, 7, 23, 20, 8.
    """
    if len(square) != SQUARE or any(len(row) != SQUARE for row in square):
        raise ValueError(f"square has to have {SQUARE} rows of {SQUARE} numbers")
    entries = lent("square", [entry for row in square for entry in row])
    return _run("square_run", [entries.pointer], delay, buffer, arrivals)


def _run(
    name: str,
    envelope_of: list[Any],
    delay: Optional[int],
    buffer: Optional[int],
    arrivals: Numbers,
) -> Run:
    trace = lent("arrivals", arrivals)
    lists = [empty(trace.length, trace) for _ in Run._fields]
    outcome = library[name](*envelope_of, *limits(delay, buffer), *trace, *all_of(lists))
    check(outcome)
    return Run(*map(written, lists))


def path_run(
    tables: Sequence[Numbers], delay: Optional[int], buffer: Optional[int], arrivals: Numbers
) -> PathRun:
    """All slots of a trace through a path of one to four regulators, each with its own table.

    ``departed`` has a list for each stage.

    >>> path_run([[0, 2, 3], [0, 2]], delay=1, buffer=9, arrivals=[5, 0, 4])
    PathRun(admitted=[3, 0, 3], dropped=[2, 0, 1], departed=[[2, 1, 2], [2, 1, 2]])

    Refused: 17, 1 to 4 for the tables from the first on, 6, 7, 23, 10, 8.
    """
    stages = len(tables)
    lent_tables = [lent("tables", table) for table in tables[:STAGES]]
    # Tables beyond the number of stages are not looked at.
    lent_tables += [empty(0)] * (STAGES - len(lent_tables))
    trace = lent("arrivals", arrivals)
    admitted, dropped = empty(trace.length, trace), empty(trace.length, trace)
    departed = empty(stages * trace.length, trace)
    outcome = library["path_run"](
        number("the number of tables", stages),
        *all_of(lent_tables),
        *limits(delay, buffer),
        *all_of([trace, admitted, dropped, departed]),
    )
    check(outcome)
    by_stage = _by_stream(written(departed), stages, trace.length)
    return PathRun(written(admitted), written(dropped), by_stage)


def _by_stream(flat: Any, streams: int, slots: int) -> Any:
    """A list for each stream of one that has them one after another; an array keeps its place."""
    if isinstance(flat, list):
        return [flat[slots * stream : slots * (stream + 1)] for stream in range(streams)]
    return flat.reshape(streams, slots)


def port_run(deadlines: Numbers, slots: int, capacity: int, input: Any) -> PortRun:
    """A port that one to eight streams share, one for each deadline, over a run of so many slots.

    ``input`` has the packets of the first stream in slots 1, 2, .., then those of the second, and
    so on; or it has a list for each stream. ``sent`` is laid out as ``input`` is.

    >>> port_run(deadlines=[0, 1], slots=2, capacity=1, input=[[1, 0], [1, 0]])
    PortRun(sent=[[1, 0], [0, 1]], late=[0, 0])

    Refused: 21, 22, 11, 8.
    """
    slots, due = number("slots", slots), lent("deadlines", deadlines)
    apart = len(input) > 0 and hasattr(input[0], "__len__")
    if apart:
        if any(len(stream) != slots for stream in input):
            raise ValueError(f"each stream of the input has to have {slots} slots")
        flat = input.reshape(-1) if hasattr(input, "reshape") else [n for of in input for n in of]
    else:
        flat = input
    coming = lent("input", flat)
    sent, late = empty(coming.length, coming), empty(due.length, coming)
    outcome = library["port_run"](
        *due, slots, number("capacity", capacity), *all_of([coming, sent, late])
    )
    check(outcome)
    gone = written(sent)
    return PortRun(_by_stream(gone, due.length, slots) if apart else gone, written(late))
