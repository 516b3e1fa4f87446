"""The proved least-loss traffic regulator, from Python.

>>> from bezhantiru import Regulator, run
>>> regulator = Regulator([0, 2, 3], delay=1, buffer=9)
>>> regulator.slot(5)
Record(held_before=0, admitted=3, dropped=2, departed=2)
>>> run([0, 2, 3], delay=1, buffer=9, arrivals=[5, 0, 4, 0]).dropped
[2, 0, 1, 0]

Every function is the library's of that name; include/bezhantiru.h says what each answers, and when
it refuses. A refusal raises ``Refused``. None is no limit.
"""

from ._certificates import Certificate, certify, check_certificate
from ._library import library as _library
from ._questions import (
    Bound,
    Chain,
    Judgement,
    Size,
    WorstTrace,
    check_chain,
    envelope,
    find_chain,
    judge,
    short_traces,
    smallest_buffer,
    smallest_delay,
    worst_trace,
)
from ._refused import Refused
from ._regulator import Device, Preview, Record, Regulator, bench_fill, form_fill
from ._runs import PathRun, PortRun, Run, path_run, pencil_run, port_run, run, square_run
from ._stream import Stream, read_stream

load = _library.load
close = _library.close

__all__ = [
    "Bound",
    "Certificate",
    "Chain",
    "Device",
    "Judgement",
    "PathRun",
    "PortRun",
    "Preview",
    "Record",
    "Refused",
    "Regulator",
    "Run",
    "Size",
    "Stream",
    "WorstTrace",
    "bench_fill",
    "certify",
    "check_certificate",
    "check_chain",
    "close",
    "envelope",
    "find_chain",
    "form_fill",
    "judge",
    "load",
    "path_run",
    "pencil_run",
    "port_run",
    "read_stream",
    "run",
    "short_traces",
    "smallest_buffer",
    "smallest_delay",
    "square_run",
    "worst_trace",
]
