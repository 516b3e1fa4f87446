#!/usr/bin/env python3
"""usage: benchmark.py [--rounds N] STREAM...

Times the library, called from Python, beside min-plus sums in numpy (referee/min_plus.py) and,
where octave-cli is there, in GNU Octave (referee/min_plus.m), on stream files, and prints tables
in Markdown. No time is printed of a side that has not given the library's answers, in every slot
and at every window. Times are the processor's, medians of N rounds, 21 without --rounds, in which
all sides take turns; so are ratios, taken within a round. Octave is a process of its own, and its
ratio one of medians.
"""

from __future__ import annotations

import shutil
import subprocess
import sys
import time
import timeit
from collections.abc import Iterable, Sequence
from pathlib import Path
from statistics import median
from typing import Any, Callable, NamedTuple

try:
    import numpy as np
except ImportError:
    sys.exit("benchmark: there is no numpy; Debian has it as python3-numpy")

REFEREE = Path(__file__).resolve().parents[1] / "referee"
sys.path.append(str(REFEREE))

import min_plus

import bezhantiru

LAST_WINDOW = 4_160
#: A side works for so many seconds in its turn, or once where that takes longer.
TURN = 0.005

RUNS = (
    "Stream",
    "L",
    "Slots",
    "Library, run",
    "Library, live",
    "numpy, last L totals",
    "numpy, theorem 5.1",
    "numpy, departures alone",
    "Last L totals / run",
    "Last L totals / live",
)
CLOSURES = ("Stream", "L", "Library", "numpy", "numpy / library")
OCTAVE = ("Stream", "L", "Slots", "Last L totals", "Theorem 5.1", "Last L totals / library's run")


class Side(NamedTuple):
    """What is timed, and how the packets of its slots are read off its answers."""

    name: str
    work: Callable[[], Any]
    read: Callable[[Any], dict[str, Any]]


class Trace:
    """A stream file, as the library takes it and as numpy does."""

    def __init__(self, path: str) -> None:
        self.path = path
        self.stream = bezhantiru.read_stream(path)
        if not self.stream.arrivals:
            raise ValueError("a trace without slots")
        self.table = np.array(self.stream.table, dtype=np.uint32)
        self.arrivals = np.array(self.stream.arrivals, dtype=np.uint32)
        *self.set_up, counts = min_plus.read_stream(Path(path).read_bytes())
        self.counts = np.array(counts, dtype=np.int64)
        self.rows = self.run()

    def run(self) -> bezhantiru.Run:
        return bezhantiru.run(self.table, self.stream.delay, self.stream.buffer, self.arrivals)

    def live(self) -> list[bezhantiru.Record]:
        regulator = bezhantiru.Regulator(*self.stream[:3])
        return [regulator.slot(count) for count in self.stream.arrivals]

    def sides(self) -> list[Side]:
        X, _ = min_plus.by_theorem(*self.set_up, self.counts)
        f = min_plus.closure(self.set_up[0], len(X))

        def by(totals: Callable[..., Any]) -> Callable[[], Any]:
            return lambda: min_plus.rows(*totals(*self.set_up, self.counts), self.counts)

        return [
            Side("library, run", self.run, in_columns),
            Side("library, live", self.live, lambda records: in_columns(zip(*records), 1)),
            Side("numpy, last L totals", by(min_plus.by_last_totals), in_columns),
            Side("numpy, theorem 5.1", by(min_plus.by_theorem), in_columns),
            Side(
                "numpy, departures alone",
                lambda: np.diff(min_plus.convolution(X, f)),
                lambda departed: {"departed": departed},
            ),
        ]

    def heading(self) -> list[str]:
        """The first columns of a row: stream, L and slots."""
        return [Path(self.path).stem, str(len(self.table) - 1), f"{len(self.arrivals):,}"]


def in_columns(lists: Iterable[Any], skipped: int = 0) -> dict[str, Any]:
    """The lists admitted, dropped and departed by their names, after those that are skipped."""
    return dict(zip(bezhantiru.Run._fields, map(np.array, list(lists)[skipped:])))


def check(side: str, found: dict[str, Any], rows: bezhantiru.Run) -> None:
    """Raises a ValueError where the packets are not the library's."""
    for name, given in found.items():
        right = getattr(rows, name)
        if len(given) != len(right):
            raise ValueError(f"{side}: {len(given)} slots {name}, not {len(right)}")
        for place in np.flatnonzero(given != right)[:1]:
            said = f"{given[place]} {name} in slot {place + 1}"
            raise ValueError(f"{side}: {said}, and {right[place]} by the library")


def check_closure(table: Any, f: Any) -> None:
    """The same of f."""
    for window, packets in enumerate(f.tolist()):
        right = bezhantiru.envelope(table, window).packets
        if packets != right:
            raise ValueError(f"numpy: f({window}) is {packets}, and {right} by the library")


def timed(works: Sequence[Callable[[], Any]], rounds: int) -> list[list[float]]:
    """The seconds that each takes, round by round."""
    timers = [timeit.Timer(work, timer=time.process_time) for work in works]
    numbers = [max(1, round(TURN / timer.timeit(1))) for timer in timers]
    turns = list(zip(timers, numbers))
    return [[timer.timeit(number) / number for timer, number in turns] for _ in range(rounds)]


def medians(rounds: Iterable[Sequence[float]]) -> list[float]:
    return [median(side) for side in zip(*rounds)]


def ratio(rounds: Iterable[Sequence[float]], side: int, other: int) -> str:
    return f"{median(times[side] / times[other] for times in rounds):,.1f}"


def shown(seconds: float) -> str:
    if seconds < 1e-6:
        return f"{seconds * 1e9:.1f} ns"
    return f"{seconds * 1e6:.1f} µs" if seconds < 1e-3 else f"{seconds * 1e3:.2f} ms"


def run_row(trace: Trace, rounds: int) -> list[str]:
    sides = trace.sides()
    for side in sides:
        check(side.name, side.read(side.work()), trace.rows)
    times = timed([side.work for side in sides], rounds)
    slots = [shown(seconds / len(trace.arrivals)) for seconds in medians(times)]
    return [*trace.heading(), *slots, ratio(times, 2, 0), ratio(times, 2, 1)]


def closure_row(trace: Trace, rounds: int) -> list[str]:
    table = trace.set_up[0]
    check_closure(trace.table, min_plus.closure(table, LAST_WINDOW))
    times = timed(
        [
            lambda: bezhantiru.envelope(trace.table, LAST_WINDOW),
            lambda: min_plus.closure(table, LAST_WINDOW),
        ],
        rounds,
    )
    return [*trace.heading()[:2], *map(shown, medians(times)), ratio(times, 1, 0)]


def by_octave(trace: Trace, rounds: int, *options: str) -> float:
    """Its seconds, where its rows are the library's."""
    command = ["octave-cli", "-qfH", str(REFEREE / "min_plus.m"), *options]
    command += ["--times", str(rounds), trace.path]
    done = subprocess.run(command, stdout=subprocess.PIPE, text=True, check=True)
    seconds, _, *rows, _ = [line.split() for line in done.stdout.splitlines()]
    columns = np.array(rows, dtype=np.int64).T
    check("Octave", in_columns(columns, 2), trace.rows)
    return median(map(float, seconds[1:]))


def octave_row(trace: Trace, rounds: int) -> list[str]:
    last, theorem = by_octave(trace, rounds, "--last-totals"), by_octave(trace, rounds)
    [library] = medians(timed([trace.run], rounds))
    slots = [shown(seconds / len(trace.arrivals)) for seconds in (last, theorem)]
    return [*trace.heading(), *slots, f"{last / library:,.1f}"]


def print_table(title: str, heading: Sequence[str], rows: Sequence[Sequence[str]]) -> None:
    right = "---:|" * (len(heading) - 2)
    print(f"### {title}", "", f"| {' | '.join(heading)} |", f"|---|---|{right}", sep="\n")
    print(*(f"| {' | '.join(row)} |" for row in rows), "", sep="\n")


def of_file(path: str, work: Callable[..., Any], *arguments: Any) -> Any:
    """What the work answers, or a line that names the file, and the status 1."""
    try:
        return work(*arguments)
    except (OSError, ValueError, subprocess.CalledProcessError) as problem:
        sys.exit(f"benchmark: the file '{path}': {problem}")


def main(words: Sequence[str]) -> None:
    rounds = 21
    if words[:1] == ["--rounds"] and len(words) > 1 and words[1].isdecimal():
        rounds, words = max(1, int(words[1])), words[2:]
    if not words:
        print(__doc__, file=sys.stderr)
        sys.exit(2)
    try:
        bezhantiru.load()
    except OSError as problem:
        sys.exit(f"benchmark: {problem}")
    traces = [of_file(path, Trace, path) for path in words]

    def rows(row: Callable[[Trace, int], list[str]]) -> list[list[str]]:
        return [of_file(trace.path, row, trace, rounds) for trace in traces]

    slot = "A slot of a whole trace"
    print_table(slot, RUNS, rows(run_row))
    print_table(f"f at window {LAST_WINDOW:,}", CLOSURES, rows(closure_row))
    if shutil.which("octave-cli"):
        print_table(f"{slot}, GNU Octave", OCTAVE, rows(octave_row))


if __name__ == "__main__":
    main(sys.argv[1:])
