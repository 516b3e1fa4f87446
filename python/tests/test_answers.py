"""Every function beside what a program in C is answered, on drawn cases, accepted and refused."""

import random
import unittest
from itertools import chain
from typing import Any, Callable, Optional

import bezhantiru as b
from bezhantiru._lists import NO_BUFFER, NO_DELAY

from .common import answers

CASES = 400


def listed(numbers: Any) -> str:
    return " ".join(map(str, [len(numbers), *numbers]))


def limits(delay: Optional[int], buffer: Optional[int]) -> str:
    numbers = (NO_DELAY if delay is None else delay, NO_BUFFER if buffer is None else buffer)
    return " ".join(map(str, numbers))


class Draw(random.Random):
    """Cases, most of which are accepted."""

    def table(self) -> list[int]:
        most = self.choice([1, 3, 9, 1_000, 20_000])
        table = [0]
        for _ in range(self.choice([1, 2, 3, 5, 8, 30, 64])):
            table.append(table[-1] + self.randint(0, most))
        return self.spoilt(table, [[], [0], [1, 2], [0, 1_000_001], [0, 2, 1], [0] * 66])

    def limits(self) -> tuple[Optional[int], Optional[int]]:
        delay = self.choice([None, 0, 1, 2, 5, 64])
        buffer = self.choice([None, 0, 1, 9, 500, 1_000_000])
        return self.spoilt(
            (delay, buffer), [(65, 9), (1, 1_000_001), (None, None), (255, 2**32 - 1)]
        )

    def arrivals(self, most_slots: int = 20) -> list[int]:
        most = self.choice([1, 4, 30, 5_000])
        drawn = [self.randint(0, most) for _ in range(self.randint(0, most_slots))]
        return self.spoilt(drawn, [[1_000_001], [0] * 4_097, [2**32 - 1, 1]])

    def spoilt(self, good: Any, others: list[Any]) -> Any:
        return self.choice(others) if self.random() < 0.04 else good


class Answers(unittest.TestCase):
    def compare(
        self, draw_case: Callable[[Draw], tuple[str, Callable[[], Any]]], cases: int = CASES
    ) -> None:
        """A line for C, and the same call in Python: a 0 and its numbers, or the refusal."""
        drawn = [draw_case(Draw(seed)) for seed in range(cases)]
        wanted = answers([line for line, _ in drawn])
        self.assertEqual(len(wanted), cases)
        refused = 0
        for (line, call), numbers in zip(drawn, wanted):
            try:
                found = [0, *call()]
            except b.Refused as refusal:
                found, numbers = [refusal.number], numbers[:1]
                refused += 1
            self.assertEqual(found, numbers, line[:300])
        self.assertLess(refused, cases)

    def test_live_regulators(self) -> None:
        def case(draw: Draw) -> tuple[str, Callable[[], Any]]:
            table, (delay, buffer), arrivals = draw.table(), draw.limits(), draw.arrivals()

            def call() -> Any:
                regulator = b.Regulator(table, delay=delay, buffer=buffer)
                for arrived in arrivals:
                    try:
                        preview = regulator.preview(arrived)
                        record = regulator.slot(arrived)
                    except b.Refused as refused:
                        yield from [0, 0, 0, refused.number, 0, 0, 0, 0, 0, 0]
                        continue
                    yield from [preview.admitted, preview.departed, preview.headroom]
                    yield from [0, *record, record.form_fill, record.bench_fill]
                yield from [regulator.slots, regulator.admitted]
                yield from [regulator.form_peak, regulator.bench_peak]

            return f"live {listed(table)} {limits(delay, buffer)} {listed(arrivals)}", call

        self.compare(case)

    def test_live_devices(self) -> None:
        def case(draw: Draw) -> tuple[str, Callable[[], Any]]:
            buckets = [(draw.randint(0, 9), draw.randint(0, 20)) for _ in range(draw.randint(1, 4))]
            buckets = draw.spoilt(buckets, [[], [(1, 1)] * 5, [(1, 1_000_001)]])
            (delay, buffer), arrivals = draw.limits(), draw.arrivals()

            def call() -> Any:
                device = b.Device(buckets, delay=delay, buffer=buffer)
                for arrived in arrivals:
                    try:
                        yield from [0, *device.slot(arrived)]
                    except b.Refused as refused:
                        yield from [refused.number, 0, 0, 0, 0]
                yield from [device.slots, device.admitted, device.departed]
                yield from [device.form_peak, device.bench_peak]

            profile = list(chain.from_iterable(buckets))
            return f"device {listed(profile)} {limits(delay, buffer)} {listed(arrivals)}", call

        self.compare(case)

    def compare_runs(self, name: str, most_slots: int) -> None:
        def case(draw: Draw) -> tuple[str, Callable[[], Any]]:
            table, (delay, buffer), arrivals = (
                draw.table(),
                draw.limits(),
                draw.arrivals(most_slots),
            )
            line = f"{name} {listed(table)} {limits(delay, buffer)} {listed(arrivals)}"
            call = getattr(b, name)
            return line, lambda: chain(
                *call(table=table, delay=delay, buffer=buffer, arrivals=arrivals)
            )

        self.compare(case)

    def test_runs(self) -> None:
        self.compare_runs("run", 40)

    def test_pencil_runs(self) -> None:
        self.compare_runs("pencil_run", 6)

    def test_paths(self) -> None:
        def case(draw: Draw) -> tuple[str, Callable[[], Any]]:
            tables = [draw.table() for _ in range(draw.spoilt(draw.randint(1, 4), [0, 5]))]
            (delay, buffer), arrivals = draw.limits(), draw.arrivals()
            line = f"path_run {len(tables)} {' '.join(map(listed, tables[:4]))} "
            line += f"{limits(delay, buffer)} {listed(arrivals)}"

            def call() -> Any:
                path = b.path_run(tables=tables, delay=delay, buffer=buffer, arrivals=arrivals)
                return chain(path.admitted, path.dropped, *path.departed)

            return line, call

        self.compare(case)

    def test_envelopes(self) -> None:
        def case(draw: Draw) -> tuple[str, Callable[[], Any]]:
            table, window = draw.table(), draw.choice([0, 1, 2, 7, 64, 65, 700, 4_160, 4_161])
            return f"envelope {listed(table)} {window}", lambda: b.envelope(table, window=window)

        self.compare(case)

    def test_chains(self) -> None:
        def case(draw: Draw) -> tuple[str, Callable[[], Any]]:
            table, (delay, buffer), arrivals = draw.table(), draw.limits(), draw.arrivals()
            slot = draw.spoilt(draw.randint(0, len(arrivals)), [len(arrivals) + 1, 2**32 - 1])
            line = f"find_chain {listed(table)} {limits(delay, buffer)} {listed(arrivals)} {slot}"
            return line, lambda: chain(*b.find_chain(table, delay, buffer, arrivals, slot=slot))

        self.compare(case)

    def test_checked_chains(self) -> None:
        def case(draw: Draw) -> tuple[str, Callable[[], Any]]:
            table, (delay, buffer), arrivals = draw.table(), draw.limits(), draw.arrivals()
            slot = draw.randint(0, len(arrivals))
            try:
                found = b.find_chain(table, delay, buffer, arrivals, slot)
            except b.Refused:
                found = b.Chain([0], [0], [0])
            if draw.random() < 0.5:
                place, spoilt = draw.randrange(len(found.slots)), draw.choice(found)
                spoilt[place] = draw.choice(
                    [0, 1, 2, 3, min(spoilt[place] + 1, 2**32 - 1), 2**32 - 1]
                )
            padded = " ".join(
                str(number)
                for one in found
                for number in one + [0] * (len(arrivals) + 1 - len(one))
            )
            line = f"check_chain {listed(table)} {limits(delay, buffer)} {listed(arrivals)} "
            line += f"{slot} {len(found.slots)} {padded}"
            return line, lambda: [int(b.check_chain(table, delay, buffer, arrivals, slot, *found))]

        self.compare(case)

    def test_squares(self) -> None:
        def case(draw: Draw) -> tuple[str, Callable[[], Any]]:
            square = [[0] * 33 for _ in range(33)]
            for s, row in enumerate(square):
                for t in range(s + 1, 33):
                    row[t] = row[t - 1] + draw.randint(0, 6)
            if draw.random() < 0.1:
                square[draw.randrange(33)][draw.randrange(33)] = draw.choice([1, 1_000_001])
            (delay, buffer), arrivals = draw.limits(), draw.arrivals(33)
            entries = " ".join(str(entry) for row in square for entry in row)
            line = f"square_run {entries} {limits(delay, buffer)} {listed(arrivals)}"
            return line, lambda: chain(*b.square_run(square, delay, buffer, arrivals))

        self.compare(case)

    def test_ports(self) -> None:
        def case(draw: Draw) -> tuple[str, Callable[[], Any]]:
            due = [draw.randint(0, 5) for _ in range(draw.randint(1, 8))]
            due = draw.spoilt(due, [[], [0] * 9, [65]])
            slots = draw.spoilt(draw.randint(0, 12), [257])
            capacity = draw.choice([0, 1, 3, 20, 2**32 - 1])
            coming = [draw.randint(0, 4) for _ in range(slots * len(due))]
            coming = draw.spoilt(coming, [[1], [1_000_001] * (slots * len(due))])
            line = f"port_run {listed(due)} {slots} {capacity} {listed(coming)}"
            return line, lambda: chain(
                *b.port_run(deadlines=due, slots=slots, capacity=capacity, input=coming)
            )

        self.compare(case)

    def test_worst_traces(self) -> None:
        def case(draw: Draw) -> tuple[str, Callable[[], Any]]:
            table, (delay, buffer) = draw.table(), draw.limits()
            slots = draw.spoilt(draw.randint(0, 30), [4_096, 4_097])
            in_slot = draw.spoilt(draw.randint(0, 30), [1_000_000, 1_000_001])
            in_all = draw.choice([0, 5, 200, 2**32 - 1])
            line = f"worst_trace {listed(table)} {limits(delay, buffer)} {slots} {in_slot} {in_all}"

            def call() -> Any:
                found = b.worst_trace(table, delay, buffer, slots, in_slot, most_in_all=in_all)
                return [*found.trace, found.loss]

            return line, call

        self.compare(case)

    def compare_sizes(self, name: str, limit: str) -> None:
        def case(draw: Draw) -> tuple[str, Callable[[], Any]]:
            table, (delay, buffer), arrivals = draw.table(), draw.limits(), draw.arrivals()
            most_lost = draw.choice([0, 1, 5, sum(arrivals[:20]) // 2, 2**32 - 1])
            given = dict(delay=delay, buffer=buffer)[limit]
            number = limits(delay, buffer).split()[["delay", "buffer"].index(limit)]
            line = f"{name} {listed(table)} {number} {listed(arrivals)} {most_lost}"
            arguments = dict(table=table, arrivals=arrivals, most_lost=most_lost)
            return line, lambda: getattr(b, name)(**arguments, **{limit: given})

        self.compare(case)

    def test_smallest_buffers(self) -> None:
        self.compare_sizes("smallest_buffer", "delay")

    def test_smallest_delays(self) -> None:
        self.compare_sizes("smallest_delay", "buffer")

    def test_short_traces(self) -> None:
        def case(draw: Draw) -> tuple[str, Callable[[], Any]]:
            slots = draw.choice([0, 1, 2, 3, 4, 5, 6, 2**32 - 1])
            return f"short_traces {slots}", lambda: chain(*b.short_traces(slots))

        self.compare(case, 40)

    def test_judged_rows(self) -> None:
        def case(draw: Draw) -> tuple[str, Callable[[], Any]]:
            table, (delay, buffer), arrivals = draw.table(), draw.limits(), draw.arrivals()
            try:
                admitted, _, departed = b.run(table, delay, buffer, arrivals)
            except b.Refused:
                admitted, departed = arrivals[:], draw.spoilt(arrivals[:], [[1, 2, 3]])
            if admitted and draw.random() < 0.7:
                spoilt = draw.choice([admitted, departed])
                place = draw.randrange(len(spoilt))
                spoilt[place] = draw.choice([0, min(spoilt[place] + 1, 2**32 - 1), 2**32 - 1])
            line = f"judge {listed(table)} {limits(delay, buffer)} {listed(arrivals)} "
            line += f"{listed(admitted)} {listed(departed)}"
            return line, lambda: b.judge(table, delay, buffer, arrivals, admitted, departed)

        self.compare(case)

    def test_certificates(self) -> None:
        self.compare_runs("certify", 40)

    def test_checked_certificates(self) -> None:
        def case(draw: Draw) -> tuple[str, Callable[[], Any]]:
            table, (delay, buffer), arrivals = draw.table(), draw.limits(), draw.arrivals()
            try:
                admitted, _, departed = b.run(table, delay, buffer, arrivals)
                lists = [admitted, departed, *b.certify(table, delay, buffer, arrivals)]
            except b.Refused:
                lists = [arrivals[:] for _ in range(5)]
            if arrivals and draw.random() < 0.7:
                spoilt = draw.choice(lists)
                place = draw.randrange(len(spoilt))
                spoilt[place] = draw.choice([0, 1, 2, 3, place, place + 1, 2**32 - 1])
            lists = draw.spoilt(lists, [[*lists[:4], lists[4] + [0]], [[], *lists[1:]]])
            line = f"check_certificate {listed(table)} {limits(delay, buffer)} {listed(arrivals)} "
            line += " ".join(map(listed, lists))
            return line, lambda: b.check_certificate(table, delay, buffer, arrivals, *lists)

        self.compare(case)
