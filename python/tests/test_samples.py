"""Every sample of the repository, by each way that takes it."""

import copy
import struct
import tempfile
import unittest
from pathlib import Path

import bezhantiru
from bezhantiru import Refused, Regulator, check_chain, find_chain, path_run, read_stream, run

from .common import SAMPLES, rows, stream


class Samples(unittest.TestCase):
    def test_whole_traces(self):
        for sample in SAMPLES:
            _, arrived, admitted, dropped, departed, _ = map(list, zip(*rows(sample)))
            read = read_stream(stream(sample))
            self.assertEqual(read.arrivals, arrived)
            self.assertEqual(run(*read), (admitted, dropped, departed))
            table, delay, buffer, arrivals = read
            path = path_run([table], delay, buffer, arrivals)
            self.assertEqual(path, (admitted, dropped, [departed]))

    def test_live_regulators_and_their_peaks(self):
        for sample in SAMPLES:
            table, delay, buffer, arrivals = read_stream(stream(sample))
            regulator = Regulator(table, delay, buffer)
            held = form = bench = 0
            for row in rows(sample):
                preview = regulator.preview(row[1])
                record = regulator.slot(row[1])
                self.assertEqual(record, (held, *row[2:5]))
                self.assertEqual(preview[:4], record)
                self.assertEqual(min(row[1], preview.headroom), record.admitted)
                self.assertEqual(record.bench_fill, held + row[2])
                self.assertEqual(record.form_fill, row[5])
                held = row[5]
                form, bench = max(form, held), max(bench, record.bench_fill)
            self.assertEqual((regulator.form_peak, regulator.bench_peak), (form, bench))
            self.assertEqual(regulator.slots, len(arrivals))
            self.assertEqual(regulator.admitted, sum(row[2] for row in rows(sample)))

    def test_chains(self):
        for sample in SAMPLES:
            trace = read_stream(stream(sample))
            admitted = [row[2] for row in rows(sample)]
            for slot in (0, 1, len(admitted) // 2, len(admitted)):
                chain = find_chain(*trace, slot)
                self.assertEqual(sum(chain.amounts), sum(admitted[:slot]))
                self.assertEqual((chain.slots[0], chain.slots[-1]), (0, slot))
                self.assertIs(check_chain(*trace, slot, *chain), True)
                wrong = chain._replace(amounts=[*chain.amounts[:-1], chain.amounts[-1] + 1])
                self.assertIs(check_chain(*trace, slot, *wrong), False)

    def test_ours_are_permitted(self):
        for sample in SAMPLES:
            trace = read_stream(stream(sample))
            _, _, admitted, _, departed, _ = map(list, zip(*rows(sample)))
            self.assertEqual(bezhantiru.judge(*trace, admitted, departed), (0, 0, 0))
            admitted[0] = trace.arrivals[0] + 1
            self.assertEqual(bezhantiru.judge(*trace, admitted, departed), (1, 1, 0))

    def test_certificates(self):
        for sample in SAMPLES:
            trace = read_stream(stream(sample))
            _, _, admitted, _, departed, _ = map(list, zip(*rows(sample)))
            found = bezhantiru.certify(*trace)
            linked = [mark != 0 for mark in found.admitted_by]
            due_in_trace = len(linked) - (trace.delay or 0)
            self.assertTrue(all(linked[: max(due_in_trace, 0)]), sample)
            said = bezhantiru.check_certificate(*trace, admitted, departed, *found)
            first = linked.index(False) + 1 if False in linked else 0
            self.assertEqual(said, (6 if first else 0, first, 0), sample)
            found.departed_from[0] = 2
            said = bezhantiru.check_certificate(*trace, admitted, departed, *found)
            self.assertEqual(said, (6, 1, 0) if first == 1 else (7, 1, 0), sample)

    def test_bellas_sizes(self):
        table, delay, buffer, arrivals = read_stream(stream("bella"))
        for most_lost, limit, lost in ((12, 34, 12), (13, 33, 13), (15, 32, 14)):
            found = bezhantiru.smallest_buffer(table, delay, arrivals, most_lost)
            self.assertEqual(found, (True, limit, lost))
        found = bezhantiru.smallest_buffer(table, delay, arrivals, 11)
        self.assertEqual(found, (False, 1_000_000, 12))
        found = bezhantiru.smallest_delay(table, buffer, arrivals, 12)
        self.assertEqual(found, (True, 7, 12))

    def test_two_samples_at_a_port(self):
        departed = [[row[4] for row in rows(sample)] for sample in ("bella", "delay-only")]
        slots = min(map(len, departed))
        coming = [one[:slots] for one in departed]
        port = bezhantiru.port_run([0, 3], slots, 1_000_000, coming)
        self.assertEqual(port, (coming, [0, 0]))
        flat = bezhantiru.port_run([0, 3], slots, 1_000_000, coming[0] + coming[1])
        self.assertEqual(flat, (coming[0] + coming[1], [0, 0]))

    def test_a_refused_file(self):
        with self.assertRaises(Refused) as caught:
            read_stream(stream("refused"))
        self.assertEqual(caught.exception.number, 6)
        self.assertEqual(str(caught.exception), "refused 6: delay is neither 0 to 64 nor 255")

    def test_files_of_other_kinds(self):
        with tempfile.TemporaryDirectory() as folder:
            path = Path(folder) / "a.stream"

            def refused(*numbers: int, more: bytes = b"") -> int:
                path.write_bytes(struct.pack(f"<{len(numbers)}I", *numbers) + more)
                with self.assertRaises(Refused) as caught:
                    read_stream(path)
                return caught.exception.number

            self.assertEqual(refused(), 12)
            self.assertEqual(refused(1, 2, 3, 4, more=b"xyz"), 12)
            self.assertEqual(refused(65, 0, 0, 0, 0), 1)
            self.assertEqual(refused(1, 4097, 0, 0, 0, 0, 2), 10)
            self.assertEqual(refused(1, 1, 0, 0, 0, 0, 2, 9), 13)
            self.assertEqual(refused(1, 1, 0, 0, 0, 0, 2, more=bytes(70_000)), 13)
            self.assertEqual(refused(1, 1, 1, 0, 0, 0, 2, 2, 5), 14)
            self.assertEqual(refused(1, 1, 1, 0, 0, 0, 2, 1, 1_000_001), 8)
            # Both marks, and a slot that is not named.
            path.write_bytes(struct.pack("<10I", 2, 3, 1, 255, 2**32 - 1, 0, 2, 3, 2, 5))
            read = read_stream(str(path))
            self.assertEqual(read, ([0, 2, 3], None, None, [0, 5, 0]))
            with self.assertRaises(Refused) as caught:
                run(*read)
            self.assertEqual(caught.exception.number, 23)
            with self.assertRaises(OSError):
                read_stream(folder)
            with self.assertRaises(OSError):
                read_stream(Path(folder) / "no such")

    def test_copies_go_on_by_themselves(self):
        table, delay, buffer, arrivals = read_stream(stream("bella"))
        regulator = Regulator(table, delay, buffer)
        regulator.slot(arrivals[0])
        for copied in (copy.copy(regulator), copy.deepcopy(regulator)):
            records = [copied.slot(arrived) for arrived in arrivals[1:]]
            self.assertEqual(
                [record.admitted for record in records], [row[2] for row in rows("bella")[1:]]
            )
            self.assertEqual(regulator.slots, 1)
