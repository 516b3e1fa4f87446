"""Long runs of live regulators, and many at once."""

import threading
import unittest

from bezhantiru import Device, Refused, Regulator, read_stream

from .common import rows, stream


class Live(unittest.TestCase):
    def test_a_million_slots(self):
        for live in (Regulator([0, 2, 3], delay=1, buffer=9), Device([(2, 1)], delay=1, buffer=9)):
            slot, admitted, dropped = live.slot, 0, 0
            for arrived in [5, 0, 4, 0] * 250_000:
                record = slot(arrived)
                admitted += record.admitted
                dropped += record.dropped
            self.assertEqual((live.slots, admitted + dropped), (1_000_000, 2_250_000))
            self.assertEqual(live.admitted, admitted)
            with self.assertRaises(Refused) as caught:
                slot(0)
            self.assertEqual(caught.exception.number, 9)
            with self.assertRaises(Refused) as caught:
                slot(1_000_001)
            self.assertEqual(caught.exception.number, 8)
            self.assertEqual(live.slots, 1_000_000)

    def test_threads_with_a_regulator_each(self):
        table, delay, buffer, arrivals = read_stream(stream("long"))
        wanted = [row[2] for row in rows("long")]
        found = [None] * 8
        start = threading.Barrier(len(found))

        def work(place: int) -> None:
            regulator = Regulator(table, delay, buffer)
            start.wait()
            found[place] = [regulator.slot(arrived).admitted for arrived in arrivals]

        threads = [threading.Thread(target=work, args=(place,)) for place in range(len(found))]
        for thread in threads:
            thread.start()
        for thread in threads:
            thread.join()
        self.assertEqual(found, [wanted] * len(found))
