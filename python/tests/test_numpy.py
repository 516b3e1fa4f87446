"""Arrays of numpy's: lent as they are, and answered with arrays that the library has written to."""

import unittest

import bezhantiru as b
from bezhantiru._lists import lent

from .common import SAMPLES, stream

try:
    import numpy
except ImportError:
    numpy = None


@unittest.skipIf(numpy is None, "there is no numpy")
class Arrays(unittest.TestCase):
    def test_whole_traces(self):
        for sample in SAMPLES:
            table, delay, buffer, arrivals = b.read_stream(stream(sample))
            given = numpy.array(arrivals, dtype=numpy.uint32)
            found = b.run(numpy.array(table), delay, buffer, given)
            wanted = b.run(table, delay, buffer, arrivals)
            for one, other in zip(found, wanted):
                self.assertIsInstance(one, numpy.ndarray)
                self.assertEqual(one.dtype, numpy.uint32)
                self.assertEqual(one.tolist(), other)
            path = b.path_run([table, table], delay, buffer, given)
            self.assertEqual(path.departed.shape, (2, len(arrivals)))
            self.assertEqual(path.departed[1].tolist(), wanted.departed)

    def test_certificates(self):
        for sample in SAMPLES:
            table, delay, buffer, arrivals = b.read_stream(stream(sample))
            given = numpy.array(arrivals, dtype=numpy.uint32)
            found = b.certify(table, delay, buffer, given)
            for one, other in zip(found, b.certify(table, delay, buffer, arrivals)):
                self.assertIsInstance(one, numpy.ndarray)
                self.assertEqual(one.tolist(), other)
            admitted, _, departed = b.run(table, delay, buffer, given)
            said = b.check_certificate(table, delay, buffer, given, admitted, departed, *found)
            self.assertIn(said.rule, (0, 6))

    def test_no_copies(self):
        given = numpy.arange(4_096, dtype=numpy.uint32)
        self.assertEqual(address(lent("arrivals", given)), given.ctypes.data)
        given.flags.writeable = False
        self.assertEqual(address(lent("arrivals", given)), given.ctypes.data)
        found = b.run([0, 2, 3], 1, 9, given)
        self.assertTrue(all(one.flags.owndata and one.flags.writeable for one in found))
        self.assertEqual(given.tolist(), list(range(4_096)))

    def test_other_arrays(self):
        wanted = b.run([0, 2, 3], 1, 9, [5, 0, 4, 0]).admitted
        for given in (
            numpy.array([5, 0, 4, 0], dtype=numpy.int64),
            numpy.array([5, 0, 4, 0], dtype=numpy.uint8),
            numpy.array([5, 0, 4, 0], dtype=">u4"),
            numpy.array([5, 9, 0, 9, 4, 9, 0, 9], dtype=numpy.uint32)[::2],
        ):
            self.assertEqual(b.run([0, 2, 3], 1, 9, given).admitted.tolist(), wanted)
        none = b.run([0, 2, 3], 1, 9, numpy.array([], dtype=numpy.uint32))
        self.assertEqual([len(one) for one in none], [0, 0, 0])
        for wrong in ([1.0, 2.0], [True], ["1"]):
            self.assertRaises(TypeError, b.run, [0, 2, 3], 1, 9, numpy.array(wrong))
        for wrong in ([-1], [2**40], [[1, 2], [3, 4]]):
            self.assertRaises(ValueError, b.run, [0, 2, 3], 1, 9, numpy.array(wrong))
        regulator = b.Regulator(numpy.array([0, 2, 3]), numpy.int32(1), numpy.uint64(9))
        self.assertEqual(regulator.slot(numpy.uint32(5)).admitted, 3)
        self.assertRaises(TypeError, regulator.slot, numpy.float64(5))

    def test_ports(self):
        given = numpy.array([[1, 0], [1, 0]], dtype=numpy.uint32)
        port = b.port_run([0, 1], 2, 1, given)
        self.assertEqual((port.sent.tolist(), port.late.tolist()), ([[1, 0], [0, 1]], [0, 0]))
        flat = b.port_run([0, 1], 2, 1, given.reshape(-1))
        self.assertEqual(flat.sent.tolist(), [1, 0, 0, 1])


def address(of) -> int:
    return numpy.ctypeslib.as_array(of.pointer, (of.length,)).ctypes.data
