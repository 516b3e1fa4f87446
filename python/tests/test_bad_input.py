"""What is no number, no list or no library gets an exception of Python's, before C sees it."""

import ctypes.util
import os
import subprocess
import sys
import tempfile
import unittest
from fractions import Fraction

import bezhantiru as b
from bezhantiru._library import library

from .common import PACKAGE

GOOD = {
    "run": dict(table=[0, 2, 3], delay=1, buffer=9, arrivals=[5, 0]),
    "path_run": dict(tables=[[0, 2, 3], [0, 2]], delay=1, buffer=9, arrivals=[5, 0]),
    "envelope": dict(table=[0, 2, 3], window=4),
    "find_chain": dict(table=[0, 2, 3], delay=1, buffer=9, arrivals=[5, 0], slot=1),
    "check_chain": dict(
        table=[0, 2, 3],
        delay=1,
        buffer=9,
        arrivals=[5, 0],
        slot=1,
        slots=[0],
        marks=[0],
        amounts=[0],
    ),
    "pencil_run": dict(table=[0, 2, 3], delay=1, buffer=9, arrivals=[5, 0]),
    "port_run": dict(deadlines=[0, 1], slots=2, capacity=3, input=[1, 2, 3, 4]),
    "worst_trace": dict(table=[0, 2, 3], delay=1, buffer=9, slots=2, most_in_slot=3, most_in_all=4),
    "smallest_buffer": dict(table=[0, 2, 3], delay=1, arrivals=[5, 0], most_lost=2),
    "smallest_delay": dict(table=[0, 2, 3], buffer=9, arrivals=[5, 0], most_lost=2),
    "short_traces": dict(slots=2),
    "judge": dict(
        table=[0, 2, 3], delay=1, buffer=9, arrivals=[5, 0], admitted=[1, 0], departed=[1, 0]
    ),
    "certify": dict(table=[0, 2, 3], delay=1, buffer=9, arrivals=[5, 0]),
    "check_certificate": dict(
        table=[0, 2, 3],
        delay=1,
        buffer=9,
        arrivals=[5, 0],
        admitted=[3, 0],
        departed=[2, 1],
        admitted_from=[0, 1],
        admitted_by=[2, 1],
        departed_from=[0, 0],
    ),
    "square_run": dict(square=[[0] * 33] * 33, delay=1, buffer=9, arrivals=[5, 0]),
    "form_fill": dict(held_before=1, admitted=2, departed=3),
    "bench_fill": dict(held_before=1, admitted=2),
    "Regulator": dict(table=[0, 2, 3], delay=1, buffer=9),
}
WRONG = [1.0, "1", b"1", Fraction(1, 2), [1], {}, object()]
BEYOND = [-1, -(2**40), 2**64]


class Numbers(unittest.TestCase):
    def check_calls(self, wrong: object, error: type, kind: type) -> None:
        """The argument is wrong in each place that takes a number, or as a number of each list."""
        for name, arguments in GOOD.items():
            call = getattr(b, name)
            call(**arguments)
            for key, good in arguments.items():
                if isinstance(good, int):
                    bad = wrong
                elif isinstance(good[0], int):
                    bad = [*good[:-1], wrong]
                else:
                    bad = [[*good[0][:-1], wrong], *good[1:]]
                with self.subTest(function=name, argument=key, value=repr(wrong)):
                    with self.assertRaises(error):
                        call(**{**arguments, key: bad})

    def test_no_integers(self):
        for wrong in WRONG:
            self.check_calls(wrong, TypeError, int)

    def test_no_integers_that_bits_hold(self):
        for wrong in BEYOND:
            self.check_calls(wrong, ValueError, int)

    def test_more_than_32_bits(self):
        for wrong in (2**32, 2**40):
            for name in ("run", "envelope", "find_chain", "path_run", "smallest_buffer"):
                for key, good in GOOD[name].items():
                    bad = wrong if isinstance(good, int) else [*good[:-1], wrong]
                    bad = [[0, wrong]] if key == "tables" else bad
                    with self.subTest(function=name, argument=key):
                        with self.assertRaises(ValueError):
                            getattr(b, name)(**{**GOOD[name], key: bad})
        # A slot's arrivals have 64 bits, and are refused by their number.
        regulator = b.Regulator([0, 2, 3], delay=1)
        for wrong in (1_000_001, 2**32, 2**40, 2**64 - 1):
            for call in (regulator.slot, regulator.preview, b.Device([(1, 1)], 1).slot):
                with self.assertRaises(b.Refused) as caught:
                    call(wrong)
                self.assertEqual(caught.exception.number, 8)
        self.assertEqual(regulator.slots, 0)

    def test_slots_of_live_ones(self):
        for live in (b.Regulator([0, 2, 3], delay=1), b.Device([(1, 1)], delay=1)):
            calls = [live.slot] + ([live.preview] if hasattr(live, "preview") else [])
            for call in calls:
                for wrong in [*WRONG, None]:
                    self.assertRaises(TypeError, call, wrong)
                for wrong in BEYOND:
                    self.assertRaises(ValueError, call, wrong)
            self.assertEqual((live.slots, live.bench_peak), (0, 0))

    def test_no_lists(self):
        for wrong in (None, 5, "0 2 3", b"\0\0\0\0\2\0\0\0", {0: 0, 1: 2}, {0, 2}, iter([0, 2])):
            with self.subTest(value=repr(wrong)):
                self.assertRaises(TypeError, b.envelope, wrong, 1)
                self.assertRaises(TypeError, b.run, [0, 2], 1, 9, wrong)
                self.assertRaises(TypeError, b.Regulator, wrong, 1, 9)
        for wrong in ([1], [(1,)], [(1, 2, 3)], [None], ["12"], 5, None):
            self.assertRaises(TypeError, b.Device, wrong, 1, 9)
        self.assertRaises(ValueError, b.Device, [(1, -1)], 1, 9)
        self.assertRaises(TypeError, b.Device, [(1, 1.5)], 1, 9)
        # Other sequences of integers are lists.
        self.assertEqual(b.envelope((0, 2, 3), 4), b.envelope([0, 2, 3], 4))
        self.assertEqual(b.envelope(range(0, 3), 4).packets, 4)

    def test_wrong_lengths(self):
        trace = dict(table=[0, 2, 3], delay=1, buffer=9, arrivals=[5, 0], slot=2)
        for slots, marks, amounts in (([0, 1], [0], [0, 1]), ([0], [0], []), ([], [0], [0])):
            with self.assertRaises(ValueError):
                b.check_chain(**trace, slots=slots, marks=marks, amounts=amounts)
        with self.assertRaises(b.Refused) as caught:
            b.check_chain(**trace, slots=[0] * 4, marks=[0] * 4, amounts=[0] * 4)
        self.assertEqual(caught.exception.number, 11)
        self.assertIs(b.check_chain(**trace, slots=[], marks=[], amounts=[]), False)
        for tables, number in (([], 17), ([[0, 2]] * 5, 17), ([[0, 2], []], 1)):
            with self.assertRaises(b.Refused) as caught:
                b.path_run(tables, 1, 9, [5, 0])
            self.assertEqual(caught.exception.number, number)

    def test_wrong_lengths_of_later_functions(self):
        for square in ([], [[0] * 33] * 32, [[0] * 33] * 32 + [[0] * 34]):
            self.assertRaises(ValueError, b.square_run, square, 1, 9, [1])
        self.assertRaises(ValueError, b.port_run, [0, 0], 2, 3, [[1, 2], [1]])
        for call in (
            lambda: b.port_run([0, 0], 2, 3, [1, 2, 3]),
            lambda: b.judge([0, 2, 3], 1, 9, [5, 0], [1], [1, 0]),
            lambda: b.judge([0, 2, 3], 1, 9, [5, 0], [1, 0], [1, 0, 0]),
            lambda: b.check_certificate([0, 2, 3], 1, 9, [5], [3], [2], [0], [2], []),
            lambda: b.check_certificate([0, 2, 3], 1, 9, [5], [3], [2], [0, 0], [2], [0]),
        ):
            with self.assertRaises(b.Refused) as caught:
                call()
            self.assertEqual(caught.exception.number, 11)

    def test_refusals_are_value_errors_with_words(self):
        with self.assertRaises(ValueError) as caught:
            b.Regulator([0, 2, 3])
        self.assertEqual(str(caught.exception), "refused 23: both limits none")
        self.assertEqual(
            (caught.exception.number, caught.exception.words), (23, "both limits none")
        )


class Libraries(unittest.TestCase):
    def tearDown(self):
        b.load()

    def test_a_closed_library(self):
        regulator = b.Regulator([0, 2, 3], delay=1)
        b.close()
        for call in (
            lambda: regulator.slot(1),
            lambda: regulator.preview(1),
            lambda: b.Regulator([0, 2, 3], delay=1),
            lambda: b.run([0, 2, 3], 1, 9, [5]),
        ):
            with self.assertRaisesRegex(RuntimeError, "the library is closed"):
                call()
        b.load()
        self.assertEqual(regulator.slot(5).admitted, 3)

    def test_no_library_and_another_one(self):
        with self.assertRaisesRegex(OSError, "there is no library .*: ./python/build makes it"):
            b.load("no such")
        with tempfile.NamedTemporaryFile(suffix=".so") as file:
            file.write(b"no library")
            file.flush()
            self.assertRaises(OSError, b.load, file.name)
        other = ctypes.util.find_library("m")
        path = subprocess.run(
            ["sh", "-c", f"ldconfig -p | grep -m 1 '{other}' | sed 's/.*=> //'"],
            stdout=subprocess.PIPE,
            text=True,
        ).stdout.strip()
        with self.assertRaisesRegex(OSError, "is not the library of the regulator"):
            b.load(path)
        # A library that could not be opened leaves the one before.
        self.assertEqual(b.envelope([0, 2, 3], 4).packets, 6)

    def test_the_variable_names_the_library(self):
        code = "import bezhantiru; print(bezhantiru.envelope([0, 2, 3], 4).packets)"
        for named, status in (("no such", 1), (None, 0)):
            environment = {**os.environ, "PYTHONPATH": str(PACKAGE)}
            if named:
                environment["BEZHANTIRU_LIBRARY"] = named
            done = subprocess.run(
                [sys.executable, "-c", code], env=environment, capture_output=True, text=True
            )
            self.assertEqual(done.returncode, status, done.stderr)
            self.assertEqual("there is no library no such" in done.stderr, bool(named))

    def test_a_function_that_an_older_library_does_not_have(self):
        kept = library._functions.pop("envelope")
        try:
            with self.assertRaisesRegex(NotImplementedError, "has no bezhantiru_envelope"):
                b.envelope([0, 2, 3], 4)
        finally:
            library._functions["envelope"] = kept
