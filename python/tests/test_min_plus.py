"""Min-plus sums in numpy and in Octave: the tables of the samples, and the library's rows."""

from __future__ import annotations

import os
import random
import re
import shutil
import struct
import subprocess
import sys
import tempfile
import unittest
from pathlib import Path

import bezhantiru as b

from .common import PACKAGE, REPOSITORY, SAMPLES, stream

MIN_PLUS = REPOSITORY / "referee" / "min_plus.py"
OCTAVE = REPOSITORY / "referee" / "min_plus.m"
BENCHMARK = PACKAGE / "benchmark.py"
WAYS = ((), ("--last-totals",))
PRINTED = (*SAMPLES, "no-limits")
DRAWN = 60
#: Tables, limits and arrivals: of no slot, and with nothing that may be greater.
SHORTEST = [0, 2], 1, 9, []
GREATEST = [0] + [1_000_000] * 64, 64, 1_000_000, [1_000_000] * 4_096


def ran(*command: object, **variables: str) -> subprocess.CompletedProcess[str]:
    environment = {**os.environ, "PYTHONDONTWRITEBYTECODE": "1", **variables}
    words = list(map(str, command))
    return subprocess.run(words, env=environment, capture_output=True, text=True)


def with_numpy() -> str:
    """A Python that has numpy, this one or the system's; nothing where there is none."""
    for python in (sys.executable, "/usr/bin/python3"):
        if Path(python).is_file() and ran(python, "-c", "import numpy").returncode == 0:
            return python
    return ""


NUMPY = with_numpy()


def tables(*samples: str) -> str:
    return "".join(stream(sample).with_suffix(".table").read_text() for sample in samples)


def drawn(dice: random.Random) -> tuple[list[int], int, int, list[int]]:
    """A table, limits of which one may be none, and arrivals."""
    table = [0]
    for _ in range(dice.choice((1, 2, 3, 5, 8, 64))):
        table.append(table[-1] + dice.choice((0, 1, 2, 3, 9)))
    delay, buffer = dice.choice((0, 1, 3, 64, 255)), dice.choice((0, 3, 10, 40, 4_294_967_295))
    if delay == 255 and buffer == 4_294_967_295:
        buffer = 20
    most = dice.choice((2, 6, 30))
    arrivals = [dice.choice((0, dice.randint(0, most))) for _ in range(dice.randint(0, 90))]
    return table, delay, buffer, arrivals


def written(
    folder: str, name: int, table: list[int], delay: int, buffer: int, arrivals: list[int]
) -> Path:
    slots = range(1, len(arrivals) + 1)
    sizes = (len(table) - 1, len(arrivals), len(arrivals))
    numbers = [*sizes, delay, buffer, *table, *slots, *arrivals]
    path = Path(folder) / f"{name}.stream"
    path.write_bytes(struct.pack(f"<{len(numbers)}I", *numbers))
    return path


def printed(path: Path) -> str:
    """The loss table by the library."""
    trace = b.read_stream(path)
    held, lines = 0, ["slot arrived admitted dropped departed held"]
    columns = (trace.arrivals, *b.run(*trace))
    for slot, row in enumerate(zip(*columns), 1):
        held += row[1] - row[3]
        lines.append(" ".join(map(str, (slot, *row, held))))
    lines.append(" ".join(map(str, ("total", *map(sum, columns), held))))
    return "\n".join(lines) + "\n"


class WithoutNumpy(unittest.TestCase):
    def test_one_line_says_so(self):
        with tempfile.TemporaryDirectory() as folder:
            (Path(folder) / "numpy.py").write_text("raise ImportError\n")
            for script in (MIN_PLUS, BENCHMARK):
                done = ran(sys.executable, script, stream("bella"), PYTHONPATH=folder)
                line = f"{script.stem}: there is no numpy; Debian has it as python3-numpy\n"
                self.assertEqual((done.returncode, done.stdout, done.stderr), (1, "", line))


@unittest.skipUnless(NUMPY, "there is no numpy")
class Numpy(unittest.TestCase):
    def check_printed(self, wanted: str, *files: Path) -> None:
        for way in WAYS:
            done = ran(NUMPY, MIN_PLUS, *way, *files)
            self.assertEqual((done.returncode, done.stdout, done.stderr), (0, wanted, ""), way)

    def test_samples(self):
        self.check_printed(tables(*PRINTED), *map(stream, PRINTED))

    def test_drawn_streams(self):
        dice = random.Random(1)
        with tempfile.TemporaryDirectory() as folder:
            files = [written(folder, name, *drawn(dice)) for name in range(DRAWN)]
            files.append(written(folder, DRAWN, *SHORTEST))
            files.append(written(folder, DRAWN + 1, *GREATEST))
            losses = [sum(b.run(*b.read_stream(file)).dropped) for file in files]
            self.assertGreater(sum(lost > 0 for lost in losses), DRAWN // 2)
            self.check_printed("".join(map(printed, files)), *files)

    def test_wrong_usage(self):
        for script in (MIN_PLUS, BENCHMARK):
            done = ran(NUMPY, script)
            self.assertEqual((done.returncode, done.stdout), (2, ""))
            self.assertTrue(done.stderr.startswith(f"usage: {script.name} "), done)
            done = ran(NUMPY, script, "no such")
            self.assertEqual((done.returncode, done.stdout), (1, ""))
            self.assertRegex(done.stderr, rf"\A{script.stem}: the file 'no such': .*\n\Z")


@unittest.skipUnless(shutil.which("octave-cli"), "there is no octave-cli")
class Octave(unittest.TestCase):
    def test_samples(self):
        for sample in PRINTED:
            for way in WAYS:
                done = ran("octave-cli", "-qfH", OCTAVE, *way, stream(sample))
                self.assertEqual((done.returncode, done.stdout), (0, tables(sample)), done)

    def test_the_shortest_and_the_greatest_stream(self):
        with tempfile.TemporaryDirectory() as folder:
            for name, given in enumerate((SHORTEST, GREATEST)):
                file = written(folder, name, *given)
                for way in WAYS:
                    done = ran("octave-cli", "-qfH", OCTAVE, *way, file)
                    self.assertEqual((done.returncode, done.stdout), (0, printed(file)))

    def test_wrong_usage(self):
        done = ran("octave-cli", "-qfH", OCTAVE)
        self.assertEqual((done.returncode, done.stdout), (2, ""))
        self.assertTrue(done.stderr.startswith("usage: octave-cli -qfH min_plus.m "), done)
        done = ran("octave-cli", "-qfH", OCTAVE, "no such")
        self.assertEqual((done.returncode, done.stdout), (1, ""))
        self.assertTrue(done.stderr.startswith("min_plus: the file 'no such': "), done)


@unittest.skipUnless(NUMPY, "there is no numpy")
class Benchmark(unittest.TestCase):
    def test_a_row_for_each_stream(self):
        done = ran(NUMPY, BENCHMARK, "--rounds", 1, *map(stream, SAMPLES))
        self.assertEqual((done.returncode, done.stderr), (0, ""), done)
        titles = re.findall("^### (.*)$", done.stdout, flags=re.M)
        self.assertEqual(len(titles), 3 if shutil.which("octave-cli") else 2)
        for sample in SAMPLES:
            table = b.read_stream(stream(sample)).table
            cells = rf"\| {sample} \| {len(table) - 1} \|( [\d.,]+( ns| µs| ms)? \|)+"
            found = re.findall(rf"^{cells}$", done.stdout, flags=re.M)
            self.assertEqual(len(found), len(titles), done.stdout)

    def test_refused_and_empty_streams(self):
        for sample, words in (("no-limits", "refused 23: "), ("refused", "refused 6: ")):
            done = ran(NUMPY, BENCHMARK, stream(sample))
            self.assertEqual((done.returncode, done.stdout), (1, ""))
            self.assertIn(f".stream': {words}", done.stderr)
        with tempfile.TemporaryDirectory() as folder:
            done = ran(NUMPY, BENCHMARK, written(folder, 0, *SHORTEST))
            self.assertEqual((done.returncode, done.stdout), (1, ""))
            self.assertIn("a trace without slots", done.stderr)

    def check_other(self, words: str, done: subprocess.CompletedProcess[str]) -> None:
        """One line says where the answers first are others than the library's."""
        self.assertEqual(done.returncode, 1, done)
        line = rf"benchmark: the file '.*bella.stream': {words}, and \d+ by the library\n"
        self.assertRegex(done.stderr, rf"\A{line}\Z")

    def test_other_answers_of_numpy(self):
        for name, bend, words in (
            ("by_last_totals", "X[3:] -= 1", "numpy, last L totals: 0 admitted in slot 3"),
            ("by_theorem", "Y[3:] -= 1", "numpy, theorem 5.1: 4 departed in slot 3"),
            ("convolution", "answer[4] += 1", "numpy, theorem 5.1: 6 departed in slot 4"),
            ("closure", "answer[-1] += 1", r"numpy: f\(4160\) is 18305"),
        ):
            code = f"""
import sys
sys.path[:0] = [{str(PACKAGE)!r}, {str(MIN_PLUS.parent)!r}]
import benchmark, min_plus
right = min_plus.{name}
def bent(*arguments):
    answer = right(*arguments)
    X, Y = answer[:2]
    {bend}
    return answer
min_plus.{name} = bent
benchmark.main(["--rounds", "1", {str(stream("bella"))!r}])
"""
            self.check_other(words, ran(NUMPY, "-c", code))

    def test_other_answers_of_octave(self):
        with tempfile.TemporaryDirectory() as folder:
            bent = tables("bella").replace("\n3 1 1 0 5", "\n3 1 1 0 4")
            (Path(folder) / "table").write_text(f"seconds 0.1\n{bent}")
            program = Path(folder) / "octave-cli"
            program.write_text(f"#!/bin/sh\ncat '{folder}/table'\n")
            program.chmod(0o755)
            path = f"{folder}:{os.environ['PATH']}"
            done = ran(NUMPY, BENCHMARK, "--rounds", 1, stream("bella"), PATH=path)
            self.check_other("Octave: 4 departed in slot 3", done)
