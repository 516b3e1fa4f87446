"""The command that makes the shared library."""

import os
import re
import subprocess
import sys
import tempfile
import unittest
from pathlib import Path

from .common import PACKAGE, REPOSITORY, archive


def build(*arguments: str, **variables: str) -> "subprocess.CompletedProcess[str]":
    environment = {**os.environ, "BEZHANTIRU_LIB_DIR": str(archive().parent), **variables}
    command = [str(PACKAGE / "build"), *arguments]
    return subprocess.run(command, env=environment, capture_output=True, text=True)


class Build(unittest.TestCase):
    def check_problem(self, status: int, words: str, *arguments: str, **variables: str) -> None:
        done = build(*arguments, **variables)
        self.assertEqual((done.returncode, done.stdout), (status, ""), done)
        self.assertRegex(done.stderr, rf"\Apython/build: .*{words}.*\n\Z")

    def test_a_library_that_is_loaded(self):
        with tempfile.TemporaryDirectory() as folder:
            out = Path(folder) / "a library.so"
            for _ in range(2):
                done = build(str(out))
                self.assertEqual((done.returncode, done.stdout, done.stderr), (0, "", ""))
            self.assertEqual(os.listdir(folder), ["a library.so"])
            code = "import bezhantiru as b; print(b.envelope([0, 2, 3], 4))"
            named = {**os.environ, "BEZHANTIRU_LIBRARY": str(out), "PYTHONPATH": str(PACKAGE)}
            ran = subprocess.run(
                [sys.executable, "-c", code],
                env=named,
                stdout=subprocess.PIPE,
                text=True,
                check=True,
            )
            self.assertEqual(ran.stdout, "Bound(piece=2, packets=6)\n")

    def test_help_and_version(self):
        done = build("--help")
        self.assertEqual((done.returncode, done.stderr), (0, ""))
        self.assertTrue(done.stdout.startswith("usage: python/build [OUT]\n\n"))
        for part in ("\n\nExample:\n  $ ./python/build && ", "\n\nExit status: 0 "):
            self.assertIn(part, done.stdout)
        example = re.search(r"^  \$ (.*)\n((?:  .*\n)+)", done.stdout, flags=re.M)
        ran = subprocess.run(
            ["bash", "-c", example[1]],
            cwd=REPOSITORY,
            env={**os.environ, "BEZHANTIRU_LIB_DIR": str(archive().parent)},
            stdout=subprocess.PIPE,
            text=True,
            check=True,
        )
        self.assertEqual(ran.stdout, example[2].replace("  ", "", 1))
        self.assertRegex(build("--version").stdout, r"\Apython/build: .+, commit \S+\n\Z")

    def test_what_cannot_be_made(self):
        self.check_problem(2, "there is no option '-x'", "-x")
        self.check_problem(2, "one path at most", "a", "b")
        with tempfile.TemporaryDirectory() as folder:
            out = str(Path(folder) / "lib.so")
            self.check_problem(1, "is a directory", folder)
            self.check_problem(1, "could not be written", str(Path(folder) / "none" / "lib.so"))
            self.check_problem(1, "there is no archive", out, BEZHANTIRU_LIB_DIR=folder)
            self.check_problem(1, "'no-cc', which is not on PATH", out, CC="no-cc")
            Path(folder, "libexports.a").write_text("no archive")
            self.check_problem(1, "could not be linked: ", out, BEZHANTIRU_LIB_DIR=folder)
            self.assertEqual(os.listdir(folder), ["libexports.a"])
