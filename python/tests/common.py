"""What the tests share: the repository, the samples, and programs in C."""

from __future__ import annotations

import os
import re
import subprocess
import tempfile
from pathlib import Path

PACKAGE = Path(__file__).resolve().parents[1]
REPOSITORY = PACKAGE.parent
HEADER = (REPOSITORY / "include" / "bezhantiru.h").read_text()
SAMPLES = ("bella", "six-packet-burst", "delay-only", "long")


def archive() -> Path:
    """The one that the shared library is made from."""
    folder = os.environ.get("BEZHANTIRU_LIB_DIR") or REPOSITORY / "target" / "staticlib"
    return Path(folder) / "libexports.a"


def declared() -> list[str]:
    """Functions of the archive that the header declares, without the first part of their names."""
    code = re.sub(r"/\*.*?\*/", "", HEADER, flags=re.S)
    inline = r"static inline [^{;]*?\bbezhantiru_\w+\([^)]*\) \{.*?\n\}"
    code = re.sub(inline, "", code, flags=re.S)
    return re.findall(r"\bbezhantiru_(\w+)\(", code)


def compiled(source: Path, folder: str, *options: str) -> str:
    """A program in C with the header."""
    program = str(Path(folder) / source.stem)
    command = [os.environ.get("CC", "cc"), "-std=c11", "-O1", "-Wall", "-Werror"]
    command += [f"-I{REPOSITORY / 'include'}", "-o", program, str(source), *options]
    subprocess.run(command, check=True)
    return program


def answers(lines: list[str]) -> list[list[int]]:
    """What the library answers a program in C, for each line."""
    with tempfile.TemporaryDirectory() as folder:
        source = PACKAGE / "tests" / "answers.c"
        program = compiled(source, folder, str(archive()))
        text = "\n".join(lines) + "\n"
        done = subprocess.run([program], input=text, stdout=subprocess.PIPE, text=True, check=True)
    return [[int(word) for word in line.split()] for line in done.stdout.splitlines()]


def rows(sample: str) -> list[list[int]]:
    """The slots of a sample's table: slot, arrived, admitted, dropped, departed, held."""
    table = (REPOSITORY / "streams" / f"{sample}.table").read_text().splitlines()
    return [[int(word) for word in line.split()] for line in table[1:-1]]


def stream(sample: str) -> Path:
    return REPOSITORY / "streams" / f"{sample}.stream"
