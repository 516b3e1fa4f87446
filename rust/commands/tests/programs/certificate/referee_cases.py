"""Runs referee.py, the first argument, on the cases of standard input, a line with three files in hex each, and
prints its status and the line that it says for each."""

import contextlib
import io
import sys

NAMES = ["stream", "table", "certificate"]


def said(script, files):
    """Files are not on disk. Words that a program exits with are its line on standard error, and the status is 1."""
    opened = {"open": lambda name, mode: io.BytesIO(files[name]), "__name__": "__main__"}
    printed = io.StringIO()
    try:
        with contextlib.redirect_stdout(printed):
            exec(script, opened)
    except SystemExit as ended:
        return f"1 {ended.code}\n"
    return f"0 {printed.getvalue()}"


def main():
    path = sys.argv[1]
    with open(path, encoding="utf-8") as file:
        script = compile(file.read(), path, "exec")
    sys.argv = [path, *NAMES]
    for case in sys.stdin:
        files = [bytes.fromhex(file) for file in case.rstrip("\n").split(" ")]
        print(said(script, dict(zip(NAMES, files))), end="")


main()
