"""Refusals: the documents' numbers and their words."""

from __future__ import annotations

WORDS = {
    1: "L is not 1 to 64",
    2: "f(0) is not 0",
    3: "an entry above 1,000,000",
    4: "an entry below the one before",
    5: "window above 4,160",
    6: "delay is neither 0 to 64 nor 255",
    7: "buffer is neither 0 to 1,000,000 nor 4,294,967,295",
    8: "more than 1,000,000 arrivals",
    9: "1,000,000 slots already taken",
    10: "T, m or the trace's length above 4,096",
    11: "a lent list of the wrong length",
    12: "fewer than 20 bytes",
    13: "length is not 20 + 4 × (L+1) + 8 × m bytes",
    14: "a slot number 0, above T, or not above the one before",
    15: "a number of buckets outside 1 to 4",
    16: "a rate or burst above 1,000,000",
    17: "a number of stages outside 1 to 4",
    18: "a slot above the trace's length",
    19: "a non-zero entry of a square on or below the diagonal",
    20: "a trace longer than 32 - d slots",
    21: "streams outside 1 to 8, or a run above 256 slots",
    22: "a deadline above 64",
    23: "both limits none",
    24: "more than 5 slots in a short trace",
}


class Refused(ValueError):
    """A call that the library refuses, with its ``number`` in the documents and its ``words``.

    >>> from bezhantiru import Regulator, Refused
    >>> try:
    ...     Regulator([0, 2, 3], delay=65, buffer=9)
    ... except Refused as refused:
    ...     print(refused.number, refused.words)
    6 delay is neither 0 to 64 nor 255
    """

    def __init__(self, number: int) -> None:
        self.number = number
        self.words = WORDS.get(number, "a number that the documents do not list")
        super().__init__(number)

    def __str__(self) -> str:
        return f"refused {self.number}: {self.words}"


def check(number: int) -> None:
    """Raises the refusal with this number; 0 is none."""
    if number:
        raise Refused(number)
