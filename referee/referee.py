#!/usr/bin/env python3
"""usage: referee.py STREAM TABLE CERTIFICATE

Holds a printed loss table and its certificate to a stream file, with additions alone. README.md
beside this file says why one that is accepted proves that nobody could have lost fewer packets;
docs/FORMAT.md describes the three files and all that is said of them here.
"""
import re
import sys
from itertools import accumulate
from math import inf

MOST = 1_000_000
N = "(0|[1-9][0-9]{0,9})"
ROW = f"{N} ({N} (arrivals|delay|buffer) {N}|- - -) {N} {N} {N}"


def need(holds, words):
    if not holds:
        raise ValueError(words)


def read_stream(data):
    """The table, the delay and the buffer limit, inf for none, and the arrivals of slots 0 to T."""
    need(len(data) >= 20, "refused 12: fewer than 20 bytes")
    numbers = [int.from_bytes(data[i:i + 4], "little") for i in range(0, len(data), 4)]
    L, T, m, d, q = numbers[:5]
    need(1 <= L <= 64, "refused 1: L is not 1 to 64")
    need(max(T, m) <= 4096, "refused 10: T, m or the trace's length above 4,096")
    need(len(data) == 24 + 4 * L + 8 * m, "refused 13: length is not 20 + 4 × (L+1) + 8 × m bytes")
    table, slots, counts = numbers[5:6 + L], numbers[6 + L:6 + L + m], numbers[6 + L + m:]
    need(table[0] == 0, "refused 2: f(0) is not 0")
    for before, entry in zip(table, table[1:]):
        need(entry <= MOST, "refused 3: an entry above 1,000,000")
        need(before <= entry, "refused 4: an entry below the one before")
    d, q = inf if d == 255 else d, inf if q == 4_294_967_295 else q
    need(d <= 64 or d == inf, "refused 6: delay is neither 0 to 64 nor 255")
    need(q <= MOST or q == inf, "refused 7: buffer is neither 0 to 1,000,000 nor 4,294,967,295")
    rise = all(before < slot <= T for before, slot in zip([0] + slots, slots))
    need(rise, "refused 14: a slot number 0, above T, or not above the one before")
    need(max(counts, default=0) <= MOST, "refused 8: more than 1,000,000 arrivals")
    need(d < inf or q < inf, "refused 23: both limits none")
    arrived = dict(zip(slots, counts))
    return table, d, q, [arrived.get(slot, 0) for slot in range(T + 1)]


def read_rows(data, T, heading, pattern):
    """Slots 1 to T with what their lines say, and the last line. Every line has its line feed."""
    lines = re.split("(?<=\n)", data.decode("latin-1")) + [""] * (T + 3)
    need(lines[0] == f"{heading}\n", f"line 1: has to be '{heading}'")
    rows = []
    for t in range(1, T + 1):
        slot, _, row = lines[t].partition(" ")
        understood = slot == str(t) and re.fullmatch(f"{pattern}\n", row)
        need(understood, f"line {t + 1}: has to be the row of slot {t}")
        rows.append([t, f"slot {t}:", *(int(w) if w.isdigit() else w for w in row.split())])
    need(lines[T + 2] == "", f"line {T + 3}: has to be the end")
    return rows, lines[T + 1]


def read_table(data, stream):
    """The totals admitted and departed by slots 0 to T, if they keep README.md's five rules."""
    table, d, q, arrivals = stream
    T, A, U, V = len(arrivals) - 1, sum(arrivals), [0], [0]
    heading = "slot arrived admitted dropped departed held"
    rows, last = read_rows(data, T, heading, f"{N} {N} {N} {N} {N}")
    for t, at, arrived, admitted, dropped, departed, held in rows:
        U.append(U[t - 1] + admitted)
        V.append(V[t - 1] + departed)
        need(arrived == arrivals[t], f"{at} arrived has to be {arrivals[t]}")
        need(admitted <= arrived, f"{at} more is admitted than arrives")
        need(V[t] <= U[t], f"{at} more has departed than was admitted")
        for k in range(1, min(t, len(table) - 1) + 1):
            need(V[t] - V[t - k] <= table[k], f"{at} more departs in {k} slots than the table has")
        need(U[t] - V[t - 1] <= q, f"{at} more is there before departures than the buffer limit")
        need(t < d or U[t - d] <= V[t], f"{at} less has departed than is due by the delay limit")
        need(dropped == arrived - admitted, f"{at} dropped has to be {arrived - admitted}")
        need(held == U[t] - V[t], f"{at} held has to be {U[t] - V[t]}")
    total = f"total {A} {U[T]} {A - U[T]} {V[T]} {U[T] - V[T]}"
    need(last == f"{total}\n", f"line {T + 2}: has to be '{total}'")
    return U, V


def read_certificate(data, stream, totals):
    """The verdict, if all links hold."""
    (table, d, q, arrivals), (U, V) = stream, totals
    T, A, f, counts = len(arrivals) - 1, list(accumulate(arrivals)), [0], [True]
    for n in range(1, T + 1):  # f(n), the least sum of entries whose windows add up to n
        f.append(min(table[k] + f[n - k] for k in range(1, min(n, len(table) - 1) + 1)))
    rows, last = read_rows(data, T, "slot admitted from by amount departed from amount", ROW)
    for t, at, admitted, s, mark, amount, departed, r, gone in rows:
        need(admitted == U[t], f"{at} admitted has to be {U[t]}")
        if mark != "-":
            need(s < t, f"{at} the admitted link does not hold")
            due = f[t - s + d] if t + d <= T else inf
            most = {"arrivals": A[t] - A[s], "delay": due, "buffer": f[t - s - 1] + q}[mark]
            need(U[s] + most == U[t], f"{at} the admitted link does not hold")
            need(amount == most, f"{at} the admitted link's amount has to be {most}")
        need(departed == V[t], f"{at} departed has to be {V[t]}")
        need(r <= t and U[r] + f[t - r] == V[t], f"{at} the departed link does not hold")
        need(gone == f[t - r], f"{at} the departed link's amount has to be {f[t - r]}")
        counts.append(mark != "-" and counts[s])
    certified = f"certified {sum(counts) - 1} of {T} slots"
    need(last == f"{certified}\n", f"line {T + 2}: has to be '{certified}'")
    whole = f"certified: no regulator could have lost fewer by any of {T} slots"
    return whole if all(counts) else certified.replace("certified", "certified in")


if __name__ == "__main__":
    if len(sys.argv) != 4:
        print(__doc__, file=sys.stderr)
        sys.exit(2)
    found = []
    for name, read in zip(sys.argv[1:], (read_stream, read_table, read_certificate)):
        try:
            with open(name, "rb") as file:
                found.append(read(file.read(), *found))
        except (OSError, ValueError) as problem:
            sys.exit(f"referee: the file '{name}': {problem}")
    print(found[2])
