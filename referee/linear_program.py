#!/usr/bin/env python3
"""usage: linear_program.py STREAM

Prints the linear program of all totals that keep README.md's five rules for a stream file, in
CPLEX's LP format: xT are the packets admitted by slot T and yT those departed. Who solves it has
the rows that lose fewest, if the stream has no delay limit d or ends in d empty slots. The file
is taken as it is; `bin/loss-table` says whether it is refused.
"""
import struct
import sys

NO_DELAY, NO_BUFFER = 255, 4_294_967_295


def read_stream(data):
    """The table, the delay and the buffer limit, and the arrivals of slots 0 to T."""
    numbers = struct.unpack(f"<{len(data) // 4}I", data)
    L, T, m, d, q = numbers[:5]
    table, slots, counts = numbers[5:6 + L], numbers[6 + L:6 + L + m], numbers[6 + L + m:]
    arrived = dict(zip(slots, counts))
    return table, d, q, [arrived.get(slot, 0) for slot in range(T + 1)]


def less(total, slot, other, before):
    """One total less another. Those of slot 0 are 0, and left out."""
    return f"{total}{slot} - {other}{before}" if before > 0 else f"{total}{slot}"


def rules(table, d, q, arrivals):
    """Rows with their names: the rule and the slot, and for rule 3 the window."""
    for t in range(1, len(arrivals)):
        yield f"admitted_{t}: {less('x', t, 'x', t - 1)} >= 0"
        yield f"departed_{t}: {less('y', t, 'y', t - 1)} >= 0"
        yield f"rule1_{t}: {less('x', t, 'x', t - 1)} <= {arrivals[t]}"
        yield f"rule2_{t}: y{t} - x{t} <= 0"
        for k in range(1, min(t, len(table) - 1) + 1):
            yield f"rule3_{t}_{k}: {less('y', t, 'y', t - k)} <= {table[k]}"
        if q != NO_BUFFER:
            yield f"rule4_{t}: {less('x', t, 'y', t - 1)} <= {q}"
        if d != NO_DELAY and t > d:
            yield f"rule5_{t}: x{t - d} - y{t} <= 0"


if __name__ == "__main__":
    if len(sys.argv) != 2:
        sys.exit(__doc__)
    with open(sys.argv[1], "rb") as file:
        stream = read_stream(file.read())
    print("Maximize", *(f" + x{t} + y{t}" for t in range(1, len(stream[3]))), sep="\n")
    print("Subject To", *(f" {row}" for row in rules(*stream)), "End", sep="\n")
