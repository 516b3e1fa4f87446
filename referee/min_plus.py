#!/usr/bin/env python3
"""usage: min_plus.py [--last-totals] STREAM...

Prints the loss tables of stream files, worked in numpy by theorem 5.1 as it stands, with the buffer
term of request 2.9: the closure, the clipper's totals over every window back to slot 0, and the
departures by one min-plus convolution. With --last-totals they are worked from the last L departed
totals alone. A file is taken as it is; `bin/loss-table` says whether it is refused.
"""
import sys

from linear_program import NO_BUFFER, NO_DELAY, read_stream

try:
    import numpy as np
    from numpy.lib.stride_tricks import sliding_window_view
except ImportError:
    sys.exit("min_plus: there is no numpy; Debian has it as python3-numpy")

# Above every sum that can be the least. It stands for no limit, and for a total before slot 0.
FAR = 1 << 40

# As many slots of a convolution are worked at a time, so that their sums stay in the cache.
BLOCK = 16


def closure(table, last):
    """f(0) to f(last): f(n) is the least of table(k) + f(n-k) over windows k up to L and n."""
    entries, f = np.array(table[1:]), np.zeros(last + 1, dtype=np.int64)
    for n in range(1, last + 1):
        k = min(n, len(entries))
        f[n] = np.minimum.reduce(entries[:k] + f[n - k:n][::-1])
    return f


def due(table, d, last):
    """f(d+1) to f(d+last), where there is a delay limit, and f up to window last at least."""
    if d == NO_DELAY:
        return np.full(last, FAR), closure(table, last)
    f = closure(table, d + last)
    return f[d + 1:], f


def convolution(totals, f):
    """For every slot t the least of totals(s) + f(t-s) over s from 0 to t, some slots at a time."""
    n, back, least = len(totals), totals[::-1].copy(), []
    # Row t is f(t-s) for s from the last slot down to 0, and FAR where s is above t.
    windows = sliding_window_view(np.append(np.full(n - 1, FAR), f[:n]), n)
    for t in range(0, n, BLOCK):
        later = max(n - t - BLOCK, 0)
        sums = back[later:] + windows[t:t + BLOCK, later:]
        least.append(np.minimum.reduce(sums, axis=1))
    return np.concatenate(least)


def by_theorem(table, d, q, arrivals):
    """X and Y of slots 0 to T by theorem 5.1: g(k) is the smaller of f(k+d) and f(k-1) + q."""
    T = len(arrivals) - 1
    late, f = due(table, d, T)
    g = np.minimum(late, f[:T] + (q if q != NO_BUFFER else FAR))[::-1].copy()
    X, x = np.zeros(T + 1, dtype=np.int64), 0
    for t, arrived in enumerate(arrivals[1:].tolist(), 1):
        X[t] = x = min(x + arrived, int(np.minimum.reduce(X[:t] + g[T - t:])))
    return X, convolution(X, f)


def by_last_totals(table, d, q, arrivals):
    """The same X and Y from the last L departed totals.

    f(t-s+d) is the sum of entries for windows laid end to end from slot s to slot t+d. Let r be the
    last slot before t where one begins; then t-r is at most L. What lies before r sums to f(r-s) at
    least, and the rest to f(t-r+d), so that X(s) + f(t-s+d) is Y(r) + f(t-r+d) at least; and that
    is no less than the least of all X(s) + f(t-s+d), since f is subadditive. The same with d 0 is
    for Y(t), whose last slot s adds X(t); and the least X(s) + f(t-s-1) is Y(t-1).
    """
    L, T = len(table) - 1, len(arrivals) - 1
    late, f = due(table, d, L)
    windows = np.stack([late, f[1:L + 1]])[:, ::-1].copy()
    room = q if q != NO_BUFFER else FAR
    X, Y = np.zeros(T + 1, dtype=np.int64), np.full(L + T + 1, FAR)
    x = y = Y[L] = 0
    for t, arrived in enumerate(arrivals[1:].tolist(), 1):
        by_then, now = np.minimum.reduce(windows + Y[t:t + L], axis=1).tolist()
        X[t] = x = min(x + arrived, by_then, y + room)
        Y[L + t] = y = min(x, now)
    return X, Y[L:]


def rows(X, Y, arrivals):
    """Admitted, dropped and departed packets of slots 1 to T."""
    admitted = np.diff(X)
    return admitted, arrivals[1:] - admitted, np.diff(Y)


def printed(X, Y, arrivals):
    """The lines of the loss table."""
    A, columns = arrivals.sum(), (arrivals[1:], *rows(X, Y, arrivals), (X - Y)[1:])
    yield "slot arrived admitted dropped departed held"
    for t, row in enumerate(np.stack(columns, axis=1).tolist(), 1):
        yield " ".join(map(str, [t, *row]))
    yield f"total {A} {X[-1]} {A - X[-1]} {Y[-1]} {X[-1] - Y[-1]}"


if __name__ == "__main__":
    last = sys.argv[1:2] == ["--last-totals"]
    files = sys.argv[2 if last else 1:]
    if not files:
        print(__doc__, file=sys.stderr)
        sys.exit(2)
    for name in files:
        try:
            with open(name, "rb") as file:
                *set_up, arrivals = read_stream(file.read())
        except OSError as problem:
            sys.exit(f"min_plus: the file '{name}': {problem}")
        arrivals = np.array(arrivals, dtype=np.int64)
        X, Y = (by_last_totals if last else by_theorem)(*set_up, arrivals)
        print(*printed(X, Y, arrivals), sep="\n")
