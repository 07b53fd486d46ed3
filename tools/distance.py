#!/usr/bin/env python3
"""Measures how far fixed tones are from the sums before rounding, over extreme and random strokes.

    python3 tools/distance.py

It uses the second program's table and recursion (tools/reference.py). For each length it prints the plans and strokes
that were tried and the largest distance of a part of a tone, in 1/1,024 of a count, beside the proved bound of
N/512 of a count, which is 2N of these units. Takes about a minute.
"""
from reference import S, SPAN, TABLE, Numbers, noise, recursion


def plans(n):
    """Every plan of n: the lists of radices from 2 to 8 with the product n."""
    found = []

    def grow(radices, left):
        if left == 1:
            found.append(list(radices))
        for r in range(2, 9):
            if left % r == 0 and len(radices) < 9:
                grow(radices + [r], left // r)

    grow([], n)
    return found


def strokes(n):
    """Corners, alternating signs, single spikes, a pen that goes round with the table, and noise."""
    yield from ([corner] * n for corner in ((1023, 1023), (-1023, 1023), (1023, -1023), (-1023, -1023), (1023, 0)))
    yield [(1023 * (-1) ** t, -1023 * (-1) ** t) for t in range(n)]
    for at in {0, 1, n // 2, n - 1}:
        yield [(1023, -1023) if t == at else (0, 0) for t in range(n)]
    step = SPAN // n
    yield [(1023 * TABLE[t * step % SPAN][0] // S, 1023 * TABLE[t * step % SPAN][1] // S) for t in range(n)]
    for seed in range(4):
        yield noise(n, 1000 * n + seed)
    numbers = Numbers(n)
    yield [((-1023, 1023)[numbers.below(2)], (-1023, 1023)[numbers.below(2)]) for _ in range(n)]


def sums(path):
    """The two parts of each tone before rounding, times S, in counts."""
    n = len(path)
    for k in range(n):
        entries = [TABLE[(t * k % n) * SPAN // n] for t in range(n)]
        yield (
            sum(x * c + y * s for (x, y), (c, s) in zip(path, entries)),
            sum(y * c - x * s for (x, y), (c, s) in zip(path, entries)),
        )


def main():
    print("   N  plans  strokes  largest distance  bound 2N")
    for n in (2, 4, 8, 16, 32, 64, 128, 256, 512):
        tried, largest, lists = plans(n), 0, list(strokes(n))
        for path in lists:
            exact = list(sums(path))
            for radices in tried:
                tones = recursion(radices, [(1024 * x, 1024 * y) for x, y in path])
                for tone, sought in zip(tones, exact):
                    for part, true in zip(tone, sought):
                        largest = max(largest, abs(S * part - 1024 * true))
        print(f"{n:4} {len(tried):6} {len(lists):8} {largest / S:17.3f} {2 * n:9}")


if __name__ == "__main__":
    main()
