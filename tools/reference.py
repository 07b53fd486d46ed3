#!/usr/bin/env python3
"""The stroke program a second time, in Python, written from docs/ alone.

It shares nothing with the Rattle code, so that the two can be held against each other.

    python3 tools/reference.py tones FILE     prints what `tones` prints for the stroke file FILE
    python3 tools/reference.py match A B      prints what `compare` prints for the stroke files A and B
    python3 tools/reference.py write          writes samples/, and what the gate runs and expects:
                                              crates/tones/{stdin,stdout}, crates/cases/{args,data,stdout},
                                              crates/exacts/{stdin,stdout}, crates/play/{stdin,stdout},
                                              crates/polling/stdout, crates/compare/{args,data,stdout},
                                              crates/lending/{stdin,stdout}
    python3 tools/reference.py check          says whether those files are what `write` would write
"""
import math
import os
import struct
import sys

# --- the fixed arithmetic: docs/ARITHMETICS.md

S = 1 << 30
SPAN = 512


def make_table():
    table = [None] * 512
    table[0], table[128] = (S, 0), (0, S)
    for h in (64, 32, 16, 8, 4, 2, 1):
        for j in range(h, 128, 2 * h):
            a = table[j - h][0] + table[j + h][0]
            b = table[j - h][1] + table[j + h][1]
            r = math.isqrt(a * a + b * b)
            table[j] = ((2 * S * a + r) // (2 * r), (2 * S * b + r) // (2 * r))
    for j in range(0, 384):
        c, s = table[j]
        table[j + 128] = (-s, c)
    return table


TABLE = make_table()


def wrap(z):
    """z brought into 32 signed bits by a multiple of 2^32."""
    return (z + 2**31) % 2**32 - 2**31


def turn(value, e):
    (x, y), (c, s) = value, TABLE[e % SPAN]
    return wrap((x * c + y * s + 2**29) // S), wrap((y * c - x * s + 2**29) // S)


def add(a, b):
    return wrap(a[0] + b[0]), wrap(a[1] + b[1])


# --- the exact arithmetics: docs/ARITHMETICS.md


class Pressure:
    """The whole numbers modulo a prime, turned by the powers of a root."""

    name, full, parts = "pressure", True, 1
    modulus = 15 * 2**27 + 1
    span = 7680
    root = 143112044  # docs/ARITHMETICS.md, "The roots"
    one, zero = 1, 0

    def value(self, a):
        return a % self.modulus

    def sum(self, a, b):
        return (a + b) % self.modulus

    def product(self, a, b):
        return a * b % self.modulus

    def whole(self, n):
        return n % self.modulus

    def text(self, a):
        return str(a)


class Path:
    """Pairs (u, v) modulo a prime, as u + v times a root of -1, turned by the powers of a root."""

    name, full, parts = "path", True, 2
    modulus = 2**31 - 1
    span = 4608
    root = (1569797033, 1612820169)  # docs/ARITHMETICS.md, "The roots"
    one, zero = (1, 0), (0, 0)

    def value(self, a):
        return a[0] % self.modulus, a[1] % self.modulus

    def sum(self, a, b):
        return self.value((a[0] + b[0], a[1] + b[1]))

    def product(self, a, b):
        return self.value((a[0] * b[0] - a[1] * b[1], a[0] * b[1] + a[1] * b[0]))

    def whole(self, n):
        return n % self.modulus, 0

    def text(self, a):
        return f"{a[0]},{a[1]}"


def powers(x):
    """The powers of the root below the span."""
    listed = [x.one]
    while len(listed) < x.span:
        listed.append(x.product(listed[-1], x.root))
    assert x.product(listed[-1], x.root) == x.one and listed.count(x.one) == 1
    return listed


PRESSURE, PATH = Pressure(), Path()
POWERS = {x: powers(x) for x in (PRESSURE, PATH)}


def defining_sums(x, samples):
    """Tone k is the sum over t of sample t turned by (t * k mod N) * span / N."""
    n, tones = len(samples), []
    for k in range(n):
        total = x.zero
        for t, sample in enumerate(samples):
            total = x.sum(total, x.product(sample, POWERS[x][t * k % n * x.span // n]))
        tones.append(total)
    return tones


def inverse_sums(x, tones):
    """Sample t is one of N parts of the sum over k of tone k turned by ((N - t) * k mod N) * span / N."""
    n = len(tones)
    part = x.whole(pow(n, -1, x.modulus))
    summed = defining_sums(x, tones)
    return [x.product(part, summed[(n - t) % n]) for t in range(n)]


def convolution(x, a, b):
    """Place t is the sum over j of a at j times b at t - j, round the circle."""
    n, out = len(a), []
    for t in range(n):
        total = x.zero
        for j in range(n):
            total = x.sum(total, x.product(a[j], b[(t - j) % n]))
        out.append(total)
    return out


# --- plans and the recursion: docs/TRANSFORM.md


class Refused(Exception):
    def __init__(self, number, layer, place):
        super().__init__(f"refused {number} {layer} {place}")


def product(radices):
    n = 1
    for r in radices:
        n *= r
    return n


def check_plan(radices):
    if len(radices) > 9:
        raise Refused(21, 2, 0)
    for i, r in enumerate(radices):
        if not 2 <= r <= 8:
            raise Refused(22, 2, i)
    for i in range(len(radices)):
        if product(radices[: i + 1]) > 512:
            raise Refused(23, 2, i)


def standard_plan(n):
    if not 1 <= n <= 512:
        raise Refused(25, 2, n)
    radices, left = [], n
    for r in (4, 2, 3, 5, 7):
        while left % r == 0:
            radices.append(r)
            left //= r
    if left != 1:
        raise Refused(25, 2, n)
    return radices


def recursion(radices, samples):
    if not radices:
        return list(samples)
    r, n = radices[0], len(samples)
    length = n // r
    parts = [recursion(radices[1:], samples[q::r]) for q in range(r)]
    tones = []
    for k in range(n):
        total = turn(parts[0][k % length], 0)
        for q in range(1, r):
            total = add(total, turn(parts[q][k % length], (q * k % n) * SPAN // n))
        tones.append(total)
    return tones


def check_lent(span, n, buffer_length, work_length):
    if span % n:
        raise Refused(24, 3, n)
    if buffer_length != n:
        raise Refused(31, 3, 0)
    if work_length < n + 8:
        raise Refused(32, 3, 0)


# --- runs, one stage at a poll: docs/TRANSFORM.md


def blocks(radices, samples, done):
    """The buffer of a run after so many stages: the first radices deal, and each block has the tones of its samples."""
    if len(radices) == done:
        return recursion(radices, samples)
    r = radices[0]
    return [value for q in range(r) for value in blocks(radices[1:], samples[q::r], done)]


class Run:
    def __init__(self, span, radices, samples, work_length):
        check_plan(radices)
        check_lent(span, product(radices), len(samples), work_length)
        self.radices, self.samples, self.done, self.turns = radices, samples, 0, 0

    def stage(self, span, buffer_length, work_length):
        check_lent(span, product(self.radices), buffer_length, work_length)
        if self.done == len(self.radices):
            raise Refused(51, 3, 0)
        self.done += 1
        self.turns += product(self.radices) * self.radices[-self.done]

    def finish(self):
        if self.done < len(self.radices):
            raise Refused(52, 3, 0)
        return self.turns

    def buffer(self):
        return blocks(self.radices, self.samples, self.done)


# --- stroke files: docs/FORMAT.md


def encode(path, pressure=None, notes=b""):
    body = b""
    for i, (x, y) in enumerate(path):
        body += struct.pack("<hh", x, y)
        if pressure is not None:
            body += struct.pack("<H", pressure[i])
    return notes + body + struct.pack("<IHBB", len(body), len(path), pressure is not None, 1)


def decode(data):
    if not 8 <= len(data) <= 65536:
        raise Refused(11, 1, 0)
    distance, count, flag, version = struct.unpack("<IHBB", data[-8:])
    if version != 1:
        raise Refused(12, 1, len(data) - 1)
    if flag > 1:
        raise Refused(12, 1, len(data) - 2)
    if not 1 <= count <= 512:
        raise Refused(13, 1, 0)
    size = 6 if flag else 4
    if distance != count * size:
        raise Refused(14, 1, 0)
    if distance > len(data) - 8:
        raise Refused(15, 1, 0)
    start = len(data) - 8 - distance
    path, pressure = [], []
    for at in range(start, len(data) - 8, size):
        x, y = struct.unpack("<hh", data[at : at + 4])
        for offset, value in ((at, x), (at + 2, y)):
            if abs(value) > 1023:
                raise Refused(16, 1, offset)
        path.append((x, y))
        if flag:
            (p,) = struct.unpack("<H", data[at + 4 : at + 6])
            if p > 1023:
                raise Refused(16, 1, at + 4)
            pressure.append(p)
    return path, pressure if flag else None


def write(path, pressure, room):
    """The bytes that the file of a lent stroke has."""
    check_stroke(path, pressure)
    check_counts(path, pressure)
    data = encode(path, pressure)
    if room < len(data):
        raise Refused(34, 3, 0)
    return data


# --- lent strokes, and matching two of them: docs/MATCHING.md


def check_stroke(path, pressure):
    if not 1 <= len(path) <= 512 or (pressure is not None and len(pressure) != len(path)):
        raise Refused(31, 3, 0)


def check_counts(path, pressure):
    for i, (x, y) in enumerate(path):
        if abs(x) > 1023 or abs(y) > 1023 or (pressure is not None and pressure[i] > 1023):
            raise Refused(33, 3, i)


def divides(n, span):
    return n > 0 and span % n == 0


def check_match(a, b, room):
    n, both = len(a[0]), a[1] is not None and b[1] is not None
    if not divides(n, PATH.span) or (both and not divides(n, PRESSURE.span)):
        raise Refused(24, 3, n)
    check_stroke(*a)
    check_stroke(*b)
    if len(b[0]) != n or room != n:
        raise Refused(31, 3, 0)
    check_counts(*a)
    check_counts(*b)


def lagged_pair(a, b, lag):
    """The sum over t of conj(a_t) times b at (t + lag) mod N, over the whole numbers."""
    n, x, y = len(a), 0, 0
    for t, (ax, ay) in enumerate(a):
        bx, by = b[(t + lag) % n]
        x += ax * bx + ay * by
        y += ax * by - ay * bx
    return x, y


def least_best(values):
    """The least index of the largest."""
    return values.index(max(values))


def match(a, b, room):
    """The best lag, the pressure lag or None, and the pair of every lag, of two strokes (path, pressure)."""
    check_match(a, b, room)
    n = len(a[0])
    pairs = [lagged_pair(a[0], b[0], lag) for lag in range(n)]
    pressed = None
    if a[1] is not None and b[1] is not None:
        pressed = least_best([sum(a[1][t] * b[1][(t + lag) % n] for t in range(n)) for lag in range(n)])
    return least_best([x for x, _ in pairs]), pressed, pairs


# --- what is printed


def element_lines(values):
    return [f"{k} {x} {y}" for k, (x, y) in enumerate(values)]


def tones(path, radices, buffer_length, work_length):
    n = product(radices)
    check_lent(SPAN, n, buffer_length, work_length)
    spectrum = recursion(radices, [(1024 * x, 1024 * y) for x, y in path])
    return [f"tones {n} turns {n * sum(radices)}"] + element_lines(spectrum)


def printed_standard(data):
    """The output of the program `tones`."""
    try:
        path, _ = decode(data)
        radices = standard_plan(len(path))
        return tones(path, radices, len(path), 520)
    except Refused as refusal:
        return [str(refusal)]


def printed_plan(data, radices, work_length):
    """The same under a plan that the caller chose, with the work buffer that it lent."""
    try:
        path, _ = decode(data)
        check_plan(radices)
        return tones(path, radices, len(path), work_length)
    except Refused as refusal:
        return [str(refusal)]


def printed_match(first, second):
    """The output of the program `compare`."""
    try:
        a = decode(first)
        b = decode(second)
        lag, pressed, pairs = match(a, b, len(a[0]))
    except Refused as refusal:
        return [str(refusal)]
    last = "no pressure lag" if pressed is None else f"pressure lag {pressed}"
    return [f"lag {lag}", f"sum {pairs[lag][0]} {pairs[lag][1]}", last]


# --- the stroke files of the gate


class Numbers:
    """A small generator of its own, so that the files never change with a library."""

    def __init__(self, seed):
        self.state = seed

    def below(self, n):
        self.state = (self.state * 6364136223846793005 + 1442695040888963407) % 2**64
        return (self.state >> 33) % n


def noise(n, seed):
    numbers = Numbers(seed)
    return [(numbers.below(2047) - 1023, numbers.below(2047) - 1023) for _ in range(n)]


def signature(n):
    """A pen that writes three loops from left to right."""
    path = []
    for t in range(n):
        a = 2 * math.pi * 3 * t / n
        path.append((round(-700 + 1400 * t / n + 180 * math.sin(a)), round(300 * math.cos(a))))
    return path


def signed_once():
    return encode(signature(256), [abs(512 - 4 * t) for t in range(256)], b"signed at counter 3")


def signed_again():
    """The same pen once more: its path is late by 20 samples and not quite the same, its pressure by 24."""
    numbers, (path, pressure) = Numbers(7), decode(signed_once())
    shaken = [(x + numbers.below(7) - 3, y + numbers.below(7) - 3) for x, y in moved(path, 20)]
    return encode(shaken, moved(pressure, 24), b"signed at counter 4")


def strokes():
    """Every stroke file by its name."""
    four = [(4, 0), (0, 0), (3, 0), (6, 0)]
    files = {
        "four": encode(four),
        "four-notes": encode(four, notes=b"pad 7, counter 3"),
        "four-pressure": encode(four, pressure=[0, 1023, 1, 512]),
        "eleven": encode(noise(11, 11)),
        "three": encode(noise(3, 3)),
        "signature": signed_once(),
        "empty": b"",
        "seven-bytes": b"\x04\0\0\0\x01\0\0",
        "largest": encode(noise(2, 65), notes=b"\xff" * (65536 - 16)),
        "too-large": encode(noise(2, 65), notes=b"\xff" * (65537 - 16)),
        "version-2": encode(four)[:-1] + b"\2",
        "version-0-flag-2": encode(four)[:-2] + b"\2\0",
        "flag-2": encode(four)[:-2] + b"\2\1",
        "count-0": struct.pack("<IHBB", 0, 0, 0, 1),
        "count-513": b"\0" * 2052 + struct.pack("<IHBB", 2052, 513, 0, 1),
        "distance-17": b"\0" * 17 + struct.pack("<IHBB", 17, 4, 0, 1),
        "distance-high-bytes": b"\0" * 16 + struct.pack("<IHBB", 0x01000010, 4, 0, 1),
        "flag-for-distance": encode(four)[:-2] + b"\1\1",
        "start-before-file": encode(four)[1:],
        "x-1024": encode(four[:2] + [(1024, 0), (0, -1024)], notes=b"n"),
        "y-minus-1024": encode(four[:3] + [(-1023, -1024)]),
        "pressure-1024": encode(four, pressure=[0, 1023, 1024, 0]),
        "x-before-pressure": encode([(0, 0), (-1024, 0)], pressure=[1024, 0]),
    }
    for k in range(10):
        n = 2**k
        files[f"noise-{n}"] = encode(noise(n, n), notes=b"\0" * (k % 3))
    files["spike-8"] = encode([(0, 0)] * 5 + [(1023, -1023)] + [(0, 0)] * 2)
    files["corner-64"] = encode([(1023, 1023)] * 64)
    files["corner-512"] = encode([(-1023, -1023)] * 512, pressure=[1023] * 512)
    files["alternating-512"] = encode([(1023 * (-1) ** t, -1023 * (-1) ** t) for t in range(512)])
    files["quarter-turns-256"] = encode([((1023, 0), (0, 1023), (-1023, 0), (0, -1023))[t % 4] for t in range(256)])
    return files


def cases():
    """Which file is run under which plan with how much work: the plan '-' is empty, 'standard' is the standard one."""
    listed = [(name, "standard", "520") for name in strokes()]
    for plan in ("2,2", "4", "-", "2", "8", "2,3", "1", "9", "2,2,2,2,2,2,2,2,2,2", "8,8,8,2", "8,8,8,9", "2,2,2,2,2,2,2,2,2,1"):
        listed.append(("four", plan, "520"))
    for plan, work in (("4", "12"), ("4", "11"), ("2", "9"), ("3", "0")):
        listed.append(("four", plan, work))
    for plan in ("8", "2,4", "4,2", "2,2,2"):
        listed.append(("spike-8", plan, "16"))
        listed.append(("noise-8", plan, "16"))
    for plan in ("8,8", "2,8,4", "2,2,2,2,2,2"):
        listed.append(("noise-64", plan, "72"))
    listed.append(("noise-1", "-", "9"))
    listed.append(("noise-1", "-", "8"))
    for plan in ("8,8,8", "2,2,2,2,2,2,2,2,2", "2,4,8,8", "8,8,4,2"):
        listed.append(("noise-512", plan, "520"))
    listed.append(("noise-512", "8,8,8", "519"))
    listed.append(("alternating-512", "8,8,8", "600"))
    return listed


def case_lines(files):
    lines = []
    for name, plan, work in cases():
        lines.append(f"{name} under {plan} with {work}")
        if plan == "standard":
            lines += printed_standard(files[name])
        else:
            radices = [] if plan == "-" else [int(r) for r in plan.split(",")]
            lines += printed_plan(files[name], radices, int(work))
    return lines


# --- the calls over every arithmetic, case by case


class Fixed:
    """The fixed arithmetic, which has no product and no part, so neither inverse nor convolution."""

    name, full = "fixed", False
    span = SPAN

    def text(self, a):
        return f"{a[0]},{a[1]}"


FIXED = Fixed()


def granted(x, call, radices, lists, work_length):
    """Refuses what the call refuses, the lowest number first."""
    check_plan(radices)
    n = product(radices)
    if x.span % n:
        raise Refused(24, 3, n)
    if not x.full and call != "transform":
        raise Refused(26, 3, 0)
    if any(len(lent) != n for lent in lists):
        raise Refused(31, 3, 0)
    if work_length < n + 8:
        raise Refused(32, 3, 0)


def answer(x, call, radices, lists, work_length):
    """The lines that `exacts` prints of a case after its head."""
    try:
        granted(x, call, radices, lists, work_length)
    except Refused as refusal:
        return [str(refusal)]
    lines = []
    if call == "transform":
        lines = [f"turns {product(radices) * sum(radices)}"]
        out = defining_sums(x, lists[0]) if x.full else recursion(radices, lists[0])
    elif call == "inverse":
        out = inverse_sums(x, lists[0])
    else:
        out = convolution(x, lists[0], lists[1])
    return lines + ["".join(" " + x.text(a) for a in out[i : i + 8]) for i in range(0, len(out), 8)]


def mixed(x, n, seed):
    """Samples of small, large and unreduced words."""
    if not x.full:
        return [(1024 * a, 1024 * b) for a, b in noise(n, seed)]
    numbers, m = Numbers(seed), x.modulus

    def word():
        few, any_below = numbers.below(1024), numbers.below(m)
        return (few, m - few, m + few, 2**32 - 1 - few, any_below)[numbers.below(5)]

    return [word() if x is PRESSURE else (word(), word()) for _ in range(n)]


def edges(x):
    """Twelve samples whose words stand at the edges of the modulus and of 32 bits."""
    m = x.modulus
    words = [m + 5, 2**32 - 1, m, m - 1, m + 1, 0, 1, 2 * m, 3, 2**31, 2**31 - 1, 7]
    return words if x is PRESSURE else list(zip(words, words[5:] + words[:5]))


def tones_of(x, samples):
    """The defining sums, which the inverse must take back to the samples reduced."""
    tones = defining_sums(x, samples)
    assert inverse_sums(x, tones) == [x.value(a) for a in samples]
    return tones


def plan_cases(x, n, plans):
    """Several plans of one length, which agree."""
    samples, other = mixed(x, n, n), mixed(x, n, n + 1)
    for radices in plans:
        yield x, "transform", radices, [samples], n + 8
        yield x, "inverse", radices, [tones_of(x, samples)], n + 8
        yield x, "convolve", radices, [samples, other, samples], n + 8


def edge_cases(x):
    """Words at the edges, tones that are not reduced, and work that is longer than needed."""
    samples, other = edges(x), mixed(x, 12, 7)
    yield x, "transform", [3, 4], [samples], 20
    yield x, "inverse", [3, 4], [tones_of(x, samples)], 20
    yield x, "inverse", [4, 3], [samples], 21
    yield x, "convolve", [2, 6], [samples, other, samples], 20
    yield x, "convolve", [2, 6], [other, samples, other], 50
    yield x, "transform", [2, 6], [other], 50


def refused_cases(x):
    """Every refusal of the three calls, and the lowest number where several conditions hold."""
    four = mixed(x, 4, 4)
    for call, count in (("transform", 1), ("inverse", 1), ("convolve", 3)):
        for radices in ([2] * 10, [2] * 9 + [9], [3, 1, 9, 2], [2, 9], [8, 8, 8, 2], [8, 8, 8, 9], [7], [8, 8, 8]):
            yield x, call, radices, [four] * count, 3
        for place in range(count):
            for wrong in (four[:3], four + four[:1], []):
                yield x, call, [2, 2], [wrong if i == place else four for i in range(count)], 12
        yield x, call, [4], [four[:3]] * count, 11
        yield x, call, [4], [four] * count, 11
        yield x, call, [4], [four] * count, 0
        yield x, call, [], [four[:1]] * count, 8


def exact_cases():
    """The arithmetic, the call, the radices, the lent lists and how much work is lent."""
    for x in (PRESSURE, PATH):
        yield from edge_cases(x)
        yield from plan_cases(x, 1, ([],))
        yield from plan_cases(x, 12, ([2, 2, 3], [3, 4], [4, 3], [2, 6]))
        yield x, "transform", [2] * 9, [mixed(x, 512, 512)], 520
        yield x, "transform", [8, 6, 5, 2], [mixed(x, 480, 480)], 488
        yield x, "transform", [4, 8, 3, 3], [mixed(x, 288, 288)], 296
    yield from plan_cases(PRESSURE, 60, ([5, 4, 3], [2, 5, 6], [3, 2, 2, 5]))
    yield from plan_cases(PATH, 36, ([6, 6], [4, 3, 3], [2, 3, 2, 3]))
    yield FIXED, "transform", [2, 2], [mixed(FIXED, 4, 4)], 12
    for x in (PRESSURE, PATH, FIXED):
        yield from refused_cases(x)


def exact_lines():
    """What stands on the standard input of `exacts`, and what it prints."""
    given, printed = [], []
    for x, call, radices, lists, work_length in exact_cases():
        head = f"{x.name} {call} {','.join(map(str, radices)) or '-'} {work_length}"
        given.append(head + ": " + " | ".join(" ".join(x.text(a) for a in lent) for lent in lists))
        printed += [head] + answer(x, call, radices, lists, work_length)
    return given, printed


# --- sheets: the plain sheet of docs/SHEETS.md


def sheet_calls(x, n, seed, many):
    """So many calls on a sheet of n samples, refused ones among them."""
    numbers = Numbers(seed)
    words = [0, 1, 1023, x.modulus - 1, x.modulus, x.modulus + 5, 2**32 - 1]

    def element():
        parts = [words[numbers.below(7)] if numbers.below(2) else numbers.below(2**32) for _ in range(x.parts)]
        return ",".join(str(part) for part in parts)

    def place():
        return numbers.below(n + 2) if numbers.below(8) == 0 else numbers.below(n)

    def call():
        kind = numbers.below(8)
        if kind < 2:
            return f"edit {place()} {element()}"
        if kind == 2:
            return f"shift {place()}"
        if kind == 3:
            return "mirror"
        if kind == 4:
            return "lay " + " ".join(element() for _ in range(n - (numbers.below(4) == 0)))
        return f"tone {place()}"

    samples = f"{x.name} " + " ".join(element() for _ in range(n))
    return [samples] + [call() for _ in range(many)] + [f"tone {k}" for k in range(n)]


def sheet_scripts():
    worked = ["pressure 3 5", "tone 0", "tone 1", "edit 1 6", "tone 0", "tone 1", "shift 1", "tone 0", "tone 1", "tone 2"]
    scripts = [worked]
    for x in (PRESSURE, PATH):
        for n in (1, 2, 3, 6, 12):
            scripts.append(sheet_calls(x, n, 100 * n + x.parts, 60))
    return scripts + [["path 1,2 3,4 5,6 7,8 9,10", "tone 0"], ["pressure " + "1 " * 11, "mirror"], ["pressure", "tone 0"]]


def played(script):
    """Each call of a script with its answer, by the samples alone."""
    name, *words = script[0].split()
    x = {"pressure": PRESSURE, "path": PATH}[name]
    element = lambda word: tuple(int(part) for part in word.split(",")) if x is PATH else int(word)
    samples, lines = [element(word) for word in words], [name]
    n = len(samples)
    try:
        standard_plan(n)
        if x.span % n:
            raise Refused(24, 3, n)
    except Refused as refusal:
        return lines + [str(refusal)]
    for line in script[1:]:
        call, *given = line.split()
        answer = "done"
        if call in ("edit", "shift", "tone") and int(given[0]) >= n:
            answer = f"refused 41 3 {given[0]}"
        elif call == "lay" and len(given) != n:
            answer = "refused 31 3 0"
        elif call == "edit":
            samples[int(given[0])] = element(given[1])
        elif call == "shift":
            samples = [samples[(t + int(given[0])) % n] for t in range(n)]
        elif call == "mirror":
            samples = [samples[(n - t) % n] for t in range(n)]
        elif call == "lay":
            samples = [x.sum(a, element(b)) for a, b in zip(samples, given)]
        else:
            answer = "tone " + x.text(defining_sums(x, samples)[int(given[0])])
        lines.append(f"{line}: {answer}")
    return lines


# --- the runs of the gate

PRESSURE_SPAN = 7680


def all_over(n):
    """A path that goes all over the pad."""
    return [(1024 * (389 * t % 2047 - 1023), 1024 * ((911 * t + 500) % 2047 - 1023)) for t in range(n)]


def heard(call, *words):
    try:
        call(*words)
        return "granted"
    except Refused as refusal:
        return str(refusal)


def polled_lines(radices):
    n = product(radices)
    run = Run(SPAN, radices, all_over(n), 520)
    lines = [f"plan {radices}"]
    for left in range(len(radices), 0, -1):
        lines += [f"left {left}"] + element_lines(run.buffer())
        run.stage(SPAN, n, 520)
    return lines + [f"turns {run.finish()}"] + element_lines(run.buffer())


def abandoned_lines(n):
    run = Run(SPAN, [2, 2, 2], all_over(8), 520)
    lines = [heard(run.stage, SPAN, 8, 520)]
    return lines + ["given up with left 2"] + element_lines([(0, 0)] * n)


def insisting_lines():
    run = Run(SPAN, [4, 2], all_over(8), 16)
    lines = [heard(run.stage, SPAN, 7, 15), heard(run.stage, SPAN, 8, 15), heard(run.stage, SPAN, 8, 16)]
    lines += [heard(run.finish), heard(run.stage, SPAN, 8, 16)]
    lines += [heard(run.stage, SPAN, 8, 16), heard(run.stage, SPAN, 8, 15)]
    return lines + [f"turns {run.finish()}"] + element_lines(run.buffer())


def changing_lines():
    run = Run(PRESSURE_SPAN, [3], [1023] * 3, 520)
    lines = [heard(run.stage, SPAN, 3, 520), heard(run.stage, PRESSURE_SPAN, 3, 520)]
    return lines + [f"turns {run.finish()}"] + element_lines(all_over(3))


def polling_lines():
    lines = []
    for radices in ([], [2], [2, 2], [4, 2], [2, 4], [2, 2, 2], [2, 8, 4], [8, 8, 8]):
        lines += polled_lines(radices)
    for radices, n, room in (([2] * 10, 4, 520), ([2, 9], 4, 520), ([8, 8, 8, 2], 4, 520), ([3], 4, 11), ([4], 3, 11), ([4], 4, 11), ([4], 4, 12)):
        lines.append(heard(Run, SPAN, radices, all_over(n), room))
    return lines + abandoned_lines(8) + abandoned_lines(3) + insisting_lines() + changing_lines()


# --- lent strokes that are matched and written, case by case


def words(values):
    """The values one after the other, N times V as V*N."""
    listed = []
    for value in values:
        if listed and listed[-1][0] == value:
            listed[-1][1] += 1
        else:
            listed.append([value, 1])
    return " ".join(value if count == 1 else f"{value}*{count}" for value, count in listed)


def stroke_text(path, pressure):
    pressed = "-" if pressure is None else words(str(u) for u in pressure)
    return words(f"{x},{y}" for x, y in path) + " / " + pressed


def pressures(n, seed):
    numbers = Numbers(seed)
    return [numbers.below(1024) for _ in range(n)]


def moved(values, by):
    return values[-by:] + values[:-by]


def small_matches():
    """Short strokes, of which every pair is printed."""
    yield ([(0, 1)], None), ([(1, 0)], None)
    yield ([(1, 0)], [0]), ([(0, 1)], [0])
    yield ([(-3, 4)], [5]), ([(-3, 4)], None)
    # a mark at one place finds itself: the lag goes forward
    yield ([(5, 0)] + [(0, 0)] * 3, [9, 0, 0, 0]), ([(0, 0)] * 3 + [(7, 0)], [0, 2, 0, 0])
    yield ([(0, 0)] * 3 + [(0, 7)], [0, 0, 0, 1]), ([(0, 5)] + [(0, 0)] * 3, [0, 0, 8, 0])
    # equal sums, of which the least lag wins: everywhere, at every second lag, at every third, at the last two
    yield ([(0, 0)] * 6, [0] * 6), ([(4, -4)] * 6, [7] * 6)
    yield ([(5, 0)] + [(0, 0)] * 3, None), ([(0, 0), (7, 0)] * 2, None)
    yield ([(1, 0), (0, 0)] * 3, [2, 0] * 3), ([(0, 0), (1, 0)] * 3, [0, 2] * 3)
    yield ([(0, 3), (0, 0), (0, 0)] * 3, None), ([(0, 0), (0, 0), (0, 3)] * 3, None)
    yield ([(1, 0), (0, 0), (0, 0), (0, 0)], [1, 0, 0, 0]), ([(-2, 0), (-2, 0), (3, 1), (3, -1)], [0, 0, 6, 6])
    # every sum is below zero, and sums on both sides of it
    yield ([(3, 0), (1, 0)], None), ([(-5, 0), (-1, 0)], None)
    yield ([(1, 0), (0, 0)], None), ([(-1, 0), (1, 0)], None)
    yield ([(1, 0), (0, 0), (0, 0)], None), ([(0, -1), (0, 0), (0, 1)], None)
    for n in (2, 3, 4, 6, 8, 9, 12, 16):
        path, pressed = noise(n, n + 40), pressures(n, n + 50)
        other, its = noise(n, n + 60), pressures(n, n + 70)
        yield (path, pressed), (moved(path, n // 2), moved(pressed, n // 3 or 1))
        yield (path, pressed if n % 2 else None), (other, None if n % 2 else its)
        yield (other, its), (path, pressed)


def long_matches():
    """Long strokes with the lags whose pairs are printed: the corners of the limits, ties, N that divide one span alone."""
    n, far = 512, 1023
    corners = [(sx * far, sy * far) for sx in (1, -1) for sy in (1, -1)]
    for place, corner in enumerate(corners):
        for other in corners:
            yield ([corner] * n, [far] * n), ([other] * n, (None, [far] * n, [0] * n, [far] + [0] * 511)[place]), [0, 511]
    signs = [(far * (-1) ** t, -far * (-1) ** t) for t in range(n)]
    yield (signs, [far, 0] * 256), (moved(signs, 1), [0, far] * 256), [0, 1, 2, 511]
    yield (signs, [0, far] * 256), (signs, [0] * 511 + [far]), [0, 1, 510]
    path, pressed = noise(n, 1), pressures(n, 2)
    yield (path, pressed), (moved(path, 300), moved(pressed, 17)), [0, 17, 300, 511]
    yield (path, pressed), (noise(n, 3), pressures(n, 4)), [0, 1, 256, 511]
    # 480 divides the pressure span alone, and 288 the path span alone
    for n in (480, 288):
        path, pressed = [(5, -6)] * n, [7] * n
        yield (path, pressed), (path, pressed), [0]
        yield (path, pressed), (path, None), [0, n - 1]
        yield (path, None), (path, pressed), [0, n - 1]
    yield (noise(288, 1), pressures(288, 2)), (noise(288, 3), None), [0, 1, 287]
    for n in (384, 256):
        yield (noise(n, n), pressures(n, n)), (noise(n, n + 1), pressures(n, n + 1)), [0, n - 1]


def refused_matches():
    """Two strokes and how long the output is: every refusal, and the lowest number where several conditions hold."""
    four, pressed = noise(4, 4), [1, 2, 3, 1023]
    good = (four, pressed)
    far = lambda i, sample: four[:i] + [sample] + four[i + 1 :]
    # 24 looks at the first stroke alone, and before anything else
    for n in (0, 5, 7, 10, 20, 60, 480, 511, 513, 640):
        yield ([(9, 9)] * n, None), (four, None), 4
    for n in (15, 288, 36, 576):
        yield ([(9, 9)] * n, [1]), ([(9, 9)] * n, []), n
    yield ([(1024, 0)] * 5, [1024]), ([], [3]), 0
    # 31: the strokes' own lengths, their pressures, the two lengths, and the output
    for n in (576, 768, 1536, 4608):
        yield ([(1, 1)] * n, None), ([(1, 1)] * n, [1] * n), n
    yield ([(1, 1)] * 768, [1] * 768), ([(1, 1)] * 768, [1] * 768), 768
    for other in ([], [(0, 0)] * 513, four[:3], four + four, [(1024, 0)] * 5):
        yield good, (other, None), 4
    for wrong in ([], [1], [1, 2, 3], [1, 2, 3, 4, 5], [1024] * 5):
        yield (four, wrong), good, 4
        yield good, (four, wrong), 4
        yield (four, None), (far(0, (1024, 0)), wrong), 4
    for room in (0, 1, 3, 5, 512):
        yield good, good, room
        yield (far(2, (1024, 0)), None), (four, None), room
    # 33: the first sample of the first stroke that has such a count, then of the second
    for sample in ((1024, 0), (-1024, 0), (0, 1024), (0, -1024), (32767, -32768), (-32768, 32767)):
        yield (far(2, sample), None), good, 4
        yield good, (far(3, sample), None), 4
        yield (far(3, sample), None), (far(0, sample), None), 4
    for wrong in ([1024, 0, 0, 0], [0, 0, 0, 65535], [0, 1024, 1024, 0]):
        yield (four, wrong), good, 4
        yield good, (four, wrong), 4
        yield (far(2, (0, 1024)), wrong), (far(0, (1024, 0)), wrong), 4


def written_strokes():
    """A lent stroke and how long the output is."""
    four, pressed = [(4, 0), (0, 0), (3, 0), (6, 0)], [0, 1023, 1, 512]
    # exactly enough room, one byte too little, more than enough
    for path, us in (([(-1, 1)], None), ([(-1023, 1023)], [1023]), (four, None), (four, pressed), (noise(11, 11), pressures(11, 11))):
        size = len(encode(path, us))
        for room in (size, size - 1, size + 1, size + 9, 8, 0):
            yield path, us, room
    yield [(1023, -1023), (-1023, 1023)] * 256, [0, 1023] * 256, 3080
    yield [(1023, -1023), (-1023, 1023)] * 256, [0, 1023] * 256, 3079
    yield [(512, 0), (-256, 255)] * 256, None, 2056
    yield [(512, 0), (-256, 255)] * 256, None, 2055
    # 31 before 33 before 34
    for path, us in (([], None), ([], []), ([(0, 0)] * 513, None), (four, [1, 2, 3]), (four, []), (four, pressed + [0]), ([(1024, 0)] * 2, [1])):
        yield path, us, 40
        yield path, us, 0
    for path, us in ((four[:3] + [(1024, 0)], None), ([(0, -1024)] + four, None), (four, [0, 0, 1024, 1024]), (four[:1] + [(0, 1024)] + four[2:], [0, 0, 0, 1024])):
        yield path, us, 40
        yield path, us, 3


def match_lines(a, b, room, lags):
    """What `lending` reads and prints of a match; every pair where no lags are named."""
    head = f"match {room} " + ("all" if lags is None else ",".join(map(str, lags)))
    given = [head + ": " + stroke_text(*a) + " | " + stroke_text(*b)]
    try:
        lag, pressed, pairs = match(a, b, room)
    except Refused as refusal:
        return given, [head, str(refusal)]
    lines = [head, f"lag {lag} " + ("no pressure" if pressed is None else f"pressure {pressed}")]
    return given, lines + [f"{k} {pairs[k][0]} {pairs[k][1]}" for k in (range(room) if lags is None else lags)]


def write_lines(path, pressure, room):
    head = f"write {room}"
    given = [head + ": " + stroke_text(path, pressure)]
    try:
        data = write(path, pressure, room)
    except Refused as refusal:
        return given, [head, str(refusal)]
    data, size = data + b"\xa5" * (room - len(data)), len(data)
    return given, [head, f"length {size}"] + [data[i : i + 24].hex() for i in range(0, room, 24)]


def lending_lines():
    """What stands on the standard input of `lending`, and what it prints."""
    made = [match_lines(a, b, len(a[0]), None) for a, b in small_matches()]
    made += [match_lines(a, b, len(a[0]), lags) for a, b, lags in long_matches()]
    made += [match_lines(a, b, room, [0]) for a, b, room in refused_matches()]
    made += [write_lines(*case) for case in written_strokes()]
    return [line for given, _ in made for line in given], [line for _, printed in made for line in printed]


def outputs():
    """Every file that `write` writes, by its path."""
    files = strokes()
    text = lambda lines: ("\n".join(lines) + "\n").encode()
    given, printed = exact_lines()
    lent_given, lent_printed = lending_lines()
    made = {
        "samples/four.stroke": files["four"],
        "samples/signature.stroke": files["signature"],
        "samples/again.stroke": signed_again(),
        "crates/tones/stdin": files["four"],
        "crates/tones/stdout": text(printed_standard(files["four"])),
        "crates/play/stdin": "\n\n".join("\n".join(script) for script in sheet_scripts()).encode(),
        "crates/play/stdout": text(line for script in sheet_scripts() for line in played(script)),
        "crates/cases/args": text(word for case in cases() for word in case),
        "crates/cases/stdout": text(case_lines(files)),
        "crates/exacts/stdin": text(given),
        "crates/exacts/stdout": text(printed),
        "crates/polling/stdout": text(polling_lines()),
        "crates/compare/args": b"signature.stroke\nagain.stroke\n",
        "crates/compare/data/signature.stroke": files["signature"],
        "crates/compare/data/again.stroke": signed_again(),
        "crates/compare/stdout": text(printed_match(files["signature"], signed_again())),
        "crates/lending/stdin": text(lent_given),
        "crates/lending/stdout": text(lent_printed),
    }
    for name, data in files.items():
        made[f"crates/cases/data/{name}.stroke"] = data
    return made


def main(words):
    here = os.path.join(os.path.dirname(os.path.abspath(__file__)), "..")
    if len(words) == 2 and words[0] == "tones":
        with open(words[1], "rb") as f:
            print("\n".join(printed_standard(f.read(65537))))
    elif len(words) == 3 and words[0] == "match":
        files = []
        for name in words[1:]:
            with open(name, "rb") as f:
                files.append(f.read(65537))
        print("\n".join(printed_match(*files)))
    elif words == ["write"]:
        for path, data in outputs().items():
            full = os.path.join(here, path)
            os.makedirs(os.path.dirname(full), exist_ok=True)
            with open(full, "wb") as f:
                f.write(data)
    elif words == ["check"]:
        wrong, made = 0, outputs()
        for path, data in made.items():
            try:
                with open(os.path.join(here, path), "rb") as f:
                    same = f.read() == data
            except OSError:
                same = False
            if not same:
                print(f"not as written: {path}")
                wrong += 1
        print(f"{len(made) - wrong} files as written, {wrong} not")
        sys.exit(1 if wrong else 0)
    else:
        sys.exit(__doc__)


if __name__ == "__main__":
    main(sys.argv[1:])
