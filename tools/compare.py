#!/usr/bin/env python3
"""Holds the C interface against the program `tones` and against the second program, from C.

    python3 tools/compare.py

Proves and builds the library and tones where they have changed, and builds examples/*.c with clang or gcc. Runs
examples/tones.c and tones on the gate's stroke files and on many that are made or damaged here, and compares what they
print and how they end. Then it runs examples/calls.c, which makes calls of every kind, and compares what that prints with
the numbers of the second program.
"""
import os
import shutil
import subprocess
import sys
import tempfile

import reference

ROOT = os.path.dirname(os.path.dirname(os.path.abspath(__file__)))
LIBRARY = os.path.join(ROOT, "crates/driver/out/libdriver.a")
PROGRAM = os.path.join(ROOT, "crates/tones/out/tones")


def proved(crate, *words):
    """Proves and builds a crate where it has changed."""
    with open(os.path.join(ROOT, "samples/four.stroke"), "rb") as sample:
        folder = os.path.join(ROOT, "crates", crate)
        result = subprocess.run(["rt", *words], cwd=folder, stdin=sample, capture_output=True, check=False)
    if result.returncode != 0:
        sys.exit(result.stdout.decode() + result.stderr.decode() + f"{crate} was not built")


def build(name, folder):
    """examples/NAME.c, linked with the library."""
    compiler = shutil.which("clang") or shutil.which("gcc")
    program = os.path.join(folder, name)
    source = os.path.join(ROOT, "examples", name + ".c")
    words = ["-std=c11", "-O2", "-Wall", "-Wextra", "-Werror", "-I" + os.path.join(ROOT, "include")]
    subprocess.run([compiler, *words, source, LIBRARY, "-o", program], check=True)
    return program


def made(numbers):
    """A stroke file of any length, with or without pressures and notes."""
    n = (1 + numbers.below(512), 2 ** numbers.below(10))[numbers.below(2)]
    path = reference.noise(n, numbers.below(2**31))
    pressure = [numbers.below(1024) for _ in range(n)] if numbers.below(2) else None
    return reference.encode(path, pressure, bytes(numbers.below(256) for _ in range(numbers.below(20))))


def damaged(data, numbers):
    """The same with some bytes changed, lost or added; the trailer is hit as often as all that is before it."""
    data = bytearray(data)
    for _ in range(1 + numbers.below(3)):
        at = numbers.below(len(data)) if numbers.below(2) else len(data) - 1 - numbers.below(min(8, len(data)))
        kind = numbers.below(4)
        if kind == 0 and len(data) > 1:
            del data[at]
        elif kind == 1:
            data.insert(at, numbers.below(256))
        elif kind == 2:
            data[at] ^= 1 << numbers.below(8)
        else:
            data[at] = numbers.below(256)
    return bytes(data)


def files():
    numbers = reference.Numbers(20)
    listed = list(reference.strokes().values())
    listed += [data[:k] for data in listed[:3] for k in range(len(data))]
    for _ in range(300):
        data = made(numbers)
        listed += [data, damaged(data, numbers), damaged(data, numbers)]
    return listed


def ended(program, data):
    result = subprocess.run([program], input=data, capture_output=True, check=False)
    return result.stdout, result.returncode


def compare_tones(folder):
    example = build("tones", folder)
    granted = refusals = 0
    for data in files():
        printed, status = ended(example, data)
        if (printed, status) != ended(PROGRAM, data):
            sys.exit(f"examples/tones.c and tones differ on {data.hex()}")
        if printed.decode().splitlines() != reference.printed_standard(data):
            sys.exit(f"examples/tones.c and the second program differ on {data.hex()}")
        if status == 0:
            granted += 1
        else:
            refusals += 1
    print(f"tones: the same on {granted} files that are granted and {refusals} that are refused")


# --- what examples/calls.c prints, call by call


def word(i):
    return 2654435761 * (i + 1) % 2**32


def shown(x, values):
    return "".join(" " + x.text(a) for a in values)


def spectra_lines():
    lines = []
    words = lambda first: [word(first + i) for i in range(12)]
    pairs = lambda first: list(zip(words(first), words(first + 100)))
    for x, a, b in ((reference.PRESSURE, words(0), words(100)), (reference.PATH, pairs(200), pairs(400))):
        lines += [f"convolve {x.name}", shown(x, reference.convolution(x, a, b)), f"transform {x.name}"]
        if x is reference.PRESSURE:
            lines.append(f"turns {12 * (2 + 6)}")
        tones = reference.defining_sums(x, a)
        back = shown(x, reference.inverse_sums(x, tones))
        lines += [shown(x, tones), f"inverse {x.name}", back]
    return lines + ["short work: refused 32 3 0", "short list: refused 31 3 0", back]


def run_lines():
    x = reference.FIXED
    samples = [(1024 * (100 * i - 300), 1024 * (1023 - 50 * i * i)) for i in range(8)]
    run = reference.Run(reference.SPAN, [4, 2], samples, 16)
    lines = ["deal", shown(x, run.buffer())]
    for _ in range(2):
        run.stage(reference.SPAN, 8, 16)
        lines += ["finish: refused 52 3 0", "stage", shown(x, run.buffer())]
    lines += ["finish", f"turns {run.finish()}"]
    lines += ["stage past the last: refused 51 3 0", "stage far past it: refused 51 3 0", "stage of too many: refused 21 2 0"]
    lines += ["finish outside: refused 22 2 1", "deal too long: refused 23 2 3", "deal in no part: refused 24 3 3"]
    lines += ["stage on fewer: refused 31 3 0", shown(x, run.buffer())]
    return lines + [shown(x, [(0, 0)] * 5 + run.buffer()[5:])]


def tone_lines(samples):
    tones = reference.defining_sums(reference.PRESSURE, samples)
    return [line for tone in tones for line in ("tone", f" {tone}")] + [f"tone: refused 41 3 {len(samples)}"]


def sheet_lines():
    assert reference.defining_sums(reference.PRESSURE, [3, 5]) == [8, 2013265919]
    lines = ["open: refused 31 3 0", "open", "n 2"] + tone_lines([3, 5])
    lines += ["edit"] + tone_lines([3, 6]) + ["shift"] + tone_lines([6, 3])
    lines += ["lay: refused 31 3 0", "lay", "mirror"] + tone_lines([16, 2])

    x = reference.PATH
    samples = [(1, 2), (3, 4), (x.modulus - 1, 1023)]
    samples = samples[2:] + samples[:2]
    samples = [samples[0], samples[2], samples[1]]
    samples = [x.sum(a, b) for a, b in zip(samples, [(word(0), 1), (2, word(1)), (0, 0)])]
    lines += [call + " path" for call in ("open", "edit", "shift", "mirror", "lay")] + ["shift path: refused 41 3 3"]
    for tone in reference.defining_sums(x, samples):
        lines += ["tone path", shown(x, [tone])]
    return lines + [shown(x, samples)]


def matched(a, b):
    """The pair R of each lag."""
    pairs = []
    for lag in range(len(a)):
        meeting = [(a[t], b[(t + lag) % len(a)]) for t in range(len(a))]
        pairs.append((sum(x * u + y * v for (x, y), (u, v) in meeting), sum(x * v - y * u for (x, y), (u, v) in meeting)))
    return pairs


def lent_lines():
    a = [(300 * i - 700, 60 * i * i - 1000) for i in range(6)]
    b = [(211 * i - 1000, 1023 - 400 * i + 7 * i * i) for i in range(6)]
    p = [7 * i * i + 3 * i for i in range(6)]
    q = [900 - 31 * i * i for i in range(6)]
    assert matched([(0, 1)], [(1, 0)]) == [(0, -1)]
    lines = ["match", "lags 0 0 0 sum 0 -1", "match"]
    sums = matched(a, b)
    firsts = [x for x, _ in sums]
    presses = [sum(p[t] * q[(t + lag) % 6] for t in range(6)) for lag in range(6)]
    lines.append(f"lags {firsts.index(max(firsts))} 1 {presses.index(max(presses))}")
    lines += [f"sum {x} {y}" for x, y in sums]
    lines += ["match 5: refused 24 3 5", "match room: refused 31 3 0", "match long: refused 24 3 513", "match far: refused 33 3 1"]
    data = reference.encode(a, p)
    lines += ["write", f"{data.hex()} {len(data)}", "write room: refused 34 3 0", "write far: refused 33 3 1"]
    lines += ["write long: refused 31 3 0", "write pressures: refused 31 3 0", "read: refused 31 3 0", "read", "heading 6 6"]
    return lines + [f"{x} {y} {u}" for (x, y), u in zip(a, p)]


def compare_calls(folder):
    printed, status = ended(build("calls", folder), b"")
    expected = spectra_lines() + run_lines() + sheet_lines() + lent_lines() + ["pressure 1023"]
    lines = printed.decode().splitlines()
    for i, (line, due) in enumerate(zip(lines, expected), 1):
        if line != due:
            sys.exit(f"examples/calls.c, line {i}: {line!r} where {due!r} is due")
    if status != 0 or len(lines) != len(expected):
        sys.exit(f"examples/calls.c: {len(lines)} lines and status {status} where {len(expected)} lines are due")
    print(f"calls: {len(lines)} lines as they are due")


def main():
    proved("driver", "lib")
    proved("tones", "run")
    with tempfile.TemporaryDirectory() as folder:
        compare_tones(folder)
        compare_calls(folder)


main()
