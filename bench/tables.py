#!/usr/bin/env python3
"""Prints the constant tables of baseline.c, as tools/reference.py makes them: the directions, and the powers of the two roots."""
import os
import sys

sys.path.insert(0, os.path.join(os.path.dirname(os.path.abspath(__file__)), "..", "tools"))
import reference  # noqa: E402

STEP = 64


def printed(kind, name, values):
    words = [f"{{{', '.join(str(w) for w in v)}}}" if isinstance(v, tuple) else str(v) for v in values]
    print(f"static const {kind} {name}[{len(words)}] = {{")
    for i in range(0, len(words), 4):
        print("    " + ", ".join(words[i:i + 4]) + ",")
    print("};\n")


def main():
    print("/* Made by tables.py. */")
    printed("strokes_fixed", "directions", reference.TABLE)
    for x, kind in ((reference.PRESSURE, "uint32_t"), (reference.PATH, "strokes_path")):
        powers = reference.POWERS[x]
        print("#ifdef ONE_TABLE")
        printed(kind, f"{x.name}_powers", powers)
        print("#else")
        printed(kind, f"{x.name}_low", powers[:STEP])
        printed(kind, f"{x.name}_high", powers[::STEP])
        print("#endif\n")


main()
