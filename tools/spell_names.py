#!/usr/bin/env python3
"""Spells the repository's own definitions, lemmas, fields and local names in snake case.

usage: python3 tools/spell_names.py     once, at the top of the repository, after the toolchain's own script

A name with a dash is the repository's own where a file of specs/ or a lemma file right in proofs/ writes it and does not
take it from a library, or where an answer file declares it. Names of generated goals and steps keep their dashes here, and so
do names that a file takes from a library. Text in comments is turned only between backquotes.
"""
import collections
import glob
import re
import sys

TOKEN = re.compile(r"[^\s:(){}.,;«»`]+")
DECLARED = re.compile(r"^\s*(?:(?:pub|abbrev|unfoldable|record|data) )*([^\s:(){}.,;«»]+)(?: \([^)]*\)| \{[^}]*\})* :(?: (.*))?$")
USE = re.compile(r"^\s*(?:ghost )?(?:pub )?use ([^{\s]+)\.\{([^}]*)\}")
# Names with a capital inside, of whatever file: an alias that is written as a type is and names a word, and the lemmas on
# two words of the library.
AS_WORDS = {
    "Laid-on": "laid_on",
    "natAbs_neg": "nat_abs_neg",
    "natAbs_add": "nat_abs_add",
    "natAbs_sum": "nat_abs_sum",
    "natAbs_mul_add": "nat_abs_mul_add",
    "natAbs-neg": "nat_abs_neg",
    "natAbs-add": "nat_abs_add",
    "natAbs-sum": "nat_abs_sum",
    "natAbs-mul-add": "nat_abs_mul_add",
    "getD_nth": "get_or_nth",
    "getD-nth": "get_or_nth",
    "getD_map_of": "get_or_map_of",
    "getD-map-of": "get_or_map_of",
}
# Two words of crate stroke have the names of the words for every layer's refusals. The file that has both calls them thus.
APART = {"number_of": "file_number", "place_of": "file_place"}
APART_FROM = "Rattle.stroke.specs.Faults"


def read(path):
    with open(path, encoding="utf-8") as f:
        return f.read()


def turned(name):
    return AS_WORDS.get(name, name.replace("-", "_"))


def dashed(name):
    return re.match(r"[A-Za-z]", name) and "-" in name and not name.endswith("-")


def parts(line, rust):
    """The code of a line, and its comment."""
    cut = line.find("//" if rust else "-- ")
    return (line, "") if cut < 0 else (line[:cut], line[cut:])


def library_names(text, crates):
    """The names that a file takes from a library, and the names that it gives them."""
    theirs, given = set(), set()
    for line in text.split("\n"):
        m = USE.match(line)
        if not m:
            continue
        own = re.match(r"Rattle\.(" + "|".join(crates) + r")\.", m.group(1))
        for item in m.group(2).split(","):
            name, _, other = item.strip().partition(" as ")
            if other:
                given.add(other)
            if not own:
                theirs.add(name)
    return theirs, given


def is_answer(path):
    return "/proofs/" in path and path.count("/") > 3


def collect(files, crates):
    names = collections.defaultdict(set)
    for path in files:
        text = read(path)
        theirs, given = library_names(text, crates)
        for line in text.split("\n"):
            code, _ = parts(line, path.endswith(".rt"))
            if path.endswith(".rt"):
                found = [n for n in given if n in code]
            elif is_answer(path):
                m = DECLARED.match(code)
                found = [m.group(1)] if m and not (m.group(2) or "").startswith("goal.") else []
            else:
                found = TOKEN.findall(code)
            for n in found:
                if n not in theirs:
                    names[n].add(path)
    return names


def main():
    antt = sorted(glob.glob("crates/*/specs/**/*.antt", recursive=True) + glob.glob("crates/*/proofs/**/*.antt", recursive=True))
    rust = sorted(glob.glob("crates/*/src/**/*.rt", recursive=True))
    lines = [line for line in read("crates.txt").split("\n") if line.strip() and not line.startswith("#")]
    crates = [line.split(":")[0].split()[0] for line in lines]
    seen = collect(antt + rust, crates)
    names = {n for n in seen if dashed(n)} | set(AS_WORDS)
    for n in sorted(names):
        both = seen[n] & seen.get(turned(n), set())
        if both:
            print(f"falls together: {n} and {turned(n)} in {', '.join(sorted(both))}", file=sys.stderr)
    for path in antt + rust:
        text = read(path)
        theirs, _ = library_names(text, crates)

        apart = not path.startswith("crates/stroke/") and APART_FROM + ".{number_of, place_of}" in text

        def turn(m):
            w = m.group(0)
            if apart and w in APART:
                return f"{w} as {APART[w]}" if APART_FROM in m.string else APART[w]
            step = is_answer(path) and re.search(r"(?<![^\s(])[cw]\.$", m.string[: m.start()])
            return turned(w) if w in names and w not in theirs and not step else w

        out = []
        for line in text.split("\n"):
            code, note = parts(line, path.endswith(".rt"))
            out.append(TOKEN.sub(turn, code) + re.sub(r"`[^`]*`", lambda q: TOKEN.sub(turn, q.group(0)), note))
        new = "\n".join(out)
        if new != text:
            with open(path, "w", encoding="utf-8") as f:
                f.write(new)


main()
