#!/usr/bin/env python3
"""Lists the places in src/ that may be in an older form: `places.py` counts them, `places.py FORM` prints those of one form.

A line that is printed is a place to look at; docs/DESIGN-PASS.md says of each what it became or why it stays.
The exported functions of crate driver are left out, except where they are counted as a whole.
"""
import collections
import pathlib
import re
import sys

CRATES = pathlib.Path(__file__).resolve().parent.parent / "crates"


def lines():
    for path in sorted(CRATES.glob("*/src/**/*.rt")):
        crate = path.relative_to(CRATES).parts[0]
        for number, line in enumerate(path.read_text().splitlines(), 1):
            if not line.lstrip().startswith("//"):
                yield crate, f"{path.relative_to(CRATES)}:{number}", line


def matching(pattern, crates=lambda crate: crate != "driver"):
    rule = re.compile(pattern)
    return [f"{place}: {line.strip()}" for crate, place, line in lines() if crates(crate) and rule.search(line)]


def kinds():
    """Enums of one's own, flags in structs, numbers that say a kind or which field."""
    return matching(
        r"^(pub(\(crate\))? )?enum |^    (pub(\(crate\))? )?\w+: bool,|pressed: usize|u64,$"
        r"|fn (number|layer)\b|-> Option<(usize|\(usize, usize\))>"
    )


KEYWORDS = set("as bool const else enum false fn for if impl in let loop match mut pub return self Self static struct true u8 u16 u32 u64 i16 i32 i64 usize while Ok Err Some None Result Option".split())


def shape(code):
    """The code with every name and number in the order of its first use, so that twins come to the same."""
    names = {}
    words = re.findall(r"[A-Za-z_]\w*|\d[\w]*|'[^']'|\"[^\"]*\"|\S", code)
    return " ".join(w if w in KEYWORDS or not re.match(r"[\w'\"]", w) else names.setdefault(w, f"n{len(names)}") for w in words)


def functions():
    """Each function with its body, without its contract."""
    for path in sorted(CRATES.glob("*/src/**/*.rt")):
        place = path.relative_to(CRATES)
        name = body = None
        for number, line in enumerate(path.read_text().splitlines(), 1):
            line = re.sub(r"//.*", "", line)
            found = re.match(r"( *)(?:pub(?:\(crate\))? )?fn (\w+)", line)
            if found:
                indent, name, body = found[1], f"{place}:{number}: {found[2]}", None
            if name and line == indent + "}":
                yield place.parts[0], name, body
                name = None
            elif name and body is not None:
                body.append(line)
            elif name and (line == indent + "{" or line.endswith(" {")):
                body = []


def twins():
    """Functions of two lines or more whose bodies differ only in names and numbers."""
    found = collections.defaultdict(list)
    for crate, place, body in functions():
        if crate != "driver" and len(body) > 1:
            found[shape("\n".join(body))].append(place)
    return [f"{n}. {place}" for n, group in enumerate(sorted(g for g in found.values() if len(g) > 1), 1) for place in group]


def counted():
    """Loops over a range, and numbers that are counted on by hand."""
    return matching(r"\bfor \w+ in .*\.\.|\bwhile |\bloop \{|\+= ")


def by_hand():
    """Conversions, order, equality, copying and printing written out."""
    return matching(
        r"impl(<.*>)? (From|TryFrom|PartialEq|PartialOrd|Ord|Eq|Clone|Copy|Default|Display|Debug|FromStr)\b"
        r"|\bNone => (None|false|0|Fixed|Counts|\{?$)|\bSome\(_\) => true|else \{ None \}|-> (Status|Lags|Counts|Sum)$"
    )


def repeated():
    """Clauses that stand in three functions or more of one crate, whatever the parameter is called."""
    found = collections.defaultdict(list)
    for crate, place, line in lines():
        clause = re.match(r"\s*(?:requires|ensures) (?:\w+ )?\{ (.*) \}", line)
        if clause and crate != "driver":
            fact = re.sub(r"\b\w+(?:\.\w+)*\.(now|old|new)\b", r"_.\1", clause[1])
            found[crate, fact].append(f"{place}: {line.strip()}")
    rows = []
    for (_, fact), here in sorted(found.items()):
        one_value = "result ≡" not in fact and "_.new" not in fact
        if len(here) > 2 and one_value:
            rows += here
    return rows


def beside():
    """Arrays that are filled up to a length, and the lengths and lists that go along with others."""
    return matching(r"; ?(MOST_\w+|N)\]|^    (pub(\(crate\))? )?(count|len): usize,$|^    (pub(\(crate\))? )?(u|v|path|pressure): \[")


def switches():
    """Choices of what to run by a word, and functions that are handed on."""
    return matching(r'^\s*"\w+" =>|\bfn\(|\bdyn\b|\bimpl Fn')


def proofs():
    """Files of answers."""
    return [str(path.relative_to(CRATES)) for path in sorted(CRATES.glob("*/proofs/**/*.antt")) if path.name != "Lib.antt"]


FORMS = {form.__name__: form for form in (kinds, twins, counted, by_hand, repeated, beside, switches, proofs)}

if len(sys.argv) > 1:
    print("\n".join(FORMS[sys.argv[1]]()))
else:
    for name, form in FORMS.items():
        print(f"{name:9} {len(form()):4}  {form.__doc__}")
