#!/usr/bin/env python3
"""Brings the names of definitions and lemmas in specs/ and proofs/, and of the parts of records in specs/, to snake case,
in all files that cite them.

Run at the top of the repository, after the toolchain's port.py. Records, facts, modules and the functions of src/ keep
their names. A second run changes nothing.
"""
import glob
import re

# where the plain name is that of a field, or of a lemma
OTHERWISE = {
    "hasParts": "has_some_part",
    "intervalClass": "class_of_interval",
    "leftIn": "left_in_month",
    "takenOver": "is_taken_over",
    "natAbs-*": "nat_abs-*",
    "natAbs-neg": "nat_abs-neg",
}

# the parts of records in specs/ that had dashes
PARTS = """
never-positive buyer-known seller-known class-known lots-small price-small buyer-room seller-room
lots-balance cash-balances open-months settled-months cash-explained
margin-below margin-rounded baseload-law peakload-law wheat-law
""".split()

DEFINED = re.compile(
    r"^\s*(?:abbrev |unfoldable )?(?:pub )?([a-z][^\s:(){}]*)\s*(?:\([^)]*\)|\{[^}]*\}|\s)*:(?!=)"
)
HUMP = re.compile(r"(?<=[a-z0-9])([A-Z])")
WORD = re.compile(r"[A-Za-z0-9_'ℤℕ][A-Za-z0-9_'ℤℕ*+\-]*")


def files():
    for pattern in ("specs/**/*.antt", "proofs/**/*.antt", "src/**/*.rt"):
        yield from sorted(glob.glob("crates/*/" + pattern, recursive=True))


def names():
    found = {}
    for path in files():
        if not path.endswith(".antt"):
            continue
        with open(path, encoding="utf-8") as text:
            for line in text:
                match = DEFINED.match(line)
                if not match:
                    continue
                name = match.group(1)
                if name in OTHERWISE:
                    found[name] = OTHERWISE[name]
                elif HUMP.search(name) and "-in-" not in name and "-in_" not in name:
                    found[name] = HUMP.sub(lambda m: "_" + m.group(1).lower(), name)
    return found


def main():
    new = names()
    new.update((part, part.replace("-", "_")) for part in PARTS)
    for path in files():
        with open(path, encoding="utf-8") as text:
            old = text.read()
        turned = WORD.sub(lambda m: new.get(m.group(0), m.group(0)), old)
        if turned != old:
            with open(path, "w", encoding="utf-8") as out:
                out.write(turned)
    for name in sorted(new):
        print(name, "->", new[name])


main()
