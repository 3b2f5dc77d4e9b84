#!/usr/bin/env python3
"""Respells this repository's own definitions and lemmas as today's Rattle spells them; run once, after port.py, at the top.

Words that were written lowerCamel become snake_case (getD is the library's get_or); types and modules keep their
capitals. Names that would fall together with another one in scope are told apart first. A file of specs/ or proofs/
must not be named as a type of its crate: such a file is named anew.
"""
import os
import re
import subprocess

# A word's older name beside a lemma's that has the snake case of it: the lemma gives way.
APART = {
    "some_below": "some_below_lem",
    "no_room": "no_room_lem",
    "no_name": "no_name_lem",
    "in_use": "in_use_lem",
    "too_many": "too_many_lem",
}
# Only lemmas are meant there: a function of src/ or its folder keeps its name.
ONLY = {
    "no_room": ["crates/pairing/proofs/"],
    "no_name": ["crates/letters/proofs/lists/all_names/"],
    "in_use": ["crates/growing/proofs/Making.antt", "crates/rules/proofs/ends/end_ok/"],
    "too_many": ["crates/settling/proofs/sweeps/sweep_if_fits/"],
    "some_below": ["crates/"],
}
# crate, folder, module: its new name
FILES = {
    ("letters", "proofs", "Order"): "Ordering",
    ("rules", "specs", "Demand"): "Demands",
    ("admitting", "specs", "Admission"): "Admissions",
}
CAMEL = re.compile(r"(?<![A-Za-z0-9_])([a-z][a-z0-9]*(?:[A-Z][A-Za-z0-9]*)+)")


UNITS = {"kB", "nA", "nB", "nL"}


def snake(m):
    if m.group(1) in UNITS:
        return m.group(0)
    n = m.group(1).replace("getD", "get_or")
    return re.sub(r"(?<=[a-z0-9])([A-Z])", r"_\1", n).lower()


def texts():
    for folder, dirs, files in os.walk("crates"):
        dirs[:] = sorted(d for d in dirs if d != "out")
        for f in sorted(files):
            if f.endswith((".antt", ".rt", ".edit")):
                yield os.path.join(folder, f)
    for page in ["README.md", "docs/BOOK.md", "docs/DECISIONS.md", "docs/EXCEPTIONS.md", "docs/PROMISES.md"]:
        yield page


def main():
    for (crate, part, old), new in FILES.items():
        subprocess.run(["git", "mv", f"crates/{crate}/{part}/{old}.antt", f"crates/{crate}/{part}/{new}.antt"], check=True)
    for path in texts():
        with open(path, encoding="utf-8") as f:
            text = was = f.read()
        if path.endswith(".antt"):
            for old, new in APART.items():
                if any(path.startswith(p) for p in ONLY[old]):
                    text = re.sub(r"(?<![A-Za-z0-9_'.-])" + old + r"(?![A-Za-z0-9_'-])", new, text)
        text = CAMEL.sub(snake, text)
        for (crate, part, old), new in FILES.items():
            text = re.sub(rf"Rattle\.{crate}\.{part}\.{old}(?![A-Za-z0-9_])", f"Rattle.{crate}.{part}.{new}", text)
            if path == f"crates/{crate}/{part}/Lib.antt":
                text = re.sub(rf"\bmod {old}\b", f"mod {new}", text)
        if text != was:
            with open(path, "w", encoding="utf-8") as f:
                f.write(text)


main()
