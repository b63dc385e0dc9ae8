#!/usr/bin/env python3
"""Brings the repository's own definitions and lemmas to today's spelling, after port.py: camelCase to snake_case, and crate hex to hex_reader.

usage: python3 tools/respell.py     once, at the top, right after port.py and before any edit by hand

Names of Rust (functions, types, fields), exported C names and strings are in snake case or upper camel case already, so no rule touches them.
Where two names would fall together, SAID names what is written instead, and LEMMAS the lemmas that give way.
"""
import os
import re
import subprocess
import sys

TOKEN = re.compile(r"(?<![\w'])[A-Za-z_][A-Za-z0-9_']*")
# Names that would fall together with a field, a crate or a module of that name.
SAID = {
    "rowBytes": "row_bytes_of",
    "rowsPerMacro": "rows_per_macro_of",
    "levelWord": "level_word_of",
    "hexFormat": "intel_hex",
    "readCall": "after_read_call",
    "writeCall": "after_write_call",
    "startCall": "after_start_call",
    "stepCall": "after_step_call",
}
# Lemmas and fields that would fall together with a definition's new name, by the folder or file that they are seen in.
LEMMAS = [
    ("flow/proofs/Machine.antt", "back_from", "back_from_lem"),
    ("purposes/proofs/Laws.antt", "by_level", "by_level_lem"),
    ("hex_writer/specs/Examples.antt", "end_line", "last_line"),
    ("hex_writer/proofs/Examples.antt", "end_line", "last_line"),
    ("moves/", "in_reach", "in_reach_lem"),
    ("call_moves/", "in_reach", "in_reach_lem"),
    ("bench_memory/", "list_at", "list_at_lem"),
    ("flow/", "same_word", "same_word_lem"),
]


def snake(name):
    if name in SAID:
        return SAID[name]
    name = re.sub(r"([a-z0-9'])([A-Z])", r"\1_\2", name)
    return re.sub(r"([A-Z])([A-Z][a-z])", r"\1_\2", name).lower()


def files(root):
    for folder, dirs, names in os.walk(root):
        dirs[:] = sorted(d for d in dirs if d not in ("out", ".git", "target"))
        for name in sorted(names):
            yield os.path.join(folder, name)


def read(path):
    with open(path, encoding="utf-8") as f:
        return f.read()


def camel_names(root):
    """The names of definitions, lemmas, fields and variables in camel case, in what a proof reads."""
    found = set()
    for path in files(os.path.join(root, "crates")):
        if path.endswith(".antt"):
            text = re.sub(r"--.*", "", read(path))
            found |= {w for w in TOKEN.findall(text) if w[0].islower() and re.search("[A-Z]", w)}
    return found


def main():
    root = "."
    if not os.path.exists("crates.txt"):
        sys.exit("respell: no crates.txt here")
    names = {old: snake(old) for old in camel_names(root)}
    if not names:
        sys.exit("respell: nothing in camel case is left")
    turned = 0
    for path in files(root):
        shown = os.path.relpath(path, root)
        if not path.endswith((".antt", ".rt", ".edit")):
            continue
        was = text = read(path)
        for place, old, new in LEMMAS:
            if shown.startswith("crates/" + place):
                text = re.sub(r"(?<![\w'])%s(?![\w'])" % old, new, text)
        text = TOKEN.sub(lambda m: names.get(m.group(0), m.group(0)), text)
        text = re.sub(r"Rattle\.hex\.", "Rattle.hex_reader.", text)
        if path.endswith((".rt", ".edit")):
            text = re.sub(r"(?<![\w:.])hex::(?=\w)", "hex_reader::", text)
        if text != was:
            turned += 1
            with open(path, "w", encoding="utf-8") as f:
                f.write(text)
    if os.path.isdir("crates/hex"):
        os.rename("crates/hex", "crates/hex_reader")
    text = read("crates.txt")
    text = re.sub(r"(?<![\w])hex(?![\w])", "hex_reader", text)
    with open("crates.txt", "w", encoding="utf-8") as f:
        f.write(text)
    print(f"respell: {len(names)} names, {turned} files")


main()
