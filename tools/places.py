#!/usr/bin/env python3
"""Counts the places of docs/DESIGN-PASS.md in crates/*/src, one row a point: `tools/places.py [ROOT]`, with -v each place.

Some points are found by form (an enum with a case `Refused`, a `while`), others by names that a reading of src/ gave: the
lists below. A place beside which a comment says why it stays (`// Stays: ..`, in the lines just above it or at its head)
is counted apart, as kept."""
import pathlib
import re
import sys

FUNCTION = re.compile(r"^( *)(?:pub(?:\(crate\))? )?(?:const )?(?:extern \"C\" )?fn (\w+)(?:<[^>]*>)?\((.*?)\)(?: ->| where|$| \{|\n)", re.M | re.S)
STAYS = "// Stays:"


def functions(text):
    """Each function's start, name, parameters and whole text."""
    for found in FUNCTION.finditer(text):
        end = re.compile(r"^" + found.group(1) + r"(?:\}|.*\{ *.* *\})$", re.M).search(text, found.end() - 1)
        yield found.start(), found.group(2), found.group(3), text[found.start() : end.end() if end else len(text)]


def code(whole):
    """A function's text without comments, clauses and ghost lines."""
    whole = re.sub(r"//.*", "", whole)
    return re.sub(r"^ *(?:requires|ensures)\b.*?\}\n(?= *(?:requires|ensures|\{))", "", whole, flags=re.M | re.S)


def shape(whole):
    """What is left of a function where its own names, its types and its numbers are left out."""
    body = code(whole)
    body = re.sub(r"\b(?:u8|u16|u32|u64|usize|i32|i64|f64)\b|\b[A-Z]\w*\b", "T", body)
    body = re.sub(r"\b[a-z_]\w*\b", "x", re.sub(r"\b\d[\d_]*\b", "0", body))
    return re.sub(r"\s+", "", body)


ENUM = re.compile(r"^(?:pub(?:\(\w+\))? )?enum \w+(?:<[^>]*>)? \{.*?^\}", re.M | re.S)
FLAG = re.compile(r"^.*\b(?:first|have|sound)\b: (?:bool|true)|^.*let mut (?:have|sound)\b.*", re.M)
NUMBER = re.compile(r"^.*(?:return (?:1|15);|^    1$|=> 255,|\.number\(\)|\b(?:\w*compression|tile_type|kind): u8\b).*", re.M)
LOOP = re.compile(r"^ *(?:while\b|loop\b|for \w+ in [^{]*\.\.).*", re.M)
EXPRESSION = re.compile(r"^ *(?:pub(?:\(crate\))? )?fn \w+\([^)]*\) -> (?:u8|u16|u32|u64|usize|i32|bool|f64)\b", re.M)
HAND = ("wide", "byte", "byte_of", "signed_of", "bits_of", "u32_at", "u64_at", "put_u32", "put_u64", "size", "steps", "same", "bad_magic", "least", "less",
        "least_of", "starts_with", "number", "slot64", "slot32", "power", "put_two", "put_three", "put_four", "put_bytes", "digits", "hex", "refused")
TOGETHER = (("ids", "runs", "lengths", "offsets"), ("id", "run", "length"), ("id", "run_length", "length", "offset"),
            ("root", "metadata", "tiles", "leaves"), ("first", "offset", "length"), ("skip", "left"))


def places(path, text):
    """(point, line, what) for each place of a file."""

    def at(position):
        return text.count("\n", 0, position) + 1

    for found in ENUM.finditer(text):
        if "Refused(Refusal)" in found.group(0):
            yield 1, at(found.start()), "enum: " + found.group(0).split("{")[0]
    for pattern in (FLAG, NUMBER):
        for found in pattern.finditer(text):
            yield 1, at(found.end()), found.group(0).strip()
    for found in LOOP.finditer(text):
        yield 3, at(found.end()), found.group(0).strip()
    for start, name, parameters, whole in functions(text):
        names = re.findall(r"\b(\w+):", parameters)
        if name in HAND:
            yield 4, at(start), "fn " + name
        for group in TOGETHER:
            if set(group) <= set(names):
                yield 5, at(start), f"fn {name}: {', '.join(group)}"
                break
        if re.search(r"\b(?:count|n): (?:usize|u64)\b", parameters) and re.search(r": &(?:mut )?\[", parameters):
            yield 6, at(start), f"fn {name}: a length beside slices"
        if re.search(r"\bmatch kind\b|\bkind ==", whole):
            yield 7, at(start), "fn " + name


def main():
    words = [w for w in sys.argv[1:] if w != "-v"]
    root = pathlib.Path(words[0]) if words else pathlib.Path(__file__).resolve().parent.parent
    found, shapes = [], {}
    for path in sorted(root.glob("crates/*/src/**/*.rt")):
        text = path.read_text(encoding="utf-8")
        lines = text.split("\n")
        for point, line, what in places(path, text):
            found.append((point, path.relative_to(root), line, what, lines))
        for start, name, _, whole in functions(text):
            if code(whole).count("\n") >= 3 and path.parts[-3] != "pmtiles_c":
                shapes.setdefault(shape(whole), []).append((path.relative_to(root), text.count("\n", 0, start) + 1, name, lines))
    for group in shapes.values():
        if len(group) > 1:
            for path, line, name, lines in group:
                found.append((2, path, line, "fn " + name, lines))
    answers = [p for p in root.glob("crates/*/proofs/**/*.antt")]
    for path in sorted(answers):
        text = path.read_text(encoding="utf-8")
        for k, line in enumerate(text.split("\n")):
            if re.match(r"pub \S+ : goal\.", line):
                found.append((8, path.relative_to(root), k + 1, line, [STAYS] * (k + 2)))
    for point in range(1, 9):
        here = [f for f in found if f[0] == point]
        kept = [f for f in here if point != 8 and any(STAYS in row for row in f[4][max(0, f[2] - 5) : f[2] + 1])]
        print(f"point {point}: {len(here)}" + (f", of which {len(kept)} say why they stay" if kept else ""))
        if "-v" in sys.argv:
            for f in sorted(here, key=lambda f: (str(f[1]), f[2])):
                print(f"  {f[1]}:{f[2]}: {f[3]}" + ("  [stays]" if f in kept else ""))


main()
