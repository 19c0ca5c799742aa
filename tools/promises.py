#!/usr/bin/env python3
"""Every `pub fn` of a library promises something (`ensures`), demands nothing of its caller (no `requires`), and stands in
the table of docs/PROMISES.md, among the functions of a rule; a method as `Type::name`.

Prints each that does not, and a count; exit status 1 where there is one. Programs (src/main.rt) are left out: what they
print is compared, not promised."""
import pathlib
import re
import sys

PUBLIC = re.compile(r'^( *)pub (?:extern "C" )?fn (\w+)', re.M)
IMPL = re.compile(r"^impl (\w+) \{$", re.M)


def clauses(text, start, indent):
    """The lines between a function's name and its body. As `rt fmt` lays it out, a body starts with a brace alone on its
    line where there are clauses, and else behind the signature."""
    lines = text[start:].split("\n")
    if lines[0].endswith("{") or lines[0].endswith("}"):
        return []
    end = next(k for k, line in enumerate(lines) if re.match(re.escape(indent) + r"(\{$|\).*\{)", line))
    return [re.sub(r"//.*", "", line).strip() for line in lines[1:end]]


def promised(path):
    """The functions that the table of rules names: rule, definition, function, theorems."""
    rows = [line.split(" | ") for line in path.read_text(encoding="utf-8").splitlines() if line.startswith("| ")]
    return {name for row in rows if len(row) == 4 for name in re.findall(r"`([^`]+)`", row[2])}


def full_name(text, found):
    """A function's name, with its type where it is a method: one that is indented stands in the last `impl` before it."""
    if not found.group(1):
        return found.group(2)
    return f"{IMPL.findall(text, 0, found.start())[-1]}::{found.group(2)}"


def offenders(root):
    told = promised(root / "docs/PROMISES.md")
    for path in sorted(root.glob("crates/*/src/**/*.rt")):
        crate = path.relative_to(root).parts[1]
        if (root / "crates" / crate / "src" / "main.rt").exists():
            continue
        text = path.read_text(encoding="utf-8")
        for found in PUBLIC.finditer(text):
            says = clauses(text, found.start(2), found.group(1))
            line = text.count("\n", 0, found.start(2)) + 1
            faults = []
            if any(re.match(r"requires\b", s) for s in says):
                faults.append("requires")
            if not any(re.match(r"ensures\b", s) for s in says):
                faults.append("no ensures")
            name = full_name(text, found)
            if name not in told:
                faults.append("not in docs/PROMISES.md")
            yield f"{path.relative_to(root)}:{line}: {name}", faults


def main():
    root = pathlib.Path(__file__).resolve().parent.parent
    seen = list(offenders(root))
    bad = [(where, fault) for where, faults in seen for fault in faults]
    for where, fault in bad:
        print(f"{where}: {fault}")
    print(f"{len(seen)} public functions, {len(bad)} faults")
    return 1 if bad or not seen else 0


sys.exit(main())
