#!/usr/bin/env python3
"""Fails if docs/PROMISES.md names a file that is not there, or says that a file holds a name which it does not."""
import pathlib
import re
import sys

ROOT = pathlib.Path(__file__).resolve().parent.parent
PLACE = r"[a-z]+/(?:specs|proofs)/[A-Z][A-Za-z]+"
text = (ROOT / "docs/PROMISES.md").read_text()
faults = []


def file_of(place):
    return ROOT / "crates" / (place + (".edit" if "/must-fail/" in place else ".antt"))


for place in re.findall(rf"{PLACE}|[a-z]+/must-fail/[a-z_0-9]+", text):
    if not file_of(place).is_file():
        faults.append(f"there is no {place}")
for names, place in re.findall(rf"((?:`[^`]+`(?:, )?)+) \(({PLACE})\)", text):
    held = file_of(place).read_text() if file_of(place).is_file() else names
    faults += [f"{place} has no {name}" for name in re.findall(r"`([^` ]+)", names) if name not in held]
for fault in faults:
    print(f"docs/PROMISES.md: {fault}", file=sys.stderr)
sys.exit(bool(faults))
