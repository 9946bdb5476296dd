#!/usr/bin/env python3
"""Moves files of theorems from specs/ to proofs/ in the crates whose must-fail edits turn a definition, and the paths that name them everywhere.

Where an edit of a definition breaks a theorem in specs/, the edit is read as bad; from proofs/ the theorem refuses it. A second run changes nothing.
"""

import glob
import os
import re

MOVED = {
    "job": ["JobLaws", "ValidationLaws"],
    "licences": ["LicenceLaws"],
    "minutes": ["MinutesLaws"],
    "planning": ["Logic", "PathLaws", "Theory", "SearchLaws", "ProgressLaws", "ExpansionLaws", "ExpansionSteps", "DemandLaws", "FactLaws", "ColumnLaws"],
    "marked_cases": ["Computed", "PairsComputed"],
    "runs": ["Cases"],
    "table": ["OffsetLaws", "PairLaws", "ReadLaws", "RoundTripLaws"],
    "team_planner": ["TeamLaws", "PromiseLaws"],
}


def read(path):
    with open(path, encoding="utf-8") as f:
        return f.read()


def write(path, text):
    with open(path, "w", encoding="utf-8") as f:
        f.write(text)


for crate, names in MOVED.items():
    lib = f"crates/{crate}/specs/Lib.antt"
    to = f"crates/{crate}/proofs/Lib.antt"
    for name in names:
        was, now = f"crates/{crate}/specs/{name}.antt", f"crates/{crate}/proofs/{name}.antt"
        if os.path.exists(was):
            os.makedirs(f"crates/{crate}/proofs", exist_ok=True)
            os.rename(was, now)
        line = f"pub mod {name}\n"
        text = read(lib)
        if line in text:
            write(lib, text.replace(line, ""))
            write(to, (read(to) if os.path.exists(to) else "") + line)

paths = re.compile(r"Rattle\.(" + "|".join(MOVED) + r")\.specs\.(\w+)")


def moved(m):
    return f"Rattle.{m.group(1)}.proofs.{m.group(2)}" if m.group(2) in MOVED[m.group(1)] else m.group(0)


for path in glob.glob("crates/*/*/**/*.antt", recursive=True) + glob.glob("crates/*/src/**/*.rt", recursive=True) + glob.glob("**/*.edit", recursive=True):
    if "/out/" in path:
        continue
    text = read(path)
    new = paths.sub(moved, text)
    if path.endswith(".edit"):
        crate = next((c for c in MOVED if f"/{c}/" in "/" + path), None)
        if crate:
            new = re.sub(r"(?m)^file: specs/(\w+)\.antt$", lambda m: f"file: proofs/{m.group(1)}.antt" if m.group(1) in MOVED[crate] else m.group(0), new)
    if new != text:
        write(path, new)
