#!/usr/bin/env python3
"""Lists the must-fail edits whose old text does not stand exactly once: python3 tools/edits.py [CRATE..], at the top of the repository."""
import glob
import os
import sys


def problem(crate, path):
    file, texts, old = None, {}, None
    for line in open(path, encoding="utf-8").read().split("\n"):
        if line.startswith("file: "):
            file = os.path.join("crates", crate, line[6:].strip())
            if not os.path.isfile(file):
                return f"no file {file}"
            texts.setdefault(file, open(file, encoding="utf-8").read())
        elif line.startswith("old: "):
            old = line[5:]
            n = texts[file].count(old)
            if n != 1:
                return f"{n} times in {file}: {old}"
        elif line.startswith("new: ") or line == "new:":
            texts[file] = texts[file].replace(old, line[5:], 1)
    return None


bad = 0
for crate in sys.argv[1:] or sorted(os.listdir("crates")):
    for path in sorted(glob.glob(f"crates/{crate}/must-fail/*.edit")):
        said = problem(crate, path)
        if said:
            bad += 1
            print(f"{path}: {said}")
print(f"edits: {bad} do not stand")
