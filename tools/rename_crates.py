#!/usr/bin/env python3
"""Renames the crates whose names are libraries of today's Rattle: hex, log, logbook. Run once, at the top, after respell.py."""

import glob
import os
import re
import subprocess

NAMES = {"hex": "hex_digits", "log": "paper_log", "logbook": "log_book"}

WORDS = "|".join(NAMES)


def write(path, text):
    with open(path, "w", encoding="utf-8") as it:
        it.write(text)


def main():
    for path in sorted(glob.glob("crates/**/*", recursive=True)):
        if "/out/" in path or not path.endswith((".rt", ".antt", ".edit")):
            continue
        with open(path, encoding="utf-8") as it:
            old = it.read()
        new = re.sub(rf"(Rattle[.·])({WORDS})(?=[.·])", lambda m: m[1] + NAMES[m[2]], old)
        if path.endswith((".rt", ".edit")):
            new = re.sub(rf"(?<![\w:])({WORDS})(?=::)", lambda m: NAMES[m[1]], new)
        if new != old:
            write(path, new)
    with open("crates.txt", encoding="utf-8") as it:
        lines = it.read().splitlines(keepends=True)
    for at, line in enumerate(lines):
        if ":" in line and not line.startswith("#"):
            lines[at] = re.sub(r"\w+", lambda m: NAMES.get(m[0], m[0]), line)
    write("crates.txt", "".join(lines))
    for old, new in NAMES.items():
        subprocess.run(["git", "mv", f"crates/{old}", f"crates/{new}"], check=True)
    for crate in sorted(glob.glob("crates/*/")):
        subprocess.run(["rt", "fmt"], cwd=crate, stdout=subprocess.DEVNULL, stderr=subprocess.DEVNULL)


if __name__ == "__main__":
    main()
