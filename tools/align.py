#!/usr/bin/env python3
"""Sets what the heads of spec files say of each definition in one column again, after names got longer.

usage: align.py [FOLDER]      FOLDER has crates/; the present folder if none is named
"""

import glob
import os
import re
import sys

ENTRY = re.compile(r"^--   (\S.*?)(  +)(\S.*)$")
MORE = re.compile(r"^--      +(\S.*)$")


def aligned(lines):
    entries = [m for m in map(ENTRY.match, lines) if m]
    if not entries:
        return lines
    # the widest name that stands in the common column, so that a single long one does not push the others
    width = max(len(m[1]) for m in entries if len(m[2]) > 1)
    out, seen = [], False
    for line in lines:
        entry, more = ENTRY.match(line), MORE.match(line)
        if entry and not more:
            out.append(f"--   {entry[1]:{width}}   {entry[3]}")
            seen = True
        elif more and seen:
            out.append("--   " + " " * (width + 3) + more[1])
        else:
            out.append(line)
    return out


def main():
    folder = sys.argv[1] if len(sys.argv) > 1 else "."
    for path in sorted(glob.glob(os.path.join(folder, "crates", "*", "specs", "*.antt"))):
        lines = open(path).read().split("\n")
        head = next((i for i, line in enumerate(lines) if not line.startswith("--")), len(lines))
        turned = aligned(lines[:head]) + lines[head:]
        if turned != lines:
            open(path, "w").write("\n".join(turned))


main()
