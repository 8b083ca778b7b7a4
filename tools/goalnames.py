#!/usr/bin/env python3
"""In the answers of crates/, names of steps and goals that come from src/ get the spelling that they have there.

usage: tools/goalnames.py [FOLDER]
"""
import os
import re
import sys

ROOT = os.path.join(sys.argv[1] if len(sys.argv) > 1 else ".", "crates")
WORDS = ["overflow_add", "overflow_sub", "overflow_mul", "overflow_cast", "overflow_shl", "overflow_shr", "overflow_step", "nonzero_div", "nonzero_rem", "slice_bounds", "offset_bounds", "in_default", "in_ok", "in_err", "type_inv"]


def names_of_src():
    names = set(WORDS)
    for folder, dirs, files in os.walk(ROOT):
        dirs[:] = [d for d in dirs if d != "out"]
        if os.path.basename(folder) == "src" or "/src/" in folder:
            for f in files:
                if f.endswith(".rt"):
                    with open(os.path.join(folder, f), encoding="utf-8") as h:
                        names |= set(re.findall(r"\b[a-z][a-z0-9]*(?:_[a-z0-9]+)+\b", h.read()))
    return names


def main():
    names = sorted(names_of_src(), key=len, reverse=True)
    ways = re.compile(r"(?<![\w'])(" + "|".join(re.escape(n.replace("_", "-")) for n in names) + r")(?![\w'])")
    n = 0
    for folder, dirs, files in os.walk(ROOT):
        dirs[:] = [d for d in dirs if d != "out"]
        for f in files:
            if f in ("Answers.antt", "Invariants.antt", "Proof.antt"):
                p = os.path.join(folder, f)
                with open(p, encoding="utf-8") as h:
                    old = h.read()
                new = ways.sub(lambda m: m.group(1).replace("-", "_"), old)
                new = re.sub(r"(?<=in-)((?:err|ok)-)", lambda m: m.group(1), new)
                if new != old:
                    n += 1
                    with open(p, "w", encoding="utf-8") as h:
                        h.write(new)
    print("goalnames: %d files" % n)


main()
