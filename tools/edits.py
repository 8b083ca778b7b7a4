#!/usr/bin/env python3
"""Says which must-fail edits no longer fit the text that they change: each 'old' text stands once in its file.

usage: tools/edits.py [FOLDER]
"""
import os
import sys

ROOT = os.path.join(sys.argv[1] if len(sys.argv) > 1 else ".", "crates")


def main():
    unfit = all_edits = 0
    for crate in sorted(os.listdir(ROOT)):
        folder = os.path.join(ROOT, crate, "must-fail")
        for name in sorted(os.listdir(folder)) if os.path.isdir(folder) else []:
            if not name.endswith(".edit"):
                continue
            all_edits += 1
            texts, file = {}, None
            with open(os.path.join(folder, name), encoding="utf-8") as h:
                for line in h.read().splitlines():
                    word, _, rest = line.partition(": ")
                    if word == "file":
                        file = os.path.join(ROOT, crate, rest)
                    elif word == "old":
                        if file not in texts:
                            with open(file, encoding="utf-8") as f:
                                texts[file] = f.read()
                        times = texts[file].count(rest)
                        if times != 1:
                            unfit += 1
                            print("%s/%s: %d times: %s" % (crate, name, times, rest))
                        old = rest
                    elif word == "new":
                        texts[file] = texts[file].replace(old, rest)
    print("%d edits, %d that do not fit" % (all_edits, unfit))
    sys.exit(1 if unfit else 0)


main()
