#!/usr/bin/env python3
"""Brings the names of this repository's own definitions and lemmas to one spelling.

usage: tools/respell.py [FOLDER]      FOLDER has crates/ (this folder, if none is given)

Types, and facts spelled as types, are in upper camel case: One-form becomes OneForm. All else is in snake case:
seatCount becomes seat_count, and set-up becomes set_up. Names of src/, names that are generated and names of the
library stay as they are; so do strings and comments. Where names would fall together, the definition has the plain
name, a lemma ends in _lem, a field in _holds and a law in Law; each such name is printed.
"""
import collections
import os
import re
import sys

ROOT = sys.argv[1] if len(sys.argv) > 1 else "."
CRATES = os.path.join(ROOT, "crates")
TOP = re.compile(r"^(?:(?:abbrev|unfoldable|pub) )*(?:(?:data|record|ruleset) )?([^\s:(){}.,;]+)(?=[ \n][^=\n]*?:|$)")
INNER = re.compile(r"^\s+(?:(?:abbrev|unfoldable|pub) )*([^\s:(){}.,;=λ|]+(?: [^\s:(){}.,;=λ|]+)*) : ")
TOKEN = re.compile(r"[^\s(){}\[\].,;@|\"λ]+|\s+|.", re.S)
ANSWERS = ("Answers.antt", "Invariants.antt", "Proof.antt")


def files(ending):
    for folder, dirs, names in os.walk(CRATES):
        dirs[:] = sorted(d for d in dirs if d != "out")
        for name in sorted(names):
            if name.endswith(ending):
                yield os.path.join(folder, name)


def text(path):
    with open(path, encoding="utf-8") as f:
        return f.read()


def respelled(name):
    if name[0].isupper():
        return "".join(part[:1].upper() + part[1:] for part in name.split("-"))
    name = re.sub(r"(?<=[a-z0-9])([A-Z])", lambda m: "_" + m.group(1).lower(), name)
    return name.replace("-", "_")


def code_of(line, mark):
    at = line.find(mark)
    return (line, "") if at < 0 else (line[:at], line[at:])


def declared():
    tops, inners, specs = set(), set(), set()
    for path in files(".antt"):
        answers = os.path.basename(path) in ANSWERS
        lines = text(path).split("\n")
        for line in lines:
            line = code_of(line, "--")[0]
            if not line.strip() or line.startswith(("use ", "pub mod ", "mod ", "module ", "unfolding ")):
                continue
            top = TOP.match(line)
            if top and not line.startswith(" ") and ":" in line:
                name = top.group(1)
                if not (answers and re.search(r": goal\." + re.escape(name) + r"\b", line)):
                    tops.add(name)
                    if "/specs/" in path:
                        specs.add(name)
            inner = INNER.match(line)
            if inner:
                for name in inner.group(1).split(" "):
                    inners.add(name)
    labels = set()
    for path in files(".rt"):
        for label in re.findall(r"\b(?:ensures|requires) ([a-z][a-z0-9_]*) \{", text(path)):
            labels.add(label)
        for label in re.findall(r"\bghost ([a-z][a-z0-9_]*)\b", text(path)):
            labels.add(label)
    return tops, inners, specs, labels


def mapping(tops, inners, specs, labels):
    names = {n for n in tops | inners if re.match(r"[A-Za-z][A-Za-z0-9'_-]*$", n)}
    names = {n for n in names if not re.match(r"(returns|loop|invariant|decreases|in|then|else)-", n) or n in tops}
    turn = {n: respelled(n) for n in names if respelled(n) != n}
    for label in labels:
        if "_" in label:
            turn.setdefault(label.replace("_", "-"), label)
    back = collections.defaultdict(set)
    for old in names:
        back[turn.get(old, old)].add(old)
    for new, olds in sorted(back.items()):
        if len(olds) > 1:
            plain = [n for n in sorted(olds) if n in specs and "-" not in n] or [n for n in sorted(olds) if "-" not in n] or sorted(olds)[:1]
            for old in sorted(olds - {plain[0]}):
                ending = "Law" if new[0].isupper() else "_lem" if old in tops else "_holds"
                turn[old] = new + ending
            print("fell together: %s is %s; %s" % (plain[0], new, "; ".join("%s is %s" % (o, turn[o]) for o in sorted(olds - {plain[0]}))))
    for old in list(turn):
        if turn[old] == old:
            del turn[old]
    again = collections.Counter(turn.get(n, n) for n in names)
    for new, count in again.items():
        if count > 1:
            raise SystemExit("still falls together: " + new)
    return turn


def taken(path, own):
    """The names that a file has from elsewhere: from the library, or from what is generated."""
    out = set()
    for path_, names in re.findall(r"^(?:ghost )?use (Rattle\.\S+?|borrow\S*?|native\S*?|Prim\S*?)\.\{([^}]*)\}", text(path), re.M):
        part = path_.split(".")
        if part[0] == "Rattle" and part[1] in own and "declared" not in part and "Goals" not in part:
            continue
        out |= {n.strip().split(" as ")[0].strip("«»") for n in names.split(",")}
    return out


def turned(path, turn, fields, own):
    skip = taken(path, own)
    mark = "//" if path.endswith(".rt") else "--"
    lines = text(path).split("\n")
    for i, line in enumerate(lines):
        if re.match(r"\s*(pub )?mod ", line):
            continue
        code, rest = code_of(line, mark) if '"' not in line else (line, "")
        foreign = re.match(r"^(?:ghost )?use (\S+?)\.\{", code) or re.match(r"^(?:ghost )?use (\S+)", code)
        if foreign:
            part = foreign.group(1).split(".")
            if not (part[0] == "Rattle" and part[1] in own):
                continue
        out, before, quoted = [], [], False
        for tok in TOKEN.findall(code):
            if tok == '"':
                quoted = not quoted
            new = tok
            bare = tok.strip("«»")
            if not quoted and bare in turn and bare not in skip:
                dotted = bool(before) and before[-1] == "."
                owner = before[-2] if dotted and len(before) > 1 else ""
                if not dotted or owner[:1].isupper() or bare in fields:
                    if not (owner in ("goal", "Goals", "Given") or (dotted and owner in own)):
                        new = tok.replace(bare, turn[bare])
            out.append(new)
            before.append(tok)
        lines[i] = "".join(out) + rest
    return "\n".join(lines)


def main():
    own = set(os.listdir(CRATES))
    tops, inners, specs, labels = declared()
    turn = mapping(tops, inners, specs, labels)
    fields = {n for n in inners} | {l.replace("_", "-") for l in labels}
    n = 0
    for ending in (".antt", ".rt"):
        for path in files(ending):
            old = text(path)
            new = turned(path, turn, fields, own)
            if new != old:
                n += 1
                with open(path, "w", encoding="utf-8") as f:
                    f.write(new)
    print("respelled: %d names in %d files" % (len(turn), n))


main()
