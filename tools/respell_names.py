#!/usr/bin/env python3
"""Brings the names of this repository's definitions, facts and lemmas to Rattle's spelling.

usage: python3 tools/respell_names.py [--say]     at the top of the repository, once, right after the kit's port.py

Facts and types are in upper camel case, everything else in snake case. A dash stays in a lemma's name
where it joins the names of two functions that its statement speaks of, as in `length-laid`. Names that
Rattle makes for goals and steps keep their spelling, and so do functions of src/, strings and outputs.
--say lists what would be done and writes nothing.
"""
import collections
import os
import re
import sys

SAY = "--say" in sys.argv
PLAIN = r"[^\s(){}\[\],;.:\"`|=λ→≡]+"
TOKEN = re.compile(r"[^\s(){}\[\],;.:\"`]+")
WORDS = r"(?:(?:abbrev|unfoldable|pub|data|record|ruleset|private)\s+)*"
DEF = re.compile(r"^(\s*)(" + WORDS + r")([^\s:(){},;|\[\]]+)\s*((?:[({][^)}]*[)}]\s*)*):\s+(.*)")
FIELDS = re.compile(r"^(\s+)((?:pub\s+)?)(" + PLAIN + r"(?:\s+" + PLAIN + r")+)\s+:\s+(.*)")
IMPORT = re.compile(r"use ([\w.+'-]+)\.\{([^}]*)\}")
KEYWORDS = {"let", "in", "use", "where", "elim", "module", "pub", "record", "data", "abbrev", "unfoldable", "as"}
LIBRARY = set("length take drop append replicate map reverse nth get_or slice_index set min max ++".split())
# Letters that stand for messages, and names that would fall together with others.
BY_HAND = {
    "Goes_on": "GoesOn", "KC-is": "kc_is", "KS-is": "ks_is", "CH-body": "ch_body", "SH-body": "sh_body", "KE-body": "ke_body",
    "CX-body": "cx_body", "CE-body": "ce_body", "Fc-body": "fc_body", "Fs-body": "fs_body", "Fc-sealable": "fc_sealable",
    "Fs-sealable": "fs_sealable", "T-content": "t_content", "T-is": "t_is", "length-Y": "length_y", "len-T": "len_t",
    "bit-xor": "bit_of_xor",
}


def files(root):
    for top, dirs, names in os.walk(os.path.join(root, "crates")):
        dirs[:] = sorted(d for d in dirs if d != "out")
        for f in sorted(names):
            if f.endswith((".antt", ".rt", ".edit")):
                yield os.path.join(top, f)


def pages(root):
    found = [os.path.join(root, "README.md")]
    docs = os.path.join(root, "docs")
    return found + [os.path.join(docs, f) for f in sorted(os.listdir(docs)) if f.endswith(".md")]


def read(path):
    with open(path, encoding="utf-8") as f:
        return f.read()


def own_defs(root):
    """name -> list of (path, words before it, indent, the rest of the line)"""
    defs = collections.defaultdict(list)
    for p in files(root):
        if not p.endswith(".antt"):
            continue
        for line in read(p).split("\n"):
            if line.lstrip().startswith("--"):
                continue
            m = DEF.match(line)
            if m:
                defs[m.group(3)].append((p, m.group(2), m.group(1), m.group(5)))
                continue
            m = FIELDS.match(line)
            if m and not KEYWORDS & set(m.group(3).split()):
                for n in m.group(3).split():
                    defs[n].append((p, m.group(2), m.group(1), m.group(4)))
    return defs


def camel(name):
    return "".join(w[:1].upper() + w[1:] for w in re.split("[-_]", name))


def snake(name):
    name = re.sub(r"(?<=[a-z0-9])([A-Z])", lambda m: "_" + m.group(1).lower(), name)
    return name.replace("-", "_")


def lemma(name, functions, statement):
    """Joins by a dash where the names of two functions of the statement meet, else by _."""
    said = {snake(t) for t in TOKEN.findall(statement)}
    words = name.split("-")
    parts, i = [], 0
    while i < len(words):
        for j in range(len(words), i, -1):
            one = snake("-".join(words[i:j]))
            known = one == "++" or (one in functions and one in said)
            if known or j == i + 1:
                parts.append((one, known))
                i = j
                break
    out = parts[0][0]
    for (_, before), (b, known) in zip(parts, parts[1:]):
        out += ("-" if (before and known) or b == "++" else "_") + b
    return out


def names(root):
    defs = own_defs(root)
    goals = {n for n, v in defs.items() if any(x[3].startswith("goal.") for x in v)}
    functions = set(LIBRARY)
    for n, v in defs.items():
        if any("/specs/" in x[0] for x in v) and not n[0].isupper():
            functions.add(snake(n))
    to = {}
    for n, v in defs.items():
        if n in goals:
            continue
        if n in BY_HAND:
            to[n] = BY_HAND[n]
        elif n[0].isupper():
            if "-" in n:
                to[n] = camel(n)
        elif "-" in n or re.search(r"[a-z0-9][A-Z]", n):
            in_specs = any("/specs/" in x[0] for x in v)
            to[n] = snake(n) if in_specs else lemma(n, functions, " ".join(x[3] for x in v))
    return {a: b for a, b in to.items() if a != b}, defs


def foreign(text):
    """Names that a file takes from the library or from what Rattle makes."""
    out = set()
    for path, items in IMPORT.findall(text):
        if re.search(r"\.(Goals|Given|declared|contracts)\b", path) or not re.match(r"Rattle\.(?!std\b|core\b)", path):
            for it in items.split(","):
                out.update(w for w in it.split() if w != "as")
    return out


QUOTED = re.compile(r"`[^`\n]*`")


def turn(text, to, skip, kind):
    """kind: rt (no strings, comments by quoted names alone), antt, edit or md (quoted names alone)"""
    swap = lambda t: TOKEN.sub(lambda m: to[m.group(0)] if m.group(0) in to and m.group(0) not in skip else m.group(0), t)
    quoted = lambda t: QUOTED.sub(lambda m: swap(m.group(0)), t)
    if kind == "md":
        return quoted(text)
    comment = "--" if kind == "antt" else "//"
    out = []
    for line in text.split("\n"):
        if line.lstrip().startswith(comment):
            out.append(quoted(line))
            continue
        parts = re.split(r'("(?:[^"\\]|\\.)*")', line) if kind != "antt" else [line]
        out.append("".join(p if i % 2 else swap(p) for i, p in enumerate(parts)))
    return "\n".join(out)


def main():
    root = os.getcwd()
    to, defs = names(root)
    fall = collections.defaultdict(set)
    for a, b in to.items():
        fall[b].add(a)
        if b in defs:
            fall[b].add(b)
    together = {b: s for b, s in fall.items() if len(s) > 1}
    for b, s in sorted(together.items()):
        print("falls together:", b, sorted(s))
    changed = 0
    for p in [*files(root), *pages(root)]:
        kind = p.rsplit(".", 1)[1]
        old = read(p)
        had = set(TOKEN.findall(old))
        skip = foreign(old) if kind in ("rt", "antt") else set()
        new = turn(old, to, skip, kind)
        if kind in ("rt", "antt"):
            for a, b in to.items():
                if a in had and a not in skip and (b in had or any(o in had for o in together.get(b, ()) if o != a)):
                    print("meets:", os.path.relpath(p, root), a, "->", b)
        if new != old:
            changed += 1
            if not SAY:
                with open(p, "w", encoding="utf-8") as f:
                    f.write(new)
    print(len(to), "names,", changed, "files")
    if SAY:
        for a, b in sorted(to.items()):
            print("name:", a, "->", b)


main()
