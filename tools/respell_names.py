#!/usr/bin/env python3
"""Brings the repository's own names in specs/ and proofs/ to the spelling of today's Rattle, once, after the toolchain's port script.

usage: python3 tools/respell_names.py      at the top of the repository

Words (functions, fields, lemmas) get snake case, and facts that are named as types get camel case: `bodyCheck` becomes `body_check`, `Opening-law`
becomes `OpeningLaw`, `x-end-is` becomes `x_end_is`. A single capital letter of the scheme (X, Y, C, S, Z) is kept: `X-first` becomes `X_first`.
Names of src/, goals that Rattle names, names of the library, and file names stay as they are. The script stops before it writes anything if a new
name is in use already, or if two names would fall together. The crate `hex` is named as a library of the toolchain, and becomes `hexits`.
"""

import os
import re
import subprocess
import sys

TOKEN = re.compile(r"[^\s(){}\[\],;.@\"]+")
SIGNATURE = re.compile(r"^\s*(?:(?:abbrev|unfoldable|pub) )*([^\s(){}\[\],;.:]+)\s+(?:\([^)]*\)\s*|\{[^}]*\}\s*)*:\s+(\S+)?")
RECORD = re.compile(r"^\s*(?:pub )?(?:record|data)\s+([^\s(){}\[\],;.]+)")
PROOF_FILES = ("Answers.antt", "Invariants.antt", "Choices.antt", "Proof.antt")
LIBRARY = re.compile(r"^\s*(?:ghost )?use (?:Rattle\.(?:std|core|alloc)|lib|native|borrow|denote|mathlib|Prim)\b[^{]*(?:\{([^}]*)\})?")


# lemmas that would have their function's name, and a word that another word's new name would meet
CHOSEN = {"code-test": "code_test_lem", "good-test": "good_test_lem", "held_test": "held_test_lem", "key-at": "expanded_at"}
# new names that are also the name of a function of src/, whose folder of proofs shows it
SHARED = {"add_round_key", "mix_columns", "next_key", "shift_rows", "sub_bytes"}


def spelled(name):
    if name in CHOSEN:
        return CHOSEN[name]
    if re.match(r"^[A-Z][a-z]", name):
        return "".join(part[0].upper() + part[1:] for part in name.split("-"))
    words = name.replace("getD", "get_or")
    words = re.sub(r"(?<=[a-z0-9])([A-Z])(?=[a-z0-9]|$)", lambda m: "_" + m.group(1).lower(), words)
    return words.replace("-", "_")


def files(ends):
    for folder, dirs, names in os.walk("crates"):
        dirs[:] = sorted(d for d in dirs if d != "out")
        for name in sorted(names):
            if name.endswith(ends):
                yield os.path.join(folder, name)


def read(path):
    with open(path, encoding="utf-8") as f:
        return f.read()


def imported(text):
    found = set()
    for line in text.splitlines():
        m = LIBRARY.match(line)
        if m and m.group(1):
            found |= {w.strip().split(" as ")[-1] for w in m.group(1).split(",")}
    return found


def declared():
    """The repository's own names, and those that Rattle gives to goals."""
    own, goals = set(), set()
    for path in files(".antt"):
        for line in read(path).splitlines():
            m = RECORD.match(line)
            if m:
                own.add(m.group(1))
                continue
            m = SIGNATURE.match(line)
            if m and path.endswith(PROOF_FILES) and (m.group(2) or "").startswith(("goal.", "need.", "loop.", "given.")):
                goals.add(m.group(1))
            elif m:
                own.add(m.group(1))
    return own - goals, goals


def turned(path, text, new):
    library = imported(text)
    proof = os.path.basename(path) in PROOF_FILES
    out, last = [], 0
    for m in TOKEN.finditer(text):
        word = m.group(0)
        if word not in new or word in library:
            continue
        before = text[: m.start()]
        # the steps of a function, which Rattle names, stand right behind `c.`, `l.` and `w.`
        if proof and re.search(r"(?:^|[\s(])[clw]\.$", before[-3:]):
            continue
        out += [text[last : m.start()], new[word]]
        last = m.end()
    return "".join(out) + text[last:]


def main():
    own, goals = declared()
    new = {n: spelled(n) for n in own if spelled(n) != n}
    seen = {}
    for n, s in sorted(new.items()):
        seen.setdefault(s, []).append(n)
    tokens = {}
    for path in files(".antt"):
        for word in set(TOKEN.findall(read(path))):
            tokens.setdefault(word, path)
    clashes = [f"{ns} would both be {s}" for s, ns in seen.items() if len(ns) > 1]
    clashes += [f"{n}: {s} is in use in {tokens[s]}" for n, s in sorted(new.items()) if s in tokens and s not in SHARED and s not in new]
    clashes += [f"{n} is a goal's name too" for n in sorted(set(new) & goals)]
    if clashes:
        print("\n".join(clashes), file=sys.stderr)
        return 1
    for path in files((".antt", ".rt")):
        text = read(path)
        after = turned(path, text, new)
        if after != text:
            with open(path, "w", encoding="utf-8") as f:
                f.write(after)
    rename_hex()
    print(f"{len(new)} names")
    return 0


def rename_hex():
    subprocess.run(["git", "mv", "crates/hex", "crates/hexits"], check=True)
    for path in files((".antt", ".rt")):
        text = read(path)
        after = re.sub(r"\bRattle\.hex\b", "Rattle.hexits", re.sub(r"\buse hex::", "use hexits::", re.sub(r"(?<![\w:])hex::(?=\w)", "hexits::", text)))
        if after != text:
            with open(path, "w", encoding="utf-8") as f:
                f.write(after)
    text = read("crates.txt")
    with open("crates.txt", "w", encoding="utf-8") as f:
        f.write(re.sub(r"\bhex\b", "hexits", text))


if __name__ == "__main__":
    raise SystemExit(main())
