#!/usr/bin/env python3
"""Spells the repository's own definitions and lemmas as today's Rattle does: words in snake case, types and modules in camel case.

usage: tools/respell.py [--list]      at the top of the repository, once, after port.py

It turns each name below crates/*/specs and crates/*/proofs that is declared there (a definition, a lemma, a field, a constructor, or what a
`let`, a pattern or a parameter binds) and has a hump, as keepIf to keep_if, in .antt, .rt and .edit files and in the pages. A dash in a lemma's name
stays, since it joins two names, and a part that begins with a capital is a type. Names of src/ have no humps, so that none of them is touched.
--list writes nothing, prints old and new, and names that would fall together.
"""
import os
import re
import subprocess
import sys

TOKEN = re.compile(r"[^\s(){}\[\].,;:@\"«»`·λ]+")
HUMP = re.compile(r"(?<=[a-z0-9'₀-₉])(?=[A-Z])")
# Words of the library that an older kit spelled otherwise, in names of lemmas about them.
LIBRARY = {"getD": "get_or"}
# A name of the papers, and names that Rattle makes.
LEAVE = {"cJoin", "theRun", "theStart", "theTable", "theSerialLog"}
# A lemma that would take the new name of the definition that it is about.
FIRST = {"crates/intake/proofs/Ends.antt": {"after_table": "behind_table"}}


def turned(name):
    if name in LEAVE or not re.match(r"[A-Za-z]", name) or not re.fullmatch(r"[\w'₀-₉≡≢→<≤∷+*-]+", name):
        return name
    parts = []
    for p in name.split("-"):
        p = LIBRARY.get(p, p)
        if re.match(r"[a-z]", p) and HUMP.search(p):
            p = "_".join(q if len(q) > 1 and q.isupper() else q[:1].lower() + q[1:] for q in HUMP.split(p))
        parts.append(p)
    return "-".join(parts)


def files(top):
    listed = subprocess.run(["git", "ls-files"], cwd=top, capture_output=True, text=True, check=True).stdout.split("\n")
    for f in listed:
        if re.match(r"crates/.*\.(antt|rt|edit)$", f) or re.match(r"(docs/.*|README|harness/README|rust/README)\.md$", f) or f == "README.md":
            yield f


def code(text):
    return re.sub(r"--[^\n]*|//[^\n]*", "", text)


def main():
    top = os.getcwd()
    texts = {f: open(f, encoding="utf-8").read() for f in files(top)}
    used = {}
    library = set()
    for f, t in texts.items():
        if f.endswith((".antt", ".rt")):
            for m in re.finditer(r"^(?:pub )?(?:ghost )?(?:pub )?use (?!Rattle\.(?!std))[^\n{]*\{([^}]*)\}", t, re.M):
                library |= {w for w in re.split(r"[\s,]+", m[1]) if w}
            for w in TOKEN.findall(code(t)):
                used.setdefault(w, set()).add(f)
    names = {w: turned(w) for w in used if w not in library and turned(w) != w and any(f.endswith(".antt") or f.endswith(".rt") for f in used[w])}
    together = {}
    for old, new in names.items():
        together.setdefault(new, []).append(old)
    for new, olds in sorted(together.items()):
        if len(olds) > 1:
            print("fall together:", olds, "->", new)
        elif new in used:
            print("is there already:", olds[0], "->", new, sorted(used[new])[:3], "old in", sorted(used[olds[0]])[:3])
    if "--list" in sys.argv:
        for old, new in sorted(names.items()):
            print(old, new)
        return

    def new_name(f, w):
        w = FIRST.get(f, {}).get(w, w)
        if w in names:
            return names[w]
        # Edits and pages still have names that port.py turned in the code.
        if f.endswith((".edit", ".md")) and w not in library and turned(w) in used:
            return turned(w)
        return w

    for f, t in texts.items():
        n = TOKEN.sub(lambda m: new_name(f, m[0]), t)
        if n != t:
            with open(f, "w", encoding="utf-8") as it:
                it.write(n)


main()
