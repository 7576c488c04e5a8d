#!/usr/bin/env python3
"""Respells this repository's own ghost names: definitions and lemmas in snake case, types in camel case.

usage: tools/snake-names.py     at the top of the repository, once, after the kit's port.py

Takes the names that specs/ and proofs/ define, fields of their records, and what a use line calls a name by 'as'.
Leaves names of the library, names of goals, functions and fields of src/, comments, strings and inputs.
"""

import os
import re

WORD = r"[^\s(){}\[\].;,:\u231c\u231d]+"
MODIFIERS = r"((?:abbrev |unfoldable |pub |data |record )*)"
DEFINED = re.compile(r"^\s*" + MODIFIERS + "(" + WORD + r")((?:\s*\{[^}]*\}|\s*\([^)]*\))*)\s*:\s+(.*)$", re.M)
FIELD = re.compile(r"^  (?:pub )?(" + WORD + r")\s*:\s", re.M)
RECORD = re.compile(r"^\s*(?:abbrev |unfoldable |pub )*record .*\n((?:^  .*\n|^\s*\n)+)", re.M)
CALLED = re.compile(r"\bas (" + WORD + ")")
LOCAL = re.compile(r"\blet (" + WORD + r")\s*[:=]|[(\u03bb](?: ?)(" + WORD + r")(?: :|\.)")

# The one name that would fall together with a field of src/ (the ghost field of issuers::Band).
TAKEN = {"in-range": "is_in_range"}


def files():
    for folder, dirs, names in os.walk("crates"):
        dirs[:] = sorted(d for d in dirs if d != "out")
        for name in sorted(names):
            if name.endswith((".antt", ".rt")):
                yield os.path.join(folder, name)


def comment(path):
    return re.compile(r"--[ -].*|--$", re.M) if path.endswith(".antt") else re.compile(r"//.*")


def respelled(name):
    if name in TAKEN:
        return TAKEN[name]
    parts = name.split("-")
    if name[0].isupper():
        return parts[0] + "".join(p[:1].upper() + p[1:] for p in parts[1:])
    return "_".join(parts)


def own_names():
    own, fields, goals = set(), set(), set()
    for path in files():
        with open(path, encoding="utf-8") as f:
            text = comment(path).sub("", f.read())
        for line in re.findall(r"^(?:ghost )?(?:pub )?(?:unfoldable )?(?:pub )?use .*", text, re.M):
            own |= {n for n in CALLED.findall(line) if "-" in n}
        if not path.endswith(".antt"):
            continue
        for body in RECORD.findall(text):
            fields |= {n for n in FIELD.findall(body) if "-" in n}
        for _, name, _, type_ in DEFINED.findall(text):
            if type_.startswith("goal."):
                goals.add(name)
            elif "-" in name and re.search(r"\w", name):
                own.add(name)
        for pair in LOCAL.findall(text):
            own |= {n for n in pair if re.fullmatch(r"[^\W\d_]\w*(?:-\w+)+'*", n)}
        goals |= set(re.findall(r"goal\.(" + WORD + ")", text))
    return (own | fields) - goals, fields


def main():
    own, fields = own_names()
    new = {}
    for name in own:
        assert respelled(name) not in new, name
        new[respelled(name)] = name

    def turn(m):
        word, behind_dot = m[2], m[1] == "."
        if word not in own or (behind_dot and word not in fields):
            return m[0]
        return m[1] + respelled(word)

    word = re.compile(r"(\.?)(" + WORD + ")")
    for path in files():
        with open(path, encoding="utf-8") as f:
            text = f.read()
        out, at = [], 0
        for c in comment(path).finditer(text):
            out += [word.sub(turn, text[at : c.start()]), c[0]]
            at = c.end()
        out.append(word.sub(turn, text[at:]))
        turned = "".join(out)
        if turned != text:
            with open(path, "w", encoding="utf-8") as f:
                f.write(turned)
    print(len(own), "names respelled")


main()
