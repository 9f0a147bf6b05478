#!/usr/bin/env python3
"""Respells the repository's own definitions and lemmas, once, after the toolchain's script turned the rest.

usage: python3 tools/respell.py [--look]     at the top of the repository

Words are in snake case, and types, records and facts in upper camel case: `front-worth` becomes `front_worth`, `Sum-is` becomes `SumIs`.
It renames what a file of specs/ or proofs/ of this repository declares: definitions, lemmas, fields, local functions. What the toolchain makes (the
names of goals and of steps) and what its library declares stay as they are, and so do comments, strings, inputs and outputs. Names that
would fall together are printed. With --look it only prints.
"""

import collections
import os
import re
import sys

TOKEN = re.compile(r"[A-Za-z_ℕℤ][\w'≤≡ℕℤ*+]*(?:-[\w'≤≡ℕℤ*+]+)*")
DECLARED = re.compile(r"\s*(?:(?:abbrev|unfoldable|pub|let) )*(record |data )?(" + TOKEN.pattern + r")(?=[\s({])(.*)")
# A name that an import gives to what another file declares.
NAMED = re.compile(r"\bas (" + TOKEN.pattern + r")")
# A goal is answered under its own name: not ours.
ANSWER = re.compile(r"\s*(?:(?:abbrev|pub) )*(" + TOKEN.pattern + r") : goal\.")
# Names that a rule does not fit: the new name is taken, or it would not be read.
OTHERS = {}


def files(*ends):
    for folder, dirs, names in os.walk("crates"):
        dirs[:] = sorted(d for d in dirs if d != "out")
        for name in sorted(names):
            if name.endswith(ends):
                yield os.path.join(folder, name)


def read(path):
    with open(path, encoding="utf-8") as f:
        return f.read()


def respelled(name):
    if name in OTHERS:
        return OTHERS[name]
    parts = name.split("-")
    if name[0].isupper():
        return parts[0] + "".join(p[:1].upper() + p[1:] for p in parts[1:])
    return "_".join(parts)


def declared():
    """The names with a dash that this repository declares, each with its files."""
    found, answers = collections.defaultdict(set), set()
    for path in files(".antt"):
        for line in read(path).splitlines():
            if line.lstrip().startswith(("use ", "pub use ")):
                for name in NAMED.findall(line):
                    if "-" in name:
                        found[name].add(path)
                continue
            if line.lstrip().startswith("--"):
                continue
            a = ANSWER.match(line)
            if a:
                answers.add(a[1])
                continue
            m = DECLARED.match(line)
            if m and "-" in m[2] and (m[1] or re.search(r"(^|\s):(\s|$)", m[3])):
                found[m[2]].add(path)
    return {n: p for n, p in found.items() if n not in answers}


def code(text, mark):
    """The text in pieces: (is it code, piece); comments and strings are not."""
    pattern = re.compile(mark + r"[^\n]*|\"(?:\\.|[^\"\\])*\"" if mark == "//" else r"(?<!\S)--(?=\s)[^\n]*|^--$", re.M)
    at = 0
    for m in pattern.finditer(text):
        yield True, text[at : m.start()]
        yield False, m[0]
        at = m.end()
    yield True, text[at:]


def main(argv):
    look = "--look" in argv
    names = {n: respelled(n) for n in declared()}
    by_new = collections.defaultdict(list)
    for old, new in names.items():
        by_new[new].append(old)
    for new, olds in sorted(by_new.items()):
        if len(olds) > 1:
            print(f"fall together as {new}: {', '.join(sorted(olds))}")
    for path in files(".antt", ".rt"):
        text = read(path)
        mark = "//" if path.endswith(".rt") else "--"
        seen = set()
        for is_code, piece in code(text, mark):
            if is_code:
                seen |= set(TOKEN.findall(piece))
        for old in sorted(seen & set(names)):
            if names[old] in seen:
                print(f"{path}: {old} becomes {names[old]}, which stands there already")
        if look or not seen & set(names):
            continue
        out = []
        for is_code, piece in code(text, mark):
            out.append(TOKEN.sub(lambda m: names.get(m[0], m[0]), piece) if is_code else piece)
        with open(path, "w", encoding="utf-8") as f:
            f.write("".join(out))
    print(f"{len(names)} names")
    if look:
        for old, new in sorted(names.items()):
            print(f"  {old} {new}")
    return 0


if __name__ == "__main__":
    raise SystemExit(main(sys.argv[1:]))
