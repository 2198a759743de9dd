#!/usr/bin/env python3
"""Brings the repository's own names to one spelling: words in snake case, types and modules in camel case.

usage: python3 tools/respell.py [FOLDER]     once, right after the kit's port.py, at the top of the repository (or of FOLDER, a checkout of it)

tools/respell.tsv names each word: old, new, and where: 'name' in .antt and .rt files, edits and pages; 'law' a law that would have had the name of a definition, in proofs/
alone and never behind a dot; 'text' what port.py respelt in .antt and .rt files, for edits and pages, which it does not read.
Names of functions in src/ and of C exports are in snake case already and stay. Behind a dot stand fields and modules: of the words with a dash the spelling alone changes there.
"""

import os
import re
import sys

HERE = os.path.dirname(os.path.realpath(__file__))
WORD = re.compile(r"[^\s(){}λ,;.=\[\]⌜⌝→×⟦⟧\"`|↦:/]+")


def table():
    names, laws, texts = {}, {}, {}
    with open(os.path.join(HERE, "respell.tsv"), encoding="utf-8") as f:
        for line in f:
            old, new, where = line.rstrip("\n").split("\t")
            {"name": names, "law": laws, "text": texts}[where][old] = new
    return names, laws, texts


def turned(text, names, laws):
    said = [m.span() for m in re.finditer(r"(?m)(?:--|//) .*$|^(?:wrong|refused): .*$", text)]

    def one(m):
        w = m.group(0)
        # a word with a dash in a sentence, as well-formed, is English unless it stands between ticks
        if "-" in w and text[m.start() - 1] != "`" and any(a <= m.start() < b for a, b in said):
            return w
        dotted = m.start() > 0 and text[m.start() - 1] == "."
        if dotted:
            if w in names:
                new = names[w]
                return w.replace("-", "_") if "-" in w and new.endswith("_lem") else new
            return w
        return names.get(w) or laws.get(w) or w

    return WORD.sub(one, text)


def in_ticks(text, names):
    return re.sub(r"`[^`\n]+`", lambda m: turned(m.group(0), names, {}), text)


def main(root):
    names, laws, texts = table()
    both = dict(names)
    for old, new in texts.items():
        both.setdefault(old, names.get(new, new))
    n = 0
    for folder, dirs, files in os.walk(root):
        # cargo's folder target is left out, and not the folder of a function of that name
        dirs[:] = [d for d in dirs if d not in (".git", "out", "tools") and not (d == "target" and "/proofs" not in folder)]
        for name in files:
            path = os.path.join(folder, name)
            inside = os.path.relpath(path, root)
            if name.endswith((".antt", ".rt", ".edit")) and inside.startswith("crates/") or name.endswith(".md"):
                with open(path, encoding="utf-8") as f:
                    text = f.read()
                if name.endswith(".md"):
                    new = in_ticks(text, both)
                elif name.endswith(".edit"):
                    new = turned(text, both, {})
                else:
                    new = turned(text, names, laws if "/proofs/" in inside else {})
                if new != text:
                    with open(path, "w", encoding="utf-8") as f:
                        f.write(new)
                    n += 1
    print(f"respell: {n} files")


if __name__ == "__main__":
    main(sys.argv[1] if len(sys.argv) > 1 else ".")
