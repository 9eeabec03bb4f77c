#!/usr/bin/env python3
"""Respells the lemmas that stand indented, in a module or after a `where`, as tools/respell.py does the others: words in snake case.

usage: tools/respell_inner.py            at the top: rewrites crates/*/specs and proofs, and the names in docs' backticks
       tools/respell_inner.py --list     prints the pairs, and writes nothing

The pairs are kept in tools/respelled_inner.tsv, so that files that come later are respelled alike.
A name that would fall together with another one ends in _lem.
"""

import glob
import os
import re
import sys

# Fields of a record that stands in a module.
FIELDS = {"before-i", "before-j", "before-r"}
PAIRS = "tools/respelled_inner.tsv"
TOKEN = re.compile(r"[^\s(){}\[\],;:|\"`λ⌜⌝⟦⟧«»=→&*!<>#/\\.]+")


def read(path):
    with open(path, encoding="utf-8") as it:
        return it.read()


def files():
    return sorted(glob.glob("crates/*/specs/**/*.antt", recursive=True) + glob.glob("crates/*/proofs/**/*.antt", recursive=True))


def names():
    inner, words, elsewhere = set(), set(), set()
    own = {os.path.basename(c) for c in glob.glob("crates/*")}
    for path in files():
        text = read(path)
        for line in text.splitlines():
            m = re.match(r"^use ([\w.+-]+)\.\{([^}]*)\}", line)
            if m:
                head = m.group(1).split(".")
                if not (head[0] == "Rattle" and head[1] in own):
                    for word in m.group(2).split(","):
                        elsewhere.update(word.strip().split(" as "))
        words.update(TOKEN.findall(text))
        if not re.match(r"crates/\w+/(specs|proofs)/[^/]*$", path):
            continue
        for line in text.splitlines():
            m = re.match(r"^\s+(?:abbrev )?(?:pub )?([^\s:(){}λ.,;\[]+)(?: \{[^}]*\})*\s*:(?:\s|$)", line)
            if not m:
                m = re.match(r"^(?:(?:unfoldable|abbrev|pub)\s+)*([^\s:(){}λ.,]+)(?: [({][^)}]*[)}])*\s*:(?:\s|$)", line)
                if line.startswith(("use", "--", " ")):
                    m = None
            if m and re.match(r"^[a-z][\w'-]*$", m.group(1)) and "-" in m.group(1):
                inner.add(m.group(1))
    return inner - elsewhere, words


def pairs():
    if os.path.exists(PAIRS):
        return dict(line.split("\t") for line in read(PAIRS).splitlines())
    inner, words = names()
    turned = {}
    for name in sorted(inner):
        new = name.replace("-", "_")
        while new in words or new in turned.values():
            new += "_lem"
        turned[name] = new
    return turned


def respell(text, turned):
    def one(m):
        before = text[: m.start()]
        if m.group(0) not in FIELDS and before.endswith(".") and not re.search(r"(?<![\w'-])(?:[A-Z]\w*|K|o)\.$", before):
            return m.group(0)
        return turned.get(m.group(0), m.group(0))

    return TOKEN.sub(one, text)


def main(words):
    turned = pairs()
    if "--list" in words:
        print("\n".join(f"{a}\t{b}" for a, b in turned.items()))
        return 0
    with open(PAIRS, "w", encoding="utf-8") as it:
        it.write("".join(f"{a}\t{b}\n" for a, b in turned.items()))
    for path in files():
        text = read(path)
        new = respell(text, turned)
        if new != text:
            open(path, "w", encoding="utf-8").write(new)
    for path in ["README.md"] + sorted(glob.glob("docs/*.md")):
        text = read(path)
        new = re.sub(r"`[^`\n]+`", lambda m: respell(m.group(0), turned), text)
        if new != text:
            open(path, "w", encoding="utf-8").write(new)
    return 0


if __name__ == "__main__":
    raise SystemExit(main(sys.argv[1:]))
